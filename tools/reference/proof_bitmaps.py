"""Lists of bits in chunks, and bitmaps with a root over their full chunks: everything made anew from the whole list."""

import forest
from forest import sha256
from proof_trees import Malformed, Rebuilt, peaks_of, plain_branch, plain_leaf, range_digests


def chunk_of(width, bits):
    """A chunk of `width` bytes, with zeros where there are no more bits."""
    number = sum(1 << at for at, bit in enumerate(bits[: 8 * width]) if bit)
    return number.to_bytes(width, "little")


class Bits:
    """A list of bits of which whole chunks are pruned: what was pruned before the list began is not known."""

    def __init__(self, width, pruned=0):
        self.width, self.size = width, 8 * width
        self.unknown = pruned
        self.pruned = pruned
        self.known = []

    def count(self):
        return self.unknown * self.size + len(self.known)

    def at(self, bit):
        return self.known[bit - self.unknown * self.size]

    def set(self, bit, value):
        self.known[bit - self.unknown * self.size] = value

    def chunk(self, index):
        first = (index - self.unknown) * self.size
        return chunk_of(self.width, self.known[first : first + self.size])

    def full(self):
        return self.count() // self.size

    def is_kept(self, bit):
        return self.pruned * self.size <= bit < self.count()

    def last(self):
        """The last chunk and how many of its bits there are."""
        kept = self.count() - self.pruned * self.size
        if kept == 0:
            return bytes(self.width), 0
        index = (self.count() - 1) // self.size
        return self.chunk(index), self.count() - index * self.size


class Map:
    """A bitmap: its bits, the hasher's fold, and how many chunks had a leaf when its root was made."""

    def __init__(self, width, bagging, pruned=0, pinned=()):
        self.bits = Bits(width, pruned)
        self.bagging = bagging
        self.pinned = {}
        if pruned:
            self.pinned = dict(zip([p.position for p in peaks_of("mmr", pruned)], pinned))
        self.merkleized = True
        self.leaves = pruned

    def node(self, node):
        """The digest of a node of the tree of the chunks."""
        if node.position in self.pinned:
            return self.pinned[node.position]
        if node.left is None:
            return forest.leaf_digest(node.position, self.bits.chunk(node.first))
        return plain_branch(node, self.node(node.left), self.node(node.right))

    def tree_root(self):
        peaks = peaks_of("mmr", self.leaves)
        return forest.root(self.bagging, self.leaves, 0, [self.node(peak) for peak in peaks])

    def root(self):
        if self.bits.count() % self.bits.size == 0:
            return self.tree_root()
        last, _ = self.bits.last()
        return partial_root(self.tree_root(), self.bits.count(), sha256(last))

    def node_at(self, position):
        """The digest of a node that is kept: from the pruned leaves on, or one of the peaks over these."""
        pruned = forest.grow("mmr", self.bits.pruned)
        grown = forest.grow("mmr", self.leaves)
        pinned = [peak.position for peak in pruned.peaks]
        if position < len(grown.nodes) and (position >= len(pruned.nodes) or position in pinned):
            return self.node(grown.nodes[position])
        return None

    def parts(self):
        return [self.node(peak) for peak in peaks_of("mmr", self.bits.pruned)]

    def proof(self, bit):
        """The leaves, the inactive peaks, the digests, and the chunk of the bit."""
        bits, size = self.bits, self.bits.size
        index = bit // size
        aligned = bits.count() % size == 0
        if not aligned and index == bits.full():
            digests = [self.tree_root()]
        else:
            peaks = peaks_of("mmr", self.leaves)
            digests = range_digests(peaks, self.node, index, index + 1, 0, self.bagging)
            if not aligned:
                digests.append(sha256(bits.last()[0]))
        return bits.count(), 0, digests, bits.chunk(index)


def partial_root(tree_root, bits, last_digest):
    return sha256(tree_root + forest.number(bits) + last_digest)


def led_root(width, bagging, leaves, inactive, digests, chunk, bit):
    """The root that the proof of a bit leads to, or None."""
    size = 8 * width
    if bit >= leaves or inactive:
        return None
    full, index = leaves // size, bit // size
    if leaves % size == 0:
        return chunk_root(bagging, full, index, digests, chunk)
    if not digests:
        return None
    *digests, last = digests
    if index == full:
        return None if digests else partial_root(last, leaves, sha256(chunk))
    tree_root = chunk_root(bagging, full, index, digests, chunk)
    return None if tree_root is None else partial_root(tree_root, leaves, last)


def chunk_root(bagging, full, index, digests, chunk):
    """The root of the tree of so many chunks that the proof of one leads to, or None."""
    leaf = plain_leaf([chunk], index)
    try:
        return Rebuilt("mmr", full, index, index + 1, 0, bagging, digests, leaf, plain_branch).root
    except Malformed:
        return None
