"""States of operations: the grafted tree over the operations and the chunks of their bits, the canonical root, the
proofs that are made and checked against it, and what builders of proofs refuse."""

import forest
from forest import sha256
from proof_bitmaps import chunk_of
from proof_codec import Merkle, Operation, Range, option, string, varint
from proof_trees import Malformed, Rebuilt, peaks_of, plain_branch, plain_leaf, planned, range_digests

MAX_LEAVES = forest.MAX_LEAVES


class Refused(Exception):
    """The number of a refusal, and what it carries."""


def grafting_height(width):
    """The height of a tree over as many operations as a chunk of `width` bytes has bits, or None."""
    bits = 8 * width
    height = bits.bit_length() - 1
    return height if width > 0 and bits == 1 << height and height <= 62 else None


def birth(family, height):
    """How many leaves there are when the first node of this height is born."""
    return 1 << height if family == "mmr" else 3 * (1 << height - 1) - 1


def graftable(family, leaves, height):
    """How many chunks of 2^height leaves have their node: of forests that are grown these nodes are counted."""
    if leaves < 1 << 12:
        return sum(1 for node in forest.grow(family, leaves).nodes if node.height == height)
    first = birth(family, height)
    return 0 if leaves < first else (leaves - first) // (1 << height) + 1


def aligned_peaks(family, leaves, floor, bits):
    """How many first peaks end by the floor, up to the last of them that ends at the border of a chunk."""
    count, found = 0, 0
    for peak in peaks_of(family, leaves):
        if peak.stop > floor:
            break
        count += 1
        found = count if peak.stop % bits == 0 else found
    return found


def size(family, leaves):
    """How many nodes the forest of so many leaves has."""
    if family == "mmr":
        return 2 * leaves - bin(leaves).count("1")
    return 2 * leaves - ((leaves + 1).bit_length() - 1)


def root_position(family, first, height):
    """The position of the node of a height, above leaves, over the leaves from `first` on."""
    if height == 0:
        return size(family, first)
    if family == "mmr":
        return size(family, first) + (2 << height) - 2
    return size(family, first + birth(family, height) - 1) + 1


def node_at(family, position):
    """The node at a position."""
    leaves = 1
    while len(forest.grow(family, leaves).nodes) <= position:
        leaves += 1
    return forest.grow(family, leaves).nodes[position]


def graft(chunk, digest):
    return digest if not any(chunk) else sha256(chunk + digest)


def sealed(operations, grafted, pending, next_bit, partial):
    """The digest of the canonical string."""
    string = operations + grafted + (pending or b"")
    return sha256(string if partial is None else string + forest.number(next_bit) + partial)


class Tree:
    """A tree of leaf digests of which leaves are pruned from the front: what it still has, and what it hashes."""

    def __init__(self, family, leaf_digests, branch):
        self.family, self.count, self.branch = family, len(leaf_digests), branch
        self.leaf_digests, self.boundary = leaf_digests, 0

    def digest(self, node):
        if node.left is None:
            return self.leaf_digests[node.first]
        return self.branch(node, self.digest(node.left), self.digest(node.right))

    def known(self, position):
        grown, pruned = forest.grow(self.family, self.count), forest.grow(self.family, self.boundary)
        pinned = [peak.position for peak in pruned.peaks]
        if position < len(grown.nodes) and (position >= len(pruned.nodes) or position in pinned):
            return self.digest(grown.nodes[position])
        return None

    def prune(self, location):
        if location > self.count:
            raise Refused(f"M7 {location}")
        self.boundary = max(self.boundary, location)


class State:
    """Operations, whether each is active, the floor, and both trees."""

    def __init__(self, family, width):
        self.family, self.width = family, width
        self.height = grafting_height(width)
        self.operations, self.bits, self.floor, self.pruned, self.log = [], [], 0, 0, []
        self.boundary, self.grafted = 0, None

    def tree(self):
        grown = forest.grow(self.family, len(self.operations))
        tree = Tree(self.family, forest.element_digests(grown, self.operations), plain_branch)
        tree.boundary = self.boundary
        return tree

    def operations_root(self, inactive):
        tree, peaks = self.tree(), peaks_of(self.family, len(self.operations))
        if inactive > len(peaks):
            raise Refused("M16")
        return forest.root("backward", len(self.operations), inactive, [tree.digest(peak) for peak in peaks])

    # The whole state.

    def chunks(self):
        count = -(-len(self.operations) // (8 * self.width))
        return [chunk_of(self.width, self.bits[8 * self.width * at :]) for at in range(count)]

    def joined(self, node):
        """The digest of a node of the grafted tree."""
        if node.left is None:
            return forest.leaf_digest(node.position, self.operations[node.first])
        digest = plain_branch(node, self.joined(node.left), self.joined(node.right))
        if node.height != self.height:
            return digest
        return graft(self.chunks()[node.first // (8 * self.width)], digest)

    def aligned(self):
        return aligned_peaks(self.family, len(self.operations), self.floor, 8 * self.width)

    def parts(self):
        """The root of the operations, that of the grafted tree, the pending digest, and the partial one."""
        count, chunks, bits = len(self.operations), self.chunks(), 8 * self.width
        peaks = peaks_of(self.family, count)
        inactive = forest.inactive_peaks(forest.grow(self.family, count), self.floor)
        digests = [self.joined(peak) for peak in peaks]
        grafted = forest.root("backward", count, self.aligned(), digests)
        have = graftable(self.family, count, self.height)
        pending = sha256(chunks[have]) if have < count // bits else None
        partial = sha256(chunks[-1]) if count % bits else None
        return self.operations_root(inactive), grafted, pending, partial

    def canonical_root(self):
        operations, grafted, pending, partial = self.parts()
        return sealed(operations, grafted, pending, len(self.operations) % (8 * self.width), partial)

    def honest_range(self, start, stop):
        """The proof over a range."""
        operations, _, pending, partial = self.parts()
        count = len(self.operations)
        peaks = peaks_of(self.family, count)
        digests = range_digests(peaks, self.joined, start, stop, self.aligned(), "backward")
        return Range(Merkle(count, self.aligned(), digests), pending, partial, operations)

    def honest(self, location):
        """The proof of the operation at a location."""
        return Operation(location, self.chunks()[location // (8 * self.width)], self.honest_range(location, location + 1))

    def range_bytes(self, start, stop):
        """The bytes that prove the operations of a range and their bits: the proof, and the chunks over them."""
        bits = 8 * self.width
        chunks = self.chunks()[start // bits : (stop - 1) // bits + 1]
        return self.honest_range(start, stop).written(self.family) + b"".join(chunks)

    def witness(self):
        """What leads from the root of the operations to the canonical one, as bytes."""
        _, grafted, pending, partial = self.parts()
        said = grafted + (option(pending) if self.family == "mmb" else b"")
        return said + (b"\0" if partial is None else b"\1" + varint(len(self.operations) % (8 * self.width)) + partial)

    def slice_bytes(self, start, stop):
        """The bytes that prove that the log has the operations of a range: the witness, and the proof in their tree."""
        count, tree = len(self.operations), self.tree()
        inactive = forest.inactive_peaks(forest.grow(self.family, count), self.floor)
        digests = range_digests(peaks_of(self.family, count), tree.digest, start, stop, inactive, "backward")
        return self.witness() + Merkle(count, inactive, digests).written()

    # Both trees.

    def make_chunks(self, height, leaves):
        """The tree of the chunks, each over the operations' node at a position."""
        tree, digests = self.tree(), []
        for position, chunk in leaves:
            below = tree.known(position)
            if below is None:
                raise Refused(f"M10 {position}")
            digests.append(graft(chunk, below))
        family = self.family

        def branch(node, left, right):
            position = root_position(family, node.first << height, node.height + height)
            return forest.branch_digest(position, left, right)

        self.grafted = height, Tree(family, digests, branch)

    def both(self, position):
        """The digest of a node of the grafted tree that is read of both trees."""
        height, chunks = self.grafted
        node = node_at(self.family, position)
        if node.height < height:
            return self.tree().known(position)
        first, high = node.first >> height, node.height - height
        return self.made(chunks, node_at(self.family, root_position(self.family, first, high)))

    def made(self, chunks, node):
        digest = chunks.known(node.position)
        if digest is not None or node.left is None:
            return digest
        left, right = self.made(chunks, node.left), self.made(chunks, node.right)
        return None if left is None or right is None else chunks.branch(node, left, right)

    def known(self, position):
        return self.tree().known(position) if self.grafted is None else self.both(position)

    # Builders.

    def build(self, start, stop, operations_root, withheld=()):
        """The proof over a range that is within the tree."""
        count = len(self.operations)
        bits = 8 * self.width
        peaks = peaks_of(self.family, count)
        known = lambda position: None if position in withheld else self.known(position)
        for node in planned(peaks, start, stop):
            if known(node.position) is None:
                raise Refused(f"Q3 M10 {node.position}")
        full, have = len(self.bits) // bits, graftable(self.family, count, self.height)
        have = min(have, full)
        if len(self.bits) != count or full - have > 1 or self.pruned > have:
            raise Refused("Q1")
        digests = range_digests(peaks, lambda node: known(node.position), start, stop, self.aligned(), "backward")
        pending = sha256(self.chunk(have)) if have < full else None
        partial = sha256(self.chunk(full)) if count % bits else None
        return Range(Merkle(count, self.aligned(), digests), pending, partial, operations_root)

    def chunk(self, index):
        return chunk_of(self.width, self.bits[8 * self.width * index :])

    def new_range(self, start, stop, operations_root):
        if start >= stop:
            raise Refused("Q3 M4")
        if stop > len(self.operations):
            raise Refused(f"Q3 M5 {stop}")
        return self.build(start, stop, operations_root)

    def is_pruned(self, location):
        return location // (8 * self.width) < self.pruned

    def new_one(self, location, operations_root):
        if self.is_pruned(location):
            raise Refused(f"Q2 {location}")
        if location >= len(self.operations):
            raise Refused(f"Q3 M7 {location}")
        return self.build_one(location, operations_root)

    def build_one(self, location, operations_root, withheld=()):
        if self.is_pruned(location):
            raise Refused(f"Q2 {location}")
        proof = self.build(location, location + 1, operations_root, withheld)
        return Operation(location, self.chunk(location // (8 * self.width)), proof)

    def ask(self, start, most, operations_root):
        """At most so many operations of the log from `start` on: the proof, the operations and the chunks."""
        if start >= len(self.bits):
            raise Refused(f"Q3 M5 {start}")
        if self.is_pruned(start):
            raise Refused(f"Q2 {start}")
        stop = min(start + most, len(self.bits))
        proof = self.new_range(start, stop, operations_root)
        if stop > len(self.log):
            raise Refused("Q1")
        bits = 8 * self.width
        chunks = [self.chunk(index) for index in range(start // bits, (stop - 1) // bits + 1)]
        return proof, self.log[start:stop], chunks


def required(family, width, leaves, bits, pruned, location):
    """The chunks that a proof needs."""
    size_bits = 8 * width
    full = bits // size_bits
    have = min(graftable(family, leaves, grafting_height(width)), full)
    if full - have > 1 or pruned > have:
        raise Refused("Q1")
    needed = set()
    if location is not None:
        if location >= leaves or location >= bits:
            raise Refused(f"Q3 M5 {location}")
        if location // size_bits < pruned:
            raise Refused(f"Q2 {location}")
        needed.add(location // size_bits)
    if have < full:
        needed.add(have)
    if bits % size_bits:
        needed.add(full)
    return sorted(needed)


# Checks.


def fits(digest, is_there, is_covered, chunk):
    """Whether the digest of a chunk is held exactly if the chunk is there, and is that of the one that is shown."""
    if digest is None:
        return not is_there
    return is_there and (not is_covered or digest == sha256(chunk))


def led(family, proof, start, operations, chunks, width):
    """What a range proof leads to from what is shown: what is rebuilt of the grafted tree, and the canonical root.
    `Malformed` where it leads to none."""
    height, bits, leaves = grafting_height(width), 8 * width, proof.merkle.leaves
    stop = start + len(operations)
    if height is None or not operations or leaves > MAX_LEAVES or stop > leaves:
        raise Malformed
    first, last = start // bits, (stop - 1) // bits
    if len(chunks) != last - first + 1 or any(len(chunk) != width for chunk in chunks):
        raise Malformed
    full, have = leaves // bits, graftable(family, leaves, height)

    def fits_at(digest, is_there, index):
        covered = first <= index <= last
        return fits(digest, is_there, covered, chunks[index - first] if covered else b"")

    if full - have > 1 or not fits_at(proof.pending, have < full, have):
        raise Malformed
    if not fits_at(proof.partial, leaves % bits > 0, full):
        raise Malformed

    def branch(node, left, right):
        digest = plain_branch(node, left, right)
        index = node.first // bits
        if node.height != height or index >= have or not first <= index <= last:
            return digest
        return graft(chunks[index - first], digest)

    merkle, leaf = proof.merkle, plain_leaf(operations, start)
    rebuilt = Rebuilt(family, leaves, start, stop, merkle.inactive, "backward", merkle.digests, leaf, branch)
    root = sealed(proof.operations_root, rebuilt.root, proof.pending, leaves % bits, proof.partial)
    return rebuilt, root


def shows_range(family, proof, start, operations, chunks, width, root):
    try:
        return led(family, proof, start, operations, chunks, width)[1] == root
    except Malformed:
        return False


def shows_operation(family, proof, operation, root):
    """Whether a proof shows that an operation stands at its location and is active there."""
    bit = proof.location % (8 * len(proof.chunk)) if proof.chunk else 0
    if grafting_height(len(proof.chunk)) is None or not proof.chunk[bit // 8] >> bit % 8 & 1:
        return False
    return shows_range(family, proof.range, proof.location, [operation], [proof.chunk], len(proof.chunk), root)


def update(key, value, next_key):
    """An update, and a commit, as operations of keys and values of eight bytes: no padding is left in either."""
    return b"\xd2" + key + value + next_key


def commit(value, floor):
    metadata = bytes(9) if value is None else b"\1" + value
    return b"\xd3" + metadata + forest.number(floor) + bytes(7)


def string_update(key, value, next_key):
    """An update, and a commit, as operations of keys and values of any size."""
    return b"\xd2" + string(key) + string(value) + string(next_key)


def string_commit(value, floor):
    return b"\xd3" + option(None if value is None else string(value)) + varint(floor)


def in_span(key, next_key, asked):
    if key < next_key:
        return key <= asked < next_key
    return key == next_key or asked >= key or asked < next_key
