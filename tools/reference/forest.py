"""The forest of a list of leaves, grown leaf by leaf, and the strings that are hashed over it.

Nothing is computed by a closed formula here: a forest is what appending its leaves one after the other makes. Other
references import this module:

    forest = grow("mmb", 11)                 the nodes in order of birth, and the peaks from left to right
    forest.nodes[7].height, .first, .stop    the height of node 7, and the leaves `first..stop` below it
    digests = node_digests(forest, leaves)   the digest of each node, from those of the leaves
    root("backward", 11, 2, [...])           the root, from the digests of the peaks
"""

import functools
import hashlib

MAX_LEAVES = 2**62
MAX_NODES = 2**63 - 1

FAMILIES = ("mmr", "mmb")
BAGGINGS = {"forward": 0, "backward": 1}


class Node:
    """A node: its position, its height, the leaves `first..stop` below it, and its children if it is no leaf."""

    def __init__(self, position, height, first, stop, left=None, right=None):
        self.position = position
        self.height = height
        self.first = first
        self.stop = stop
        self.left = left
        self.right = right

    def leaves(self):
        return range(self.first, self.stop)


class Forest:
    """The forest of some leaves of a family: its nodes in order of birth, and its peaks from left to right."""

    def __init__(self, family):
        assert family in FAMILIES
        self.family = family
        self.nodes = []
        self.peaks = []
        self.count = 0

    def append(self):
        """Appends a leaf, and merges peaks by the rule of the family."""
        leaf = Node(len(self.nodes), 0, self.count, self.count + 1)
        self.nodes.append(leaf)
        self.peaks.append(leaf)
        self.count += 1
        if self.family == "mmr":
            while len(self.peaks) > 1 and self.peaks[-1].height == self.peaks[-2].height:
                self.merge(len(self.peaks) - 2)
        else:
            for at in range(len(self.peaks) - 2, -1, -1):
                if self.peaks[at].height == self.peaks[at + 1].height:
                    self.merge(at)
                    break

    def merge(self, at):
        """Puts a branch over the peak numbered `at` and the one after it."""
        left, right = self.peaks[at : at + 2]
        branch = Node(len(self.nodes), left.height + 1, left.first, right.stop, left, right)
        self.nodes.append(branch)
        self.peaks[at : at + 2] = [branch]

    def leaf(self, location):
        """The node of the leaf at a location."""
        return next(node for node in self.nodes if node.height == 0 and node.first == location)


@functools.lru_cache(maxsize=None)
def grow(family, count):
    """The forest of so many leaves. It is shared: do not append to it."""
    forest = Forest(family)
    for _ in range(count):
        forest.append()
    return forest


def inactive_peaks(forest, floor):
    """How many of the first peaks have all their leaves before the floor."""
    count = 0
    for peak in forest.peaks:
        if peak.stop > floor:
            break
        count += 1
    return count


def leaves_of_size(family, size):
    """How many leaves the forest of so many nodes has, or None where no forest has that many."""
    forest = Forest(family)
    while len(forest.nodes) < size:
        forest.append()
    return forest.count if len(forest.nodes) == size else None


def sha256(data):
    return hashlib.sha256(data).digest()


def number(value):
    """Eight bytes, the greatest first."""
    return value.to_bytes(8, "big")


def leaf_digest(position, element):
    return sha256(number(position) + element)


def branch_digest(position, left, right):
    return sha256(number(position) + left + right)


def made_of_pinned(peaks, pinned):
    """What gives a node's digest, made of the pinned ones, one for each of these peaks. None where their number differs."""
    if len(pinned) != len(peaks):
        return None
    known = {peak.position: digest for peak, digest in zip(peaks, pinned)}

    def made(node):
        if node.position in known:
            return known[node.position]
        return branch_digest(node.position, made(node.left), made(node.right))

    return made


def fold(left, right):
    return sha256(left + right)


def fold_forward(digests):
    """The fold from the left. One digest is itself; of none it is None."""
    return functools.reduce(fold, digests) if digests else None


def fold_backward(digests):
    """The fold from the right. One digest is itself; of none it is None."""
    return functools.reduce(lambda acc, item: fold(item, acc), reversed(digests)) if digests else None


def bag(bagging, inactive, peaks):
    """The one digest that stands for the peaks: the inactive ones are folded from the left into one item."""
    items = ([fold_forward(peaks[:inactive])] if inactive else []) + list(peaks[inactive:])
    return fold_forward(items) if bagging == "forward" else fold_backward(items)


def root_string(bagging, leaves, inactive, bagged):
    """What a root is the hash of. `bagged` is None where there is no peak."""
    parts = [number(leaves), bytes([BAGGINGS[bagging]])]
    if inactive:
        parts.append(number(inactive))
    if bagged is not None:
        parts.append(bagged)
    return b"".join(parts)


def root(bagging, leaves, inactive, peaks):
    """The root over these digests of peaks, or None where fewer peaks stand than are inactive."""
    if inactive > len(peaks):
        return None
    return sha256(root_string(bagging, leaves, inactive, bag(bagging, inactive, peaks)))


def node_digests(forest, leaf_digests):
    """The digest of each node of the forest, from those of its leaves."""
    digests = []
    for node in forest.nodes:
        if node.left is None:
            digests.append(leaf_digests[node.first])
        else:
            left, right = digests[node.left.position], digests[node.right.position]
            digests.append(branch_digest(node.position, left, right))
    return digests


def element_digests(forest, elements):
    """The digests of the leaves of these elements."""
    return [leaf_digest(forest.leaf(at).position, element) for at, element in enumerate(elements)]


def root_of_elements(family, bagging, elements, inactive=0):
    """The root of the tree of these elements."""
    forest = grow(family, len(elements))
    digests = node_digests(forest, element_digests(forest, elements))
    return root(bagging, len(elements), inactive, [digests[peak.position] for peak in forest.peaks])
