"""Proofs of ranges in a forest, taken apart and put together again: the digests of a range, and the root that they
lead to. Node by node over a forest that is grown leaf by leaf; only of forests past `GROWN` leaves, which no case
proves anything in, the peaks are named by the places of the one bits of their leaf count."""

import functools

import forest

GROWN = 1 << 15


class Spanned:
    """A node of a mountain range that is too large to be grown, by its first leaf and its height."""

    def __init__(self, first, height):
        self.first, self.height, self.stop = first, height, first + (1 << height)
        self.position = 2 * first - bin(first).count("1") + (2 << height) - 2

    @property
    def left(self):
        return Spanned(self.first, self.height - 1) if self.height else None

    @property
    def right(self):
        return Spanned(self.first + (1 << self.height - 1), self.height - 1)


@functools.lru_cache(maxsize=None)
def peaks_of(family, leaves):
    """The peaks of the forest of so many leaves, from left to right. None where they are not named."""
    if leaves <= GROWN:
        return forest.grow(family, leaves).peaks
    if family != "mmr" or leaves > forest.MAX_LEAVES:
        return None
    peaks, first = [], 0
    for height in reversed(range(63)):
        if leaves >> height & 1:
            peaks.append(Spanned(first, height))
            first += 1 << height
    return peaks


def outside(node, start, stop):
    """The maximal nodes of a tree that hold no leaf of the range, from left to right."""
    if node.stop <= start or node.first >= stop:
        return [node]
    if node.left is None:
        return []
    return outside(node.left, start, stop) + outside(node.right, start, stop)


class Parts:
    """The peaks of a proof of a range: those before it that are folded and that stand singly, those after it likewise,
    and those that meet it."""

    def __init__(self, peaks, start, stop, inactive, bagging):
        backward = bagging == "backward"
        before = [(n, p) for n, p in enumerate(peaks, 1) if p.stop <= start]
        after = [(n, p) for n, p in enumerate(peaks, 1) if p.first >= stop]
        self.folded = [p for n, p in before if not backward or n <= inactive]
        self.singly = [p for n, p in before if backward and n > inactive]
        self.later = [p for n, p in after if not backward or n <= inactive]
        self.collapsed = [p for n, p in after if backward and n > inactive]
        self.meeting = [p for p in peaks if p.stop > start and p.first < stop]


def planned(peaks, start, stop):
    """The nodes that a proof of the range is made of: the peaks before it, those after it, and in those that meet it
    the maximal nodes without a leaf of it."""
    before = [p for p in peaks if p.stop <= start]
    after = [p for p in peaks if p.first >= stop]
    meeting = [p for p in peaks if p.stop > start and p.first < stop]
    return before + after + [n for p in meeting for n in outside(p, start, stop)]


def range_digests(peaks, digest_of, start, stop, inactive, bagging):
    """The digests of the proof of a range, in their order."""
    parts = Parts(peaks, start, stop, inactive, bagging)
    found = []
    if parts.folded:
        found.append(forest.fold_forward([digest_of(p) for p in parts.folded]))
    found += [digest_of(p) for p in parts.singly + parts.later]
    if parts.collapsed:
        found.append(forest.fold_backward([digest_of(p) for p in parts.collapsed]))
    return found + [digest_of(n) for p in parts.meeting for n in outside(p, start, stop)]


class Malformed(Exception):
    """A proof leads to no root."""


class Rebuilt:
    """What a proof of a range leads to: the root, and the digest of each node that it tells."""

    def __init__(self, family, leaves, start, stop, inactive, bagging, digests, leaf, branch):
        """`leaf` gives the digest of a node that is a leaf of the range, `branch` that of a node over two digests."""
        if leaves > forest.MAX_LEAVES or start >= stop or stop > leaves:
            raise Malformed
        self.peaks = peaks_of(family, leaves)
        if self.peaks is None or inactive > len(self.peaks):
            raise Malformed
        self.start, self.stop, self.leaf, self.branch = start, stop, leaf, branch
        self.rest = list(digests)
        self.told = {}
        self.parts = parts = Parts(self.peaks, start, stop, inactive, bagging)
        self.prefix = self.take() if parts.folded else None
        for peak in parts.singly + parts.later:
            self.tell(peak, self.take())
        self.suffix = self.take() if parts.collapsed else None
        for peak in parts.meeting:
            self.rebuild(peak)
        if self.rest:
            raise Malformed
        self.root = self.bagged(leaves, inactive, bagging)

    def take(self):
        if not self.rest:
            raise Malformed
        return self.rest.pop(0)

    def tell(self, node, digest):
        self.told[node.position] = (node, digest)
        return digest

    def rebuild(self, node):
        if node.stop <= self.start or node.first >= self.stop:
            return self.tell(node, self.take())
        if node.left is None:
            return self.tell(node, self.leaf(node))
        left = self.rebuild(node.left)
        return self.tell(node, self.branch(node, left, self.rebuild(node.right)))

    def bagged(self, leaves, inactive, bagging):
        """The root: the inactive peaks are folded from the left, and what comes of it with the others."""
        first, items = self.prefix, []
        collapsed = {p.position for p in self.parts.collapsed}
        folded = {p.position for p in self.parts.folded}
        for number, peak in enumerate(self.peaks, 1):
            if peak.position in folded or peak.position in collapsed:
                continue
            digest = self.told[peak.position][1]
            if number <= inactive or (bagging == "forward" and first is not None):
                first = digest if first is None else forest.fold(first, digest)
            else:
                items.append(digest)
        items = ([first] if first is not None else []) + items
        items += [self.suffix] if self.suffix is not None else []
        bag = forest.fold_forward(items) if bagging == "forward" else forest.fold_backward(items)
        return forest.sha256(forest.root_string(bagging, leaves, inactive, bag))


def plain_leaf(elements, start):
    """The digest of a leaf of the range, whose elements are these."""
    return lambda node: forest.leaf_digest(node.position, elements[node.first - start])


def plain_branch(node, left, right):
    return forest.branch_digest(node.position, left, right)
