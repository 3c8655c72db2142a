"""Merkle proofs over a grown forest, read off their definition.

    parts = range_parts(forest, "backward", 1, 4, 6)     what the digests of a range proof stand for, in order
    honest_range(forest, digests, "backward", 1, 4, 6)   these digests
    rebuild_range(...), extract(...), check_pinned(...)  what a check does with any digests
    multi_positions(forest, locations)                   the nodes of a proof of single elements
    decode(data, most, width), encode(proof, width)      the bytes of a proof

A refusal is raised as `Refusal("M5", 9)`: its number, and what it carries.
"""

import forest as trees


class Refusal(Exception):
    def __init__(self, number, *carried):
        super().__init__(number, *carried)
        self.number = number
        self.carried = carried

    def __str__(self):
        return " ".join([self.number] + [str(one) for one in self.carried])


class Proof:
    """A proof: how many leaves the tree has, how many inactive peaks, and digests."""

    def __init__(self, leaves, inactive, digests):
        self.leaves = leaves
        self.inactive = inactive
        self.digests = list(digests)


class Part:
    """What one digest of a range proof stands for: a node, or some peaks that are folded `from` a side."""

    def __init__(self, nodes, side=None):
        self.nodes = nodes
        self.side = side

    def digest(self, digests):
        """The digest, where those of nodes are known."""
        own = [digests[node.position] for node in self.nodes]
        return {None: lambda: own[0], "left": lambda: trees.fold_forward(own),
                "right": lambda: trees.fold_backward(own)}[self.side]()


def maximal_without(node, keeps):
    """The maximal nodes below `node` for which `keeps` holds no leaf, left to right."""
    if not any(keeps(leaf) for leaf in node.leaves()):
        return [node]
    if node.left is None:
        return []
    return maximal_without(node.left, keeps) + maximal_without(node.right, keeps)


def outer_parts(forest, bagging, inactive, start, stop):
    """The parts of the peaks that do not meet the range, in the order of the digests."""
    peaks = list(enumerate(forest.peaks, 1))
    before = [(at, peak) for at, peak in peaks if peak.stop <= start]
    after = [(at, peak) for at, peak in peaks if peak.first >= stop]
    if bagging == "forward":
        folded, singly = before, []
        singles, last = after, []
    else:
        folded = [one for one in before if one[0] <= inactive]
        singly = [one for one in before if one[0] > inactive]
        singles = [one for one in after if one[0] <= inactive]
        last = [one for one in after if one[0] > inactive]
    parts = []
    if folded:
        parts.append(Part([peak for _, peak in folded], "left"))
    parts += [Part([peak]) for _, peak in singly]
    parts += [Part([peak]) for _, peak in singles]
    if last:
        parts.append(Part([peak for _, peak in last], "right"))
    return parts


def meeting(forest, start, stop):
    """The peaks that meet the range."""
    return [peak for peak in forest.peaks if peak.first < stop and start < peak.stop]


def range_parts(forest, bagging, inactive, start, stop):
    """What the digests of the proof of a range stand for, in order."""
    inner = [
        Part([node])
        for peak in meeting(forest, start, stop)
        for node in maximal_without(peak, lambda leaf: start <= leaf < stop)
    ]
    return outer_parts(forest, bagging, inactive, start, stop) + inner


def honest_range(forest, digests, bagging, inactive, start, stop):
    """The digests of the proof of a range, from those of the nodes."""
    return [part.digest(digests) for part in range_parts(forest, bagging, inactive, start, stop)]


def plan_positions(forest, start, stop):
    """The positions of the nodes that a range proof is made of: the peaks before, those after, the others."""
    before = [peak.position for peak in forest.peaks if peak.stop <= start]
    after = [peak.position for peak in forest.peaks if peak.first >= stop]
    inner = [
        node.position
        for peak in meeting(forest, start, stop)
        for node in maximal_without(peak, lambda leaf: start <= leaf < stop)
    ]
    return before + after + inner


def known_nodes(forest, proof, bagging, start, elements):
    """The digests of the nodes that a proof gives singly or that are made of others, by position; and what it gives for
    some peaks in one, by the position of the first of these. Raises the fault's name where the proof has no root.
    """
    stop = start + len(elements)
    parts = range_parts(forest, bagging, proof.inactive, start, stop)
    if len(proof.digests) < len(parts):
        raise Refusal("MissingDigests")
    if len(proof.digests) > len(parts):
        raise Refusal("ExtraDigests")
    known, folds = {}, {}
    for part, digest in zip(parts, proof.digests):
        if part.side is None:
            known[part.nodes[0].position] = digest
        else:
            folds[part.nodes[0].position] = (part, digest)

    def make(node):
        if node.position in known:
            return
        if node.left is None:
            known[node.position] = trees.leaf_digest(node.position, elements[node.first - start])
            return
        make(node.left)
        make(node.right)
        left, right = known[node.left.position], known[node.right.position]
        known[node.position] = trees.branch_digest(node.position, left, right)

    for peak in meeting(forest, start, stop):
        make(peak)
    return known, folds


def bag_of_known(forest, bagging, inactive, known, folds):
    """The one digest that stands for the peaks, of which some are given in one."""
    items, skip = [], 0
    for at, peak in enumerate(forest.peaks):
        if skip:
            skip -= 1
        elif peak.position in folds:
            part, digest = folds[peak.position]
            items.append((at, digest))
            skip = len(part.nodes) - 1
        else:
            items.append((at, known[peak.position]))
    first = [digest for at, digest in items if at < inactive]
    rest = [digest for at, digest in items if at >= inactive]
    folded = ([trees.fold_forward(first)] if first else []) + rest
    return trees.fold_forward(folded) if bagging == "forward" else trees.fold_backward(folded)


def fit(family, proof, start, count):
    """The forest of a proof of so many elements. Raises the name of the fault where they do not stand in it."""
    if count == 0:
        raise Refusal("MissingElements")
    if proof.leaves > trees.MAX_LEAVES:
        raise Refusal("InvalidSize")
    if start >= proof.leaves:
        raise Refusal("InvalidStartLoc")
    if start + count > proof.leaves:
        raise Refusal("InvalidEndLoc")
    forest = trees.grow(family, proof.leaves)
    if proof.inactive > len(forest.peaks):
        raise Refusal("InvalidProof")
    return forest


def rebuild_range(family, bagging, proof, start, elements):
    """The root that a proof of a range leads to. Raises the name of the fault where it leads to none."""
    forest = fit(family, proof, start, len(elements))
    known, folds = known_nodes(forest, proof, bagging, start, elements)
    # With ForwardFold the peaks before the range are one item, whether they are inactive or not.
    bagged = bag_of_known(forest, bagging, proof.inactive, known, folds)
    return trees.sha256(trees.root_string(bagging, proof.leaves, proof.inactive, bagged))


def check_range(family, bagging, proof, start, elements, root):
    try:
        return rebuild_range(family, bagging, proof, start, elements) == root
    except Refusal:
        return False


def extract(family, bagging, proof, start, elements, root):
    """The nodes that a proof tells, as pairs of position and digest. Raises M15 or M17."""
    try:
        found = rebuild_range(family, bagging, proof, start, elements)
    except Refusal:
        raise Refusal("M15") from None
    if found != root:
        raise Refusal("M17")
    known, _ = known_nodes(trees.grow(family, proof.leaves), proof, bagging, start, elements)
    return sorted(known.items())


def check_pinned(family, bagging, proof, start, elements, pinned, root):
    """Whether a proof of a range holds, and its digests that cover leaves before it are made of the pinned ones."""
    if not check_range(family, bagging, proof, start, elements, root):
        return False
    made = trees.made_of_pinned(trees.grow(family, start).peaks, pinned)
    if made is None:
        return False
    forest = trees.grow(family, proof.leaves)
    stop = start + len(elements)
    for part, digest in zip(range_parts(forest, bagging, proof.inactive, start, stop), proof.digests):
        if part.nodes[-1].stop <= start:
            own = [made(node) for node in part.nodes]
            if digest != (own[0] if part.side is None else trees.fold_forward(own)):
                return False
    return True


def check_locations(leaves, locations):
    """Raises the refusal of the first bad location of a proof of single elements."""
    if not locations:
        raise Refusal("M4")
    last = None
    for location in locations:
        if last is not None and location == last:
            raise Refusal("M8", location)
        if last is not None and location < last:
            raise Refusal("M9", location)
        if location >= leaves:
            raise Refusal("M7", location)
        last = location
    if leaves > trees.MAX_LEAVES:
        raise Refusal("M3", leaves)


def multi_positions(forest, locations):
    """The positions of the nodes of a proof of these elements, ascending."""
    found = []
    for peak in forest.peaks:
        found += maximal_without(peak, lambda leaf: leaf in locations)
    return sorted(node.position for node in found)


def rebuild_multi(family, bagging, proof, elements):
    """The root that a proof of single elements leads to, from pairs of location and element, or None."""
    locations = [location for location, _ in elements]
    if not elements:
        if proof.leaves or proof.inactive or proof.digests:
            return None
        return trees.root(bagging, 0, 0, [])
    try:
        check_locations(proof.leaves, locations)
    except Refusal:
        return None
    forest = trees.grow(family, proof.leaves)
    positions = multi_positions(forest, locations)
    if proof.inactive > len(forest.peaks) or len(positions) != len(proof.digests):
        return None
    known = dict(zip(positions, proof.digests))
    shown = dict(elements)

    def made(node):
        if node.position in known:
            return known[node.position]
        if node.left is None:
            return trees.leaf_digest(node.position, shown[node.first])
        return trees.branch_digest(node.position, made(node.left), made(node.right))

    return trees.root(bagging, proof.leaves, proof.inactive, [made(peak) for peak in forest.peaks])


def varint(value):
    """Seven bits a byte, the least group first, the high bit set on all but the last."""
    out = bytearray()
    while value >= 128:
        out.append(value % 128 + 128)
        value //= 128
    out.append(value)
    return bytes(out)


def read_varint(data, at):
    """The number that begins at a place, and the place after it. Raises C1 or C3."""
    value = 0
    for count in range(10):
        if at >= len(data):
            raise Refusal("C1")
        byte = data[at]
        at += 1
        if count == 9 and byte > 1:
            raise Refusal("C3")
        value += byte % 128 * 128**count
        if byte < 128:
            if byte == 0 and count > 0:
                raise Refusal("C3")
            return value, at
    raise Refusal("C3")


def encode(proof):
    digests = b"".join(proof.digests)
    return varint(proof.leaves) + varint(proof.inactive) + varint(len(proof.digests)) + digests


def decode(data, most, width=32):
    """The proof that the bytes spell, of at most so many digests of so many bytes. Raises the first fault."""
    leaves, at = read_varint(data, 0)
    if leaves > trees.MAX_LEAVES:
        raise Refusal("C7")
    inactive, at = read_varint(data, at)
    count, at = read_varint(data, at)
    if count > most:
        raise Refusal("C6")
    if len(data) - at < count * width:
        raise Refusal("C1")
    digests = [data[at + index * width : at + (index + 1) * width] for index in range(count)]
    at += count * width
    if at < len(data):
        raise Refusal("C2")
    return Proof(leaves, inactive, digests)


def greatest_size(width, most):
    """The length of the longest encoding, or None where it passes 64 bits."""
    size = len(varint(trees.MAX_LEAVES)) + len(varint(2**64 - 1)) + len(varint(most)) + most * width
    return size if size < 2**64 else None
