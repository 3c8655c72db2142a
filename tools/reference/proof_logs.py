"""Proofs against the root of the operations' tree alone, of operations that are numbers of eight bytes."""

import forest
from proof_codec import Merkle
from proof_states import Refused
from proof_trees import Malformed, Rebuilt, peaks_of, plain_branch, plain_leaf


def encoded(numbers):
    return [forest.number(value) for value in numbers]


def led(family, proof, start, numbers):
    """What the proof of a range leads to. `Malformed` where it leads to no root."""
    leaf, stop = plain_leaf(encoded(numbers), start), start + len(numbers)
    return Rebuilt(family, proof.leaves, start, stop, proof.inactive, "backward", proof.digests, leaf, plain_branch)


def shows(family, proof, start, numbers, root):
    try:
        return led(family, proof, start, numbers).root == root
    except Malformed:
        return False


def told(family, proof, start, numbers, root):
    """The digests that a proof tells, by their positions."""
    try:
        rebuilt = led(family, proof, start, numbers)
    except Malformed:
        raise Refused("M15")
    if rebuilt.root != root:
        raise Refused("M17")
    return rebuilt


def pinned(family, proof, start, numbers, digests, root):
    """Whether each digest of the proof that is over leaves before the range is made of these pinned ones."""
    if not shows(family, proof, start, numbers, root):
        return False
    made = forest.made_of_pinned(peaks_of(family, start), digests)
    if made is None:
        return False
    rebuilt = led(family, proof, start, numbers)
    if rebuilt.prefix is not None and rebuilt.prefix != forest.fold_forward([made(p) for p in rebuilt.parts.folded]):
        return False
    before = [(node, digest) for node, digest in rebuilt.told.values() if node.stop <= start]
    return all(made(node) == digest for node, digest in before)


def unnamed(node, locations):
    """The maximal nodes of a tree without one of these locations."""
    if not any(node.first <= location < node.stop for location in locations):
        return [node]
    return [] if node.left is None else unnamed(node.left, locations) + unnamed(node.right, locations)


def bad_location(leaves, locations):
    """The refusal of the first location that is refused, or None."""
    for index, location in enumerate(locations):
        if index and location == locations[index - 1]:
            return f"M8 {location}"
        if index and location < locations[index - 1]:
            return f"M9 {location}"
        if location >= leaves:
            return f"M7 {location}"
    return None


def multi(family, proof, start, numbers, root, locations, peaks):
    """The proof of some locations out of what the proof of a range tells, and of peaks that are supplied."""
    rebuilt = told(family, proof, start, numbers, root)
    if not locations:
        raise Refused("M4")
    bad = bad_location(proof.leaves, locations)
    if bad is not None:
        raise Refused(bad)
    known = dict(peaks)
    known.update((position, digest) for position, (_, digest) in rebuilt.told.items())
    collapsed = {peak.position for peak in rebuilt.parts.collapsed}
    nodes = [node for peak in rebuilt.peaks for node in unnamed(peak, locations)]
    digests = []
    for node in sorted(nodes, key=lambda node: node.position):
        if node.position not in known:
            raise Refused(f"{'M11' if node.position in collapsed else 'M10'} {node.position}")
        digests.append(known[node.position])
    return Merkle(proof.leaves, proof.inactive, digests)


def shows_each(family, proof, locations, numbers, root):
    """Whether a proof shows each of these numbers at its location."""
    if bad_location(proof.leaves, locations) is not None:
        return False
    if not locations and proof.leaves:
        return False
    peaks = peaks_of(family, proof.leaves)
    if peaks is None or proof.inactive > len(peaks):
        return False
    nodes = [node for peak in peaks for node in unnamed(peak, locations)]
    if len(nodes) != len(proof.digests):
        return False
    given = dict(zip(sorted(node.position for node in nodes), proof.digests))
    elements = dict(zip(locations, encoded(numbers)))

    def digest(node):
        if node.position in given:
            return given[node.position]
        if node.left is None:
            return forest.leaf_digest(node.position, elements[node.first])
        return plain_branch(node, digest(node.left), digest(node.right))

    return forest.root("backward", proof.leaves, proof.inactive, [digest(peak) for peak in peaks]) == root
