#!/usr/bin/env python3
"""The answers to cases of the codec, of both families' forests and of their digests, from the definitions.

    tools/reference/families.py < crates/forest_player/stdin > crates/forest_player/stdout

A forest is grown leaf by leaf. Only where too many leaves are asked for is a node count taken from the law of positions: with n
leaves a range has 2n nodes less the ones in n, and a belt 2n less the whole logarithm of n + 1.
"""


from forest import MAX_LEAVES, MAX_NODES, branch_digest, fold, fold_backward, fold_forward, grow, leaf_digest
from forest import node_digests, root, root_string, sha256
from lines import BadLine, hexed, number, play, unhex
from operations import Fault, Input, varint

SIZES = {"bool": 1, "u8": 1, "u16": 2, "u32": 4, "u64": 8, "array": 4, "digest": 2}


def node_count(family, leaves):
    if family == "mmr":
        return 2 * leaves - bin(leaves).count("1")
    return 2 * leaves - ((leaves + 1).bit_length() - 1)


def greatest_leaves(family, nodes):
    """The most leaves, up to the greatest number, whose forest has at most so many nodes."""
    low, high = 0, MAX_LEAVES
    while low < high:
        middle = (low + high + 1) // 2
        low, high = (middle, high) if node_count(family, middle) <= nodes else (low, middle - 1)
    return low


def truth(holds):
    return "true" if holds else "false"


def or_none(value):
    return "none" if value is None else str(value)


def listed(words):
    return " ".join(map(str, words)) or "none"


def read_value(kind, data):
    """Reads a value and gives nothing: what was read is the bytes that went."""
    if kind == "uint":
        data.varint()
    elif kind == "option":
        if read_flag(data):
            data.varint()
    elif kind == "bool":
        read_flag(data)
    elif kind in SIZES:
        data.take(SIZES[kind])
    else:
        raise BadLine


def read_flag(data):
    flag = data.take(1)[0]
    if flag > 1:
        raise Fault("C4")
    return flag


def read_counted(size, least, greatest, data):
    count = data.varint()
    if not least <= count <= greatest:
        raise Fault("C6")
    data.take(count * size)


def whole(text, read):
    data = Input(text)
    read(data)
    if data.data:
        raise Fault("C2")
    return hexed(text)


def encoded(kind, word):
    if kind in ("u8", "u16", "u32", "u64"):
        value = number(word)
        if value >= 1 << (8 * SIZES[kind]):
            raise BadLine
        return value.to_bytes(SIZES[kind], "big")
    if kind == "uint":
        return varint(number(word))
    if kind == "bool":
        return b"\1" if word == "true" else b"\0"
    if kind == "option":
        return b"\0" if word == "none" else b"\1" + varint(number(word))
    if kind == "bytes":
        value = unhex(word)
        return varint(len(value)) + value
    raise BadLine


def sized(text):
    return f"{hexed(text)} {len(text)}"


def of_codec(words):
    match words:
        case ["encode", "list", *items]:
            values = [unhex(it) for it in items]
            if any(len(it) != 2 for it in values):
                raise BadLine
            return sized(varint(len(values)) + b"".join(values))
        case ["encode", kind, word]:
            return sized(encoded(kind, word))
        case ["decode", "bytes" | "list" as kind, least, greatest, text]:
            least, greatest = number(least), number(greatest)
            if least > greatest:
                raise BadLine
            size = 1 if kind == "bytes" else 2
            return whole(unhex(text), lambda data: read_counted(size, least, greatest, data))
        case ["decode", kind, text]:
            return whole(unhex(text), lambda data: read_value(kind, data))
        case ["front", text]:
            data = Input(unhex(text))
            return f"{data.varint()}, {len(data.data)} left"
        case ["greatest", "uint"]:
            return "10"
        case ["greatest", kind] if kind in SIZES:
            return str(SIZES[kind])
        case ["fault", tag]:
            return f"C5: invalid tag {number(tag)}"
    raise BadLine


def arithmetic(value, end, words):
    match words:
        case ["checked-add", more]:
            total = value + number(more)
            return or_none(total if total <= end else None)
        case ["checked-sub", less]:
            rest = value - number(less)
            return or_none(rest if rest >= 0 else None)
        case ["saturating-add", more]:
            return str(min(value + number(more), end))
        case ["saturating-sub", less]:
            return str(max(value - number(less), 0))
        case ["less", other]:
            return truth(value < number(other))
        case ["same", other]:
            return truth(value == number(other))
        case ["sums", other]:
            total = value + number(other)
            if total >= 1 << 64:
                raise BadLine
            return f"{total} {total} {total}"
        case ["differences", other]:
            rest = value - number(other)
            if rest < 0:
                raise BadLine
            return f"{rest} {rest} {rest}"
    raise BadLine


def of_number(family, kind, value, words):
    end = MAX_LEAVES if kind == "location" else MAX_NODES
    leaves = greatest_leaves(family, value) if kind == "position" else None
    is_size = kind == "position" and node_count(family, leaves) == value
    match words:
        case ["valid"]:
            return truth(value <= end)
        case ["from-usize"]:
            return str(value)
        case ["default"]:
            return "0"
        case ["valid-index"]:
            return truth(value < end)
        case ["valid-size"] if kind == "position":
            return truth(is_size)
        case ["encode"]:
            return varint(value).hex()
        case ["size"]:
            return f"{len(varint(value))} 10"
        case ["show"]:
            return f"{value} {value}"
        case ["to-position"] if kind == "location":
            return str(node_count(family, value)) if value <= end else f"M3 {value}"
        case ["to-location"] if kind == "position":
            if value > end:
                return f"M2 {value}"
            return str(leaves) if is_size else f"M1 {value}"
        case ["to", stop] if kind == "location":
            return f"{value} {number(stop)}"
    return arithmetic(value, end, words)


def node_at(family, position):
    """The forest in which the node was born, and the node."""
    if position >= node_count(family, MAX_LEAVES):
        raise BadLine
    forest = grow(family, greatest_leaves(family, position) + 1)
    return forest, forest.nodes[position]


def within(forest, first, stop):
    """The maximal nodes over leaves of a range, left to right."""

    def below(node):
        if first <= node.first and node.stop <= stop:
            return [node]
        if node.stop <= first or stop <= node.first or node.left is None:
            return []
        return below(node.left) + below(node.right)

    return [it for peak in forest.peaks for it in below(peak)]


def has_node(family, leaves, first, height):
    if leaves > MAX_LEAVES or first > MAX_LEAVES or height > 62:
        raise BadLine
    nodes = within(grow(family, leaves), first, first + 2**height)
    return len(nodes) == 1 and nodes[0].height == height


def way(family, leaves, height, target):
    if leaves > MAX_LEAVES or height > 62 or target >= 2**height or not has_node(family, leaves, 0, height):
        raise BadLine
    (node,) = within(grow(family, leaves), 0, 2**height)
    steps = []
    while node.left is not None:
        goes_left = target < node.left.stop
        down, beside = (node.left, node.right) if goes_left else (node.right, node.left)
        steps.append(f"{node.position}:{beside.position}:{node.height}")
        node = down
    return listed(steps)


def positions(node):
    below = positions(node.left) + positions(node.right) if node.left else []
    return below + [node.position]


def merged(family, merges, heights):
    """Which two neighbours of one height merge next, counted from the right, after so many merges since the last leaf."""
    pairs = [at for at in range(len(heights) - 1) if heights[at] == heights[at + 1]]
    if family == "mmr":
        return 0 if pairs[:1] == [0] else None
    return pairs[0] if pairs and merges == 0 else None


def of_nodes(family, words):
    match words:
        case ["position-of", location]:
            if number(location) > MAX_LEAVES:
                raise BadLine
            return str(node_count(family, number(location)))
        case ["location-of", position]:
            leaves = greatest_leaves(family, number(position))
            return or_none(leaves if node_count(family, leaves) == number(position) else None)
        case ["nearest-size", position]:
            return str(node_count(family, greatest_leaves(family, number(position))))
        case ["peaks-within", size]:
            leaves = greatest_leaves(family, number(size))
            return f"{node_count(family, leaves)} {leaves} {leaves}"
        case ["peaks", leaves]:
            return listed(f"{it.position}:{it.height}" for it in grow(family, number(leaves)).peaks)
        case ["pins", leaves]:
            return listed(it.position for it in grow(family, number(leaves)).peaks)
        case ["parents", leaves]:
            before, after = (grow(family, number(leaves) + it).nodes for it in (0, 1))
            return listed(it.height for it in after[len(before) + 1 :])
        case ["inactive", leaves, floor]:
            count = 0
            for peak in grow(family, number(leaves)).peaks:
                if peak.stop > number(floor):
                    break
                count += 1
            return str(count)
        case ["node", position]:
            forest, node = node_at(family, number(position))
            return f"{node.height} {node.first} {forest.count} {node.position}"
        case ["children", position]:
            _, node = node_at(family, number(position))
            return f"{node.left.position} {node.right.position}" if node.left else "none"
        case ["chunk", leaves, chunk, height]:
            if number(height) > 62:
                raise BadLine
            width = 2 ** number(height)
            nodes = within(grow(family, number(leaves)), number(chunk) * width, (number(chunk) + 1) * width)
            return listed(f"{it.position}:{it.height}" for it in nodes)
        case ["has", leaves, first, height]:
            return truth(has_node(family, number(leaves), number(first), number(height)))
        case ["way", leaves, height, target]:
            return way(family, number(leaves), number(height), number(target))
        case ["grown", leaves]:
            if number(leaves) > 4096:
                raise BadLine
            return listed(it for peak in grow(family, number(leaves)).peaks for it in positions(peak))
        case ["located", leaves]:
            return listed(it.first for it in grow(family, number(leaves)).peaks)
        case ["counted", "0" | "3" as leaves, floor]:
            # leaves side by side, each a peak of its own
            return str(min(number(leaves), number(floor)))
        case ["merge", merges, *heights]:
            return or_none(merged(family, number(merges), [number(it) for it in heights]))
    raise BadLine


def digest(word):
    value = unhex(word)
    if len(value) != 32:
        raise BadLine
    return value


def told_root(found):
    return found.hex() if found is not None else "M16"


def of_items(bagging, leaves, inactive, items):
    """The root over items: the inactive peaks are folded into the first, so that nothing is left to fold before the bagging."""
    if inactive and not items:
        return None
    bagged = fold_forward(items) if bagging == "forward" else fold_backward(items)
    return sha256(root_string(bagging, leaves, inactive, bagged))


def of_digests(family, words):
    match words:
        case ["hash", *parts] if 1 <= len(parts) <= 2:
            return sha256(b"".join(unhex(it) for it in parts)).hex()
        case ["leaf", position, element]:
            return leaf_digest(number(position), unhex(element)).hex()
        case ["branch", position, left, right]:
            return branch_digest(number(position), digest(left), digest(right)).hex()
        case ["fold", left, right]:
            return fold(digest(left), digest(right)).hex()
        case ["domain", "forward"]:
            return "0"
        case ["domain", "backward"]:
            return "1"
        case ["root", "forward" | "backward" as bagging, leaves, inactive, *peaks]:
            return told_root(root(bagging, number(leaves), number(inactive), [digest(it) for it in peaks]))
        case ["root-of-items", "forward" | "backward" as bagging, leaves, inactive, *items]:
            return told_root(of_items(bagging, number(leaves), number(inactive), [digest(it) for it in items]))
        case ["grown-root", "forward" | "backward" as bagging, inactive, *elements]:
            forest = grow(family, len(elements))
            leaves = [leaf_digest(forest.leaf(at).position, unhex(it)) for at, it in enumerate(elements)]
            digests = node_digests(forest, leaves)
            peaks = [digests[it.position] for it in forest.peaks]
            return told_root(root(bagging, len(elements), number(inactive), peaks))
        case ["hold", "none"]:
            return "- true" if family == "mmr" else "00 true"
        case ["hold", pending]:
            held = digest(pending)
            return "none" if family == "mmr" else f"01{held.hex()} true"
    raise BadLine


def answer(words):
    match words:
        case ["codec", *words]:
            return of_codec(words)
        case ["mmr" | "mmb" as family, "location" | "position" as kind, value, *words]:
            return of_number(family, kind, number(value), words)
        case ["mmr" | "mmb", "decode", "location" | "position" as kind, text]:
            data = Input(unhex(text))
            value = data.varint()
            if value > (MAX_LEAVES if kind == "location" else MAX_NODES):
                raise Fault("C7")
            if data.data:
                raise Fault("C2")
            return str(value)
        case ["mmr" | "mmb" as family, "digest", *words]:
            return of_digests(family, words)
        case ["mmr" | "mmb" as family, *words]:
            return of_nodes(family, words)
    raise BadLine


if __name__ == "__main__":
    play(lambda: answer, Fault)
