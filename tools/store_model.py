#!/usr/bin/env python3
"""A model of the store, from the definitions alone: logs, bits, floors and roots of histories, everything made anew.

    tools/store_model.py VECTORS..

Each of VECTORS is a file of lists of batches with what is expected of them; roots, prunings and the proofs of keys, of
Merkle Mountain Ranges under the first rule of logs, are compared. States, histories and operations are those of
tools/reference/histories.py.
"""
import json
import pathlib
import sys

sys.path.insert(0, str(pathlib.Path(__file__).resolve().parent / "reference"))
from histories import after, changes, digest, next_key, number  # noqa: E402 (in the folder named above)


def bits(log):
    """Whether each operation is active: the update that is the last operation of its key, or the last commit."""
    last = {operation[1] if operation[0] != "commit" else None: at for at, operation in enumerate(log)}
    return [operation[0] != "delete" and at in last.values() for at, operation in enumerate(log)]


def log_of(history):
    log, old = [("commit", None, 0)], {}
    for new, metadata in history:
        log += changes(old, new)
        old = new
        active = [at for at, is_active in enumerate(bits(log)) if is_active and log[at][0] == "update"]
        log.append(("commit", metadata, min(active, default=len(log))))
    return log


def floor(history):
    return log_of(history)[-1][2]


def encoded(operation):
    """The fixed encoding, of 25 bytes for keys and values of eight."""
    if operation[0] == "delete":
        text = b"\xd1" + operation[1]
    elif operation[0] == "update":
        text = b"\xd2" + b"".join(operation[1:])
    else:
        _, metadata, at = operation
        text = b"\xd3" + (b"\0" + bytes(8) if metadata is None else b"\1" + metadata) + number(at)
    return text.ljust(25, b"\0")


def peaks_of(leaves, joined):
    """The peaks of the forest, left to right, each (height, end of its leaves, digest, children). `joined` gives the
    digest that counts for a node of this height over the leaves up to this end."""
    peaks, position = [], 0
    for end, leaf in enumerate(leaves, 1):
        peaks.append((0, end, joined(0, end, digest(number(position), leaf)), ()))
        position += 1
        while len(peaks) > 1 and peaks[-1][0] == peaks[-2][0]:
            right, left = peaks.pop(), peaks.pop()
            made = digest(number(position), left[2], right[2])
            peaks.append((right[0] + 1, end, joined(right[0] + 1, end, made), (left, right)))
            position += 1
    return peaks


def tree_root(peaks, inactive):
    """The root of a tree with these peaks, of which so many are inactive."""
    items = [peak[2] for peak in peaks]
    if inactive:
        folded = items[0]
        for item in items[1:inactive]:
            folded = digest(folded, item)
        items[:inactive] = [folded]
    bagged = items.pop() if items else b""
    for item in reversed(items):
        bagged = digest(item, bagged)
    return digest(number(peaks[-1][1] if peaks else 0), b"\1", number(inactive) if inactive else b"", bagged)


class Tree:
    """What is hashed of a history, with chunks of so many bytes."""

    def __init__(self, history, width):
        self.log = log_of(history)
        self.across = 8 * width
        height_of_chunks = self.across.bit_length() - 1
        leaves = [encoded(operation) for operation in self.log]
        chunks = [0] * -(-len(self.log) // self.across)
        for at, is_active in enumerate(bits(self.log)):
            chunks[at // self.across] |= is_active << at % self.across
        self.chunks = [chunk.to_bytes(width, "little") for chunk in chunks]

        def joined(height, end, made):
            chunk = self.chunks[(end - 1) // self.across]
            return digest(chunk, made) if height == height_of_chunks and any(chunk) else made

        plain = peaks_of(leaves, lambda height, end, made: made)
        self.peaks = peaks_of(leaves, joined)
        before = [end for _, end, _, _ in plain if end <= self.log[-1][2]]
        self.aligned = max((count for count, end in enumerate(before, 1) if end % self.across == 0), default=0)
        self.ops_root = tree_root(plain, len(before))
        self.rest = len(self.log) % self.across

    def root(self):
        partial = number(self.rest) + digest(self.chunks[-1]) if self.rest else b""
        return digest(self.ops_root, tree_root(self.peaks, self.aligned), partial)

    def operation_proof(self, at):
        """The honest bytes that prove the operation at a place."""
        before = [peak[2] for peak in self.peaks if peak[1] <= at]
        behind = [peak[2] for peak in self.peaks if peak[1] - 2 ** peak[0] > at]
        folds = max(0, self.aligned - len(before) - 1)
        found = [fold_left(before[: self.aligned])] if before[: self.aligned] else []
        found += before[self.aligned:] + behind[:folds]
        found += [fold_right(behind[folds:])] if behind[folds:] else []
        found += beside(self.peaks[len(before)], at)
        counts = varint(len(self.log)) + varint(self.aligned) + varint(len(found))
        partial = b"\1" + digest(self.chunks[-1]) if self.rest else b"\0"
        return b"".join([varint(at), self.chunks[at // self.across], counts, *found, partial, self.ops_root])


def varint(n):
    return bytes([n]) if n < 128 else bytes([n % 128 + 128]) + varint(n // 128)


def fold_left(items):
    return items[0] if len(items) == 1 else digest(fold_left(items[:-1]), items[-1])


def fold_right(items):
    return items[0] if len(items) == 1 else digest(items[0], fold_right(items[1:]))


def beside(peak, at):
    """The digests of the greatest trees in a peak that do not hold the leaf at a place, left to right."""
    if not peak[3]:
        return []
    left, right = peak[3]
    return beside(left, at) + [right[2]] if at < left[1] else [left[2]] + beside(right, at)


def root(history, width):
    """The root of a history, with chunks of so many bytes."""
    return Tree(history, width).root()


def proof(history, width, key):
    """The value of a key, or None where it is absent, with the honest bytes that prove it."""
    tree, state = Tree(history, width), history[-1][0] if history else {}
    place = {operation[1]: at for at, operation in enumerate(tree.log) if operation[0] == "update"}
    if key in state:
        return state[key], tree.operation_proof(place[key]) + next_key(state, key)
    if not state:
        metadata = tree.log[-1][1]
        return None, b"\2" + tree.operation_proof(len(tree.log) - 1) + (b"\0" if metadata is None else b"\1" + metadata)
    before = max((k for k in state if k < key), default=max(state))
    return None, b"\1" + tree.operation_proof(place[before]) + before + state[before] + next_key(state, before)


def spans(count):
    """The leaves below each peak of the forest of so many, and below each of its nodes."""
    peaks, nodes = [], set()
    for leaf in range(count):
        peaks.append((leaf, leaf + 1))
        nodes.add(peaks[-1])
        while len(peaks) > 1 and peaks[-1][1] - peaks[-1][0] == peaks[-2][1] - peaks[-2][0]:
            peaks[-2:] = [(peaks[-2][0], peaks[-1][1])]
            nodes.add(peaks[-1])
    return peaks, nodes


def pruned(history, width, before, location):
    """How many chunks are pruned after pruning up to a location, of which so many were before; None past the floor."""
    if location > floor(history):
        return None
    across = 8 * width
    _, nodes = spans(len(log_of(history)))

    def is_settled(chunks):
        return all((first * across, end * across) in nodes for first, end in spans(chunks)[0])

    return max(before, *filter(is_settled, range(location // across + 1)))


def compare(path):
    count = 0
    for item in json.load(open(path))["lists"]:
        history, histories = [], [[]]
        for batch in item["batches"]:
            words = [(w[0], bytes.fromhex(w[1]), *map(number, w[2:])) for w in batch["words"]]
            metadata = None if batch["metadata"] is None else number(batch["metadata"])
            history = history + [(after(history[-1][0] if history else {}, words), metadata)]
            histories.append(history)
        expected = next(log for log in item["logs"] if log["version"] == 0)
        log = log_of(history)
        assert [encoded(operation).hex() for operation in log] == expected["log"], path
        assert "".join("01"[is_active] for is_active in bits(log)) == expected["bits"], path
        counts = [{"len": len(log_of(h)), "floor": floor(h)} for h in histories]
        assert counts == expected["after"], (path, counts)
        for state in expected["states"]:
            if state["family"] == "mmr":
                assert [root(h, state["n"]).hex() for h in histories] == state["roots"], (path, state["n"])
                for location, chunks in state["prunes"]:
                    assert pruned(history, state["n"], 0, location) == chunks, (path, state["n"], location)
                honest = [given for given in state["proofs"] if given["claim"]["kind"] in ("value", "absent")]
                for given in honest:
                    claim = given["claim"]
                    value = number(claim["value"]) if claim["kind"] == "value" else None
                    expected_proof = value, bytes.fromhex(given["proof"])
                    assert proof(history, state["n"], bytes.fromhex(claim["key"])) == expected_proof, (path, claim)
                count += len(histories) + len(state["prunes"]) + len(honest)
    print(f"{path}: {count} roots, prunings and proofs are those expected")


if __name__ == "__main__":
    for path in sys.argv[1:]:
        compare(path)
