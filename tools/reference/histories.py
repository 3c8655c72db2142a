"""Logs, roots and proofs of histories, from the definitions: all is made anew of the whole log, over the forest of
forest.py.

A state is a dict from keys to values, both as bytes; a history a list of (state, metadata), the oldest first; an
operation a tuple ("delete", key), ("update", key, value, next key) or ("commit", metadata, floor).
"""
from hashlib import sha256

from forest import grow


RECORD = 25


def digest(*parts):
    return sha256(b"".join(parts)).digest()


def number(n):
    return n.to_bytes(8, "big")


# ---------------------------------------------------------------- logs

def after(state, words):
    """The state after words, each ("put", key, value) or ("del", key)."""
    state = dict(state)
    for word, key, *value in words:
        if word == "put":
            state[key] = value[0]
        else:
            state.pop(key, None)
    return state


def next_key(state, key):
    return min((k for k in state if k > key), default=min(state, default=None))


def changes(old, new):
    """What leads from one state to another, without the commit."""
    deletes = [("delete", key) for key in sorted(old) if key not in new]
    updates = [("update", key, new[key], next_key(new, key)) for key in sorted(new)]
    return deletes + [u for u in updates if u[1] not in old or u[2:] != (old[u[1]], next_key(old, u[1]))]


def is_active(log, at):
    kind, *fields = log[at]
    if kind == "delete":
        return False
    if kind == "commit":
        return all(later[0] != "commit" for later in log[at + 1:])
    return all(later[0] == "commit" or later[1] != fields[0] for later in log[at + 1:])


def bits(log):
    return [is_active(log, at) for at in range(len(log))]


def floor_of(operations):
    """The floor of a commit that comes behind these operations."""
    places = [at for at, operation in enumerate(operations) if operation[0] == "update" and is_active(operations, at)]
    return min(places, default=len(operations))


def log_of(history):
    log, old = [("commit", None, 0)], {}
    for new, metadata in history:
        log += changes(old, new)
        old = new
        log.append(("commit", metadata, floor_of(log)))
    return log


def state_after(log, state=None):
    state = dict(state or {})
    for kind, *fields in log:
        if kind == "delete":
            state.pop(fields[0], None)
        elif kind == "update":
            state[fields[0]] = fields[1]
    return state


def history_of(log):
    """The history whose log this is, or None."""
    history, state = [], {}
    for operation in log[1:]:
        state = state_after([operation], state)
        if operation[0] == "commit":
            history.append((dict(state), operation[1]))
    return history if log_of(history) == log else None


def place_of(log, key):
    """Where the update stands that gives the key its value, or None."""
    named = [at for at, operation in enumerate(log) if operation[0] != "commit" and operation[1] == key]
    return named[-1] if named and log[named[-1]][0] == "update" else None


def encoded(operation):
    """The fixed encoding, of 25 bytes for keys and values of eight."""
    if operation[0] == "delete":
        text = b"\xd1" + operation[1]
    elif operation[0] == "update":
        text = b"\xd2" + b"".join(operation[1:])
    else:
        _, metadata, at = operation
        text = b"\xd3" + (b"\0" + bytes(8) if metadata is None else b"\1" + metadata) + number(at)
    return text.ljust(RECORD, b"\0")


def decoded(record):
    """The operation of a record, or None."""
    tag, rest = record[0], record[1:]
    if tag == 0xD1:
        operation = ("delete", rest[:8])
    elif tag == 0xD2:
        operation = ("update", rest[:8], rest[8:16], rest[16:24])
    elif tag == 0xD3 and rest[0] in (0, 1):
        floor = int.from_bytes(rest[9:17], "big")
        operation = ("commit", rest[1:9] if rest[0] else None, floor)
        if floor > 2**62:
            return None
    else:
        return None
    return operation if encoded(operation) == record else None


def bytes_of(log):
    return b"".join(map(encoded, log))


def operations_of(data):
    """The operations that bytes are records of, or None."""
    if len(data) % RECORD:
        return None
    log = [decoded(data[at:at + RECORD]) for at in range(0, len(data), RECORD)]
    return None if None in log else log


def committed(data):
    """How many of the bytes stand up to the last of their whole records that is a commit."""
    ends = [at + RECORD for at in range(0, len(data) - RECORD + 1, RECORD)
            if (decoded(data[at:at + RECORD]) or ("none",))[0] == "commit"]
    return max(ends, default=0)


def text(operation):
    kind, *fields = operation
    if kind == "delete":
        return f"[key:{fields[0].hex()} <deleted>]"
    if kind == "update":
        return f"[key:{fields[0].hex()} next_key:{fields[2].hex()} value:{fields[1].hex()}]"
    said = "" if fields[0] is None else f" {fields[0].hex()}"
    return f"[commit{said} with inactivity floor: {fields[1]}]"


# ---------------------------------------------------------------- forests

class Joined:
    """The forest over the encodings of a log, with its chunks."""

    def __init__(self, family, width, leaves, active):
        self.family, self.width, self.leaves = family, width, leaves
        self.across = 8 * width
        self.height = self.across.bit_length() - 1
        self.nodes, self.peaks = grow(family, len(leaves)).nodes, grow(family, len(leaves)).peaks
        chunks = [0] * -(-len(leaves) // self.across)
        for at, bit in enumerate(active):
            chunks[at // self.across] |= bit << at % self.across
        self.chunks = [chunk.to_bytes(width, "little") for chunk in chunks]
        self.made = {}

    def digest(self, node, is_joined):
        """The plain digest of a node, or the one into which chunks are joined."""
        found = self.made.get((node.position, is_joined))
        if found is None:
            if node.left:
                parts = [self.digest(child, is_joined) for child in (node.left, node.right)]
            else:
                parts = [self.leaves[node.first]]
            found = digest(number(node.position), *parts)
            if is_joined and node.height == self.height and any(self.chunks[node.first // self.across]):
                found = digest(self.chunks[node.first // self.across], found)
            self.made[node.position, is_joined] = found
        return found

    def graftable(self):
        return sum(node.height == self.height for node in self.nodes)

    def pending(self):
        """The digest of the chunk that is whole and has no node of its own, or None."""
        whole = len(self.leaves) // self.across
        return digest(self.chunks[whole - 1]) if whole > self.graftable() else None

    def partial(self):
        """The bits and the digest of the last chunk where it is not whole, or None."""
        rest = len(self.leaves) % self.across
        return (rest, digest(self.chunks[-1])) if rest else None


def left_fold(items):
    folded = items[0]
    for item in items[1:]:
        folded = digest(folded, item)
    return folded


def right_fold(items):
    folded = items[-1]
    for item in reversed(items[:-1]):
        folded = digest(item, folded)
    return folded


def tree_root(leaves, peaks, inactive):
    """The root of a tree of so many leaves with these digests of peaks, of which so many are inactive."""
    items = ([left_fold(peaks[:inactive])] if inactive else []) + peaks[inactive:]
    said = number(inactive) if inactive else b""
    return digest(number(leaves), b"\1", said, right_fold(items) if items else b"")


def canonical(ops_root, grafted_root, pending, partial):
    said = b"" if partial is None else number(partial[0]) + partial[1]
    return digest(ops_root, grafted_root, pending or b"", said)


class Snapshot:
    """A log with its forest and its roots."""

    def __init__(self, family, width, log):
        self.log = log
        self.floor = log[-1][2]
        self.forest = Joined(family, width, [encoded(operation) for operation in log], bits(log))
        peaks = self.forest.peaks
        ends = [peak.stop for peak in peaks if peak.stop <= self.floor]
        self.aligned = max((count for count, end in enumerate(ends, 1) if end % self.forest.across == 0), default=0)
        self.ops_root = tree_root(len(log), [self.forest.digest(p, False) for p in peaks], len(ends))
        self.grafted_root = tree_root(len(log), [self.forest.digest(p, True) for p in peaks], self.aligned)
        self.root = canonical(self.ops_root, self.grafted_root, self.forest.pending(), self.forest.partial())

    def operation_proof(self, at):
        """The honest bytes that prove the operation at a place."""
        forest = self.forest
        joined = lambda node: forest.digest(node, True)
        before = [peak for peak in forest.peaks if peak.stop <= at]
        behind = [peak for peak in forest.peaks if peak.first > at]
        own = [peak for peak in forest.peaks if at in peak.leaves()]
        count = len(before)
        found = []
        if before[:self.aligned]:
            found.append(left_fold([joined(peak) for peak in before[:self.aligned]]))
        found += [joined(peak) for peak in before[self.aligned:]]
        inactive_behind = max(0, self.aligned - count - 1)
        found += [joined(peak) for peak in behind[:inactive_behind]]
        if behind[inactive_behind:]:
            found.append(right_fold([joined(peak) for peak in behind[inactive_behind:]]))
        found += [joined(node) for node in maximal_without(own[0], at)]
        pending, partial = forest.pending(), forest.partial()
        said = varint(at) + forest.chunks[at // forest.across] + varint(len(self.log)) + varint(self.aligned)
        said += varint(len(found)) + b"".join(found)
        if forest.family == "mmb":
            said += b"\0" if pending is None else b"\1" + pending
        said += b"\0" if partial is None else b"\1" + partial[1]
        return said + self.ops_root

    def proof(self, key):
        """The value of a key, or None where it is absent, and the honest bytes that prove it."""
        at = place_of(self.log, key)
        if at is not None:
            _, _, value, following = self.log[at]
            return value, self.operation_proof(at) + following
        present = state_after(self.log)
        if not present:
            at = len(self.log) - 1
            _, metadata, _ = self.log[at]
            said = b"\0" if metadata is None else b"\1" + metadata
            return None, b"\2" + self.operation_proof(at) + said
        at = place_of(self.log, max((k for k in present if k < key), default=max(present)))
        return None, b"\1" + self.operation_proof(at) + b"".join(self.log[at][1:])

    def is_settled(self, chunks):
        """Whether each peak of the forest of so many chunks, raised by the height of a chunk, is a node of the forest."""
        across = self.forest.across
        spans = {(node.first, node.stop) for node in self.forest.nodes}
        return all((peak.first * across, peak.stop * across) in spans
                   for peak in grow(self.forest.family, chunks).peaks)

    def settled_up_to(self, before, location):
        """The greatest settled number of chunks that end by a location, and none less than so many."""
        return max(before, *filter(self.is_settled, range(location // self.forest.across + 1)))

    def pruned(self, before, location):
        """How many chunks are pruned after pruning up to a location, of which so many were; None past the floor."""
        return None if location > self.floor else self.settled_up_to(before, location)


def maximal_without(node, leaf):
    """The maximal nodes under a node that do not hold a leaf, left to right."""
    if leaf not in node.leaves():
        return [node]
    children = (node.left, node.right) if node.left else ()
    return [found for child in children for found in maximal_without(child, leaf)]


# ---------------------------------------------------------------- the client

def varint(n):
    out = bytearray()
    while n > 127:
        out.append(n & 127 | 128)
        n >>= 7
    return bytes(out) + bytes([n])


class Bad(Exception):
    """Bytes that do not decode."""


class Cursor:
    def __init__(self, data):
        self.data, self.at = data, 0

    def take(self, count):
        if self.at + count > len(self.data):
            raise Bad
        self.at += count
        return self.data[self.at - count:self.at]

    def varint(self, most):
        start, value, shift = self.at, 0, 0
        while True:
            byte = self.take(1)[0]
            value |= (byte & 127) << shift
            shift += 7
            if byte < 128:
                break
            if shift > 63:
                raise Bad
        if value >= 2**64 or varint(value) != self.data[start:self.at] or value > most:
            raise Bad
        return value

    def option(self, count):
        tag = self.take(1)[0]
        if tag > 1:
            raise Bad
        return self.take(count) if tag else None


def is_shown(family, width, root, key, value, data):
    """Whether bytes prove under a root that the key has the value, or that it is absent where the value is None."""
    claimed = has_value if value is not None else is_absent
    try:
        return rebuilt(family, width, Cursor(data), key, value, claimed) == root
    except Bad:
        return False


class Proof:
    """The fields of an operation's proof, read from the front of bytes."""

    def __init__(self, family, width, cursor):
        self.at, self.chunk = cursor.varint(2**62), cursor.take(width)
        self.leaves, self.inactive, count = cursor.varint(2**62), cursor.varint(2**64), cursor.varint(122)
        self.digests = [cursor.take(32) for _ in range(count)]
        self.pending = cursor.option(32) if family == "mmb" else None
        self.partial, self.ops_root = cursor.option(32), cursor.take(32)


def has_value(family, width, cursor, key, value):
    """The proof, and the update that it has to be of."""
    proof = Proof(family, width, cursor)
    return proof, ("update", key, value, cursor.take(8))


def is_between(first, key, last):
    """Whether a key stands between two in the circle of all keys, the first one counted and the last one not."""
    if first < last:
        return first <= key < last
    return first == last or key >= first or key < last


def is_absent(family, width, cursor, key, _):
    """The proof, and the operation that it has to be of: an update with a key and a next one around this key, or the
    commit that says that there is no key."""
    tag = cursor.take(1)[0]
    if tag not in (1, 2):
        raise Bad
    proof = Proof(family, width, cursor)
    if tag == 2:
        return proof, ("commit", cursor.option(8), proof.at)
    name, value, following = cursor.take(8), cursor.take(8), cursor.take(8)
    if name == key or not is_between(name, key, following):
        raise Bad
    return proof, ("update", name, value, following)


def rebuilt(family, width, cursor, key, value, claimed):
    """The root that is rebuilt of a proof's bytes."""
    proof, operation = claimed(family, width, cursor, key, value)
    at, chunk, leaves, inactive = proof.at, proof.chunk, proof.leaves, proof.inactive
    pending, partial, ops_root = proof.pending, proof.partial, proof.ops_root
    across = 8 * width
    if cursor.at != len(cursor.data) or at >= leaves or leaves > 1 << 18:
        raise Bad
    if not chunk[at % across // 8] >> at % 8 & 1:
        raise Bad
    forest = Joined(family, width, [b""] * leaves, [])
    peaks = forest.peaks
    whole, graftable = leaves // across, forest.graftable()
    if inactive > len(peaks) or (pending is not None) != (whole > graftable):
        raise Bad
    if (partial is not None) != (leaves % across > 0):
        raise Bad
    if at // across >= whole and partial != digest(chunk):
        raise Bad
    if graftable <= at // across < whole and pending != digest(chunk):
        raise Bad
    given = iter(proof.digests)

    def take():
        found = next(given, None)
        if found is None:
            raise Bad
        return found

    before = [peak for peak in peaks if peak.stop <= at]
    behind = [peak for peak in peaks if peak.first > at]
    folded = [take()] if before[:inactive] else []
    singly = [take() for _ in before[inactive:]]
    inactive_behind = max(0, inactive - len(before) - 1)
    later = [take() for _ in behind[:inactive_behind]]
    last = [take()] if behind[inactive_behind:] else []
    own = next(peak for peak in peaks if at in peak.leaves())
    known = {node.position: take() for node in maximal_without(own, at)}
    if next(given, None) is not None:
        raise Bad

    def made(node):
        if node.position in known:
            return known[node.position]
        if node.left:
            found = digest(number(node.position), made(node.left), made(node.right))
        else:
            found = digest(number(node.position), encoded(operation))
        return digest(chunk, found) if node.height == forest.height and any(chunk) else found

    mine = made(own)
    if len(before) < inactive:
        # The peak itself, and those behind it, are among the inactive ones.
        items = [left_fold(folded + singly + [mine] + later)] + last
    else:
        items = folded + singly + [mine] + last
    said = number(inactive) if inactive else b""
    grafted = digest(number(leaves), b"\1", said, right_fold(items))
    return canonical(ops_root, grafted, pending, None if partial is None else (leaves % across, partial))
