#!/usr/bin/env python3
"""What cases of the light client have to answer, from the definitions of roots and proofs.

    tools/reference/claims.py < crates/client_player/stdin > crates/client_player/stdout

The words of a line are listed in the player's README.md. `honest_range` and `honest_slice` make the honest bytes of a log
anew, for cases of ranges and slices.
"""

import forest
import histories
import proof_states
from lines import BadLine, need, number, play, unhex
from proof_codec import Fault, Merkle, Range, Reader, option, varint
from proof_trees import Malformed, Rebuilt, peaks_of, plain_branch, plain_leaf, range_digests

MOST = 244


def operation(word):
    found = unhex(word)
    need(len(found) == histories.RECORD and histories.decoded(found) is not None)
    return found


def operations(word):
    return [] if word == "-" else [operation(part) for part in word.split(",")]


def pattern(word):
    need(word == "-" or set(word) <= {"0", "1"})
    return [] if word == "-" else [bit == "1" for bit in word]


# Whether bytes show a claim.


def shows_active(family, width, root, data, location, claimed):
    reader = Reader(data)
    proof = reader.operation(family, width, 122)
    reader.end()
    return proof.location == location and proof_states.shows_operation(family, proof, claimed, root)


def shows_range(family, width, root, data, start, claimed, active):
    reader = Reader(data)
    proof = reader.range(family, MOST)
    chunks = []
    while reader.at < len(data):
        chunks.append(reader.take(width))
    if not proof_states.shows_range(family, proof, start, claimed, chunks, width, root):
        return False
    first = start - start % (8 * width)
    bits = [byte >> at & 1 == 1 for chunk in chunks for byte in chunk for at in range(8)]
    return active == bits[start - first : start - first + len(claimed)]


def shows_slice(family, root, data, start, claimed):
    reader = Reader(data)
    grafted = reader.digest()
    pending = reader.option(reader.digest) if family == "mmb" else None
    partial = reader.option(lambda: (reader.varint(), reader.digest()))
    merkle = reader.merkle(MOST)
    reader.end()
    stop = start + len(claimed)
    led = Rebuilt(family, merkle.leaves, start, stop, merkle.inactive, "backward", merkle.digests,
                  plain_leaf(claimed, start), plain_branch)
    return proof_states.sealed(led.root, grafted, pending, *(partial or (0, None))) == root


def is_shown(family, width, root, data, words):
    match words:
        case ["value", key, value]:
            key, value = unhex(key, 8), forest.number(number(value))
            return histories.is_shown(family, width, root, key, value, data)
        case ["absent", key]:
            return histories.is_shown(family, width, root, unhex(key, 8), None, data)
        case ["active", location, encoding]:
            return shows_active(family, width, root, data, number(location), operation(encoding))
        case ["range", start, encodings, active]:
            return shows_range(family, width, root, data, number(start), operations(encodings), pattern(active))
        case ["slice", start, encodings]:
            return shows_slice(family, root, data, number(start), operations(encodings))
    raise BadLine


def answer(words):
    need(len(words) > 4)
    family, width, root, data, *claim = words
    need(family in ("mmr", "mmb") and width in ("1", "32"))
    root, data = unhex(root, 32), unhex(data)
    try:
        return "yes" if is_shown(family, int(width), root, data, claim) else "no"
    except (Fault, Malformed):
        return "no"


# Honest bytes.


def honest_range(snapshot, start, stop):
    """The bytes that show the operations of a log from one location up to another, and their bits."""
    joined = snapshot.forest
    peaks = peaks_of(joined.family, len(snapshot.log))
    digest = lambda node: joined.digest(node, True)
    digests = range_digests(peaks, digest, start, stop, snapshot.aligned, "backward")
    partial = joined.partial()
    merkle = Merkle(len(snapshot.log), snapshot.aligned, digests)
    proof = Range(merkle, joined.pending(), None if partial is None else partial[1], snapshot.ops_root)
    return proof.written(joined.family) + b"".join(joined.chunks[start // joined.across : (stop - 1) // joined.across + 1])


def honest_slice(snapshot, start, stop):
    """The bytes that show the operations alone."""
    joined = snapshot.forest
    peaks = peaks_of(joined.family, len(snapshot.log))
    inactive = sum(1 for peak in peaks if peak.stop <= snapshot.floor)
    digest = lambda node: joined.digest(node, False)
    digests = range_digests(peaks, digest, start, stop, inactive, "backward")
    pending, partial = joined.pending(), joined.partial()
    witness = snapshot.grafted_root + (option(pending) if joined.family == "mmb" else b"")
    witness += b"\0" if partial is None else b"\1" + varint(partial[0]) + partial[1]
    return witness + Merkle(len(snapshot.log), inactive, digests).written()


if __name__ == "__main__":
    play(lambda: answer)
