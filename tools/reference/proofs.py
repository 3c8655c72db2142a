#!/usr/bin/env python3
"""What cases of bits, bitmaps and proofs of states have to answer, from the definitions of their roots and proofs.

    tools/reference/proofs.py < crates/proofs_player/stdin > crates/proofs_player/stdout

The words of a line are listed in the player's README.md. Everything is made anew for each line: a forest is grown leaf
by leaf, each digest recomputed from nothing, each proof taken apart node by node.
"""

import copy
from functools import partial

import forest
import proof_logs as logs
import proof_states as states
from lines import BadLine, need, number, play, unhex
from proof_bitmaps import Bits, Map, chunk_of, led_root
from proof_codec import Fault, Merkle, Reader, option, string, varint
from proof_states import Refused, State
from proof_trees import Malformed, range_digests, peaks_of

LIMIT = 1 << 40


def digest(word):
    return unhex(word, 32)


def listed(word, read):
    return [] if word == "none" else [read(part) for part in word.split(",")]


def pattern(word, count=None):
    need(set(word) <= {"0", "1"})
    count = len(word) if count is None else number(count)
    return [word[at % len(word)] == "1" for at in range(count)]


def hexed(value):
    return "none" if value is None else value.hex() or "-"


def joined(values, between=","):
    return between.join(values) or "none"


def truth(value):
    return "true" if value else "false"


class Case:
    def __init__(self):
        self.bits = Bits(1)
        self.map = None
        self.state = None
        self.root = bytes(32)
        self.proof = b""

    def answer(self, words):
        subject, *rest = words
        calls = {
            "bits": self.of_bits, "map": self.of_map, "chunk_size": self.of_sizes, "chunk": self.of_chunks,
            "family": self.of_family, "spoilt": self.spoilt, "shortened": self.shortened,
        }
        if subject in calls:
            return calls[subject](*rest)
        if subject == "root":
            (word,) = rest
            self.root = digest(word)
            return "ok"
        if subject == "proof":
            (word,) = rest
            self.proof = unhex(word)
            return "ok"
        return self.of_state(subject, *rest)

    # Lists of bits.

    def of_bits(self, word, *rest):
        bits = self.bits
        if word == "new":
            width, chunks = rest
            need(width in ("1", "2", "4") and number(chunks) < LIMIT)
            self.bits = Bits(int(width), number(chunks))
        elif word == "push":
            bits.known += pattern(*rest)
        elif word == "bytes":
            need(bits.count() % 8 == 0)
            bits.known += [byte >> at & 1 == 1 for byte in unhex(*rest) for at in range(8)]
        elif word == "set":
            at, value = number(rest[0]), pattern(rest[1])[0]
            need(bits.is_kept(at))
            bits.set(at, value)
        elif word == "prune":
            chunk = number(*rest)
            need(bits.pruned <= chunk <= bits.full())
            bits.pruned = chunk
        elif word in ("overlay", "stage"):
            end, *rest = rest
            need(end in ("apply", "cancel"))
            changed = copy.deepcopy(bits)
            told = (self.overlaid if word == "overlay" else self.staged)(changed, *rest)
            if end == "apply":
                self.bits = changed
            return told
        else:
            return self.bits_told(word, *rest)
        return "ok"

    def overlaid(self, after, *steps):
        """What steps answer that change the bits: `before` is a copy of what they were."""
        before, told = copy.deepcopy(after), []
        for step in steps:
            name, equals, word = step.partition("=")
            if name == "push" and equals:
                need(word in ("0", "1"))
                after.known.append(word == "1")
            elif name == "clear" and equals:
                need(after.is_kept(number(word)))
                after.set(number(word), False)
            elif name == "reserve" and equals:
                number(word)
            elif equals:
                told.append(self.overlay_at(after, name, number(word)))
            else:
                told.append(self.overlay_told(before, after, name))
        return joined(told, " ")

    def overlay_at(self, after, name, place):
        need(name in ("get", "chunk", "read"))
        need(after.is_kept(place if name == "get" else place * after.size))
        return truth(after.at(place)) if name == "get" else after.chunk(place).hex()

    def overlay_told(self, before, after, name):
        there = [at for at in range(before.pruned * before.size, before.count())]
        told = {
            "len": after.count, "read_len": after.count, "added": lambda: after.count() - before.count(),
            "cleared": lambda: sum(before.at(at) and not after.at(at) for at in there),
            "pruned_bits": lambda: after.pruned * after.size, "pruned_chunks": lambda: after.pruned,
        }
        need(name in told)
        return str(told[name]())

    def staged(self, after, word, places):
        before = copy.deepcopy(after)
        after.known += [] if word == "none" else pattern(word)
        for place in listed(places, number):
            need(after.is_kept(place))
            after.set(place, False)
        return "%s %s" % (self.overlay_told(before, after, "added"), self.overlay_told(before, after, "cleared"))

    def bits_told(self, word, *rest):
        bits = self.bits
        if word == "chunk":
            chunk = number(*rest)
            need(bits.pruned <= chunk < bits.full())
            return bits.chunk(chunk).hex()
        if word in ("get", "chunk_with"):
            at = number(*rest)
            need(bits.is_kept(at))
            return truth(bits.at(at)) if word == "get" else bits.chunk(at // bits.size).hex()
        need(not rest)
        told = {
            "len": bits.count, "is_empty": lambda: truth(bits.count() == 0),
            "is_chunk_aligned": lambda: truth(bits.count() % bits.size == 0), "complete_chunks": bits.full,
            "pruned_chunks": lambda: bits.pruned, "pruned_bits": lambda: bits.pruned * bits.size,
            "last_chunk": lambda: "%s %d" % (bits.last()[0].hex(), bits.last()[1]),
            "chunk_size_bits": lambda: bits.size,
        }
        need(word in told)
        return str(told[word]())

    # Maps.

    def of_map(self, word, *rest):
        if word == "new":
            width, bagging = rest
            need(width in ("1", "32", "64") and bagging in forest.BAGGINGS)
            self.map = Map(int(width), bagging)
            return "ok"
        need(self.map is not None)
        width, bagging = self.map.bits.width, self.map.bagging
        if word == "from_pruned":
            return self.from_pruned(number(rest[0]), listed(rest[1], digest))
        if word == "bit_from_chunk":
            bit = number(rest[1]) % (8 * width)
            return truth(unhex(rest[0], width)[bit // 8] >> bit % 8 & 1)
        if word in ("shows", "leads"):
            leaves, inactive, digests, chunk, bit, *root = rest
            found = led_root(width, bagging, number(leaves), number(inactive), listed(digests, digest),
                             unhex(chunk, width), number(bit))
            return truth(found == digest(*root)) if word == "shows" else hexed(found)
        if word in ("into_dirty", "merkleize"):
            need(self.map.merkleized == (word == "into_dirty"))
            self.map.merkleized = word == "merkleize"
            self.map.leaves = self.map.bits.full() if word == "merkleize" else self.map.leaves
            return "ok"
        return self.of_merkleized(word, *rest) if self.map.merkleized else self.of_changed(word, *rest)

    def from_pruned(self, chunks, digests):
        width = self.map.bits.width
        if chunks > forest.MAX_LEAVES or 8 * width * chunks >= 1 << 64:
            raise Refused("M21")
        if len(digests) != len(peaks_of("mmr", chunks)):
            raise Refused("M12")
        self.map = Map(width, self.map.bagging, chunks, digests)
        return "ok"

    def of_merkleized(self, word, *rest):
        map, bits = self.map, self.map.bits
        if word == "root":
            return map.root().hex()
        if word == "get_node":
            return hexed(map.node_at(number(*rest)))
        if word == "pruned_parts":
            return "%d %s" % (bits.pruned, joined([d.hex() for d in map.parts()]))
        if word == "prune_to_bit":
            bit = number(*rest)
            need(bit <= bits.count())
            bits.pruned = max(bits.pruned, bit // bits.size)
            return "ok"
        if word == "proof":
            bit = number(*rest)
            need(bit >= bits.pruned * bits.size)
            if bit >= bits.count():
                raise Refused(f"M22 {bit} {bits.count()}")
            leaves, inactive, digests, chunk = map.proof(bit)
            return "%d %d %s %s" % (leaves, inactive, joined([d.hex() for d in digests]), chunk.hex())
        if word == "tails":
            return self.tails(number(rest[0]), number(rest[1]), [number(word) for word in rest[2:]])
        if word == "lengths":
            return self.lengths(*[number(word) for word in rest])
        return self.map_told(word, *rest)

    def shown(self, leaves, proof, bit):
        _, inactive, digests, chunk = proof
        found = led_root(self.map.bits.width, self.map.bagging, leaves, inactive, digests, chunk, bit)
        return found == self.map_root

    def tails(self, bit, tail, counts):
        map, size = self.map, self.map.bits.size
        need(map.bits.is_kept(bit))
        proof, self.map_root = map.proof(bit), map.root()
        told = []
        for full in counts:
            tried = [size * chunk for chunk in range(full)] + list(range(size * full, size * full + size))
            shown = [str(other) for other in tried if self.shown(size * full + tail, proof, other)]
            told.append("%d:(%s)" % (full, " ".join(shown)))
        return " ".join(told)

    def lengths(self, step, most, *others):
        map, told = self.map, []
        self.map_root = map.root()
        for bit in range(0, map.bits.count(), step):
            if map.bits.is_kept(bit):
                proof = map.proof(bit)
                shown = [str(leaves) for leaves in list(range(most)) + list(others) if self.shown(leaves, proof, bit)]
                told.append("%d:(%s)" % (bit, " ".join(shown)))
        return " ".join(told)

    def of_changed(self, word, *rest):
        bits = self.map.bits
        if word == "push":
            bits.known += pattern(*rest)
        elif word == "push_bytes":
            need(bits.count() % 8 == 0)
            bits.known += [byte >> at & 1 == 1 for byte in unhex(*rest) for at in range(8)]
        elif word == "set_bit":
            need(bits.is_kept(number(rest[0])))
            bits.set(number(rest[0]), pattern(rest[1])[0])
        else:
            return self.map_told(word, *rest)
        return "ok"

    def map_told(self, word, *rest):
        map, bits = self.map, self.map.bits
        if word in ("get_bit", "get_chunk_containing"):
            at = number(*rest)
            need(bits.is_kept(at))
            return truth(bits.at(at)) if word == "get_bit" else bits.chunk(at // bits.size).hex()
        need(not rest)
        told = {
            "size": lambda: len(forest.grow("mmr", map.leaves).nodes), "len": bits.count,
            "is_empty": lambda: truth(bits.count() == 0), "pruned_bits": lambda: bits.pruned * bits.size,
            "last_chunk": lambda: "%s %d" % (bits.last()[0].hex(), bits.last()[1]),
            "chunk_size_bits": lambda: bits.size,
        }
        need(word in told)
        return str(told[word]())

    # Sizes and chunks.

    def of_sizes(self, word, *rest):
        if word == "size_of":
            width = len(unhex(*rest))
        else:
            width = number(rest[0])
        height = states.grafting_height(width)
        if word in ("size", "size_of"):
            return "none" if height is None else f"{height} {8 * width}"
        need(height is not None)
        if word == "height":
            need(width in (1, 32, 64))
            return str(height)
        need(word == "size_at")
        location = number(rest[1])
        return f"{location // (8 * width)} {location // (8 * width)} {location % (8 * width)}"

    def of_chunks(self, word, *rest):
        if word == "chunk":
            return hexed(chunk_of(number(rest[0]), pattern(rest[1])))
        if word == "chunks":
            width, count, bits = number(rest[0]), number(rest[1]), pattern(rest[2])
            need(states.grafting_height(width) is not None)
            return joined([chunk_of(width, bits[8 * width * at :]).hex() for at in range(count)])
        if word == "is_zero":
            return truth(not any(unhex(*rest)))
        if word == "graft":
            return states.graft(unhex(rest[0]), digest(rest[1])).hex()
        need(word == "seal")
        operations, grafted, pending, following, partial = rest
        pending, partial = [None if part == "none" else digest(part) for part in (pending, partial)]
        return states.sealed(digest(operations), digest(grafted), pending, number(following), partial).hex()

    # States.

    def of_family(self, family, width):
        need(family in forest.FAMILIES and states.grafting_height(number(width)) is not None)
        self.state = State(family, number(width))
        return "ok"

    def of_state(self, subject, *rest):
        need(self.state is not None)
        calls = {
            "state": self.made, "tree": self.of_tree, "log_proof": self.log_proof, "chunks": self.made_chunks,
            "both": self.of_both, "whole": self.whole, "prove": self.prove, "count": self.count, "hash": self.hashed,
            "witness": self.witness, "range": self.range, "log": self.log, "shows_value": self.shows_value,
            "operation": self.operation, "value": self.value, "absence": self.absence, "strings": self.strings,
        }
        need(subject in calls)
        return calls[subject](*rest)

    def made(self, word, *rest):
        state = self.state
        if word == "add":
            state.operations += listed(rest[0], unhex)
        elif word == "numbers":
            state.operations += [forest.number(n) for n in range(number(rest[0]), number(rest[1]) + 1)]
        elif word == "bits":
            state.bits = pattern(*rest)
        elif word == "floor":
            state.floor = number(*rest)
        elif word == "pruned":
            state.pruned = number(*rest)
        elif word == "log":
            state.log = listed(rest[0], number)
        else:
            need(word == "prune")
            tree = state.tree()
            tree.prune(number(*rest))
            state.boundary = tree.boundary
        return "ok"

    def of_tree(self, word, *rest):
        if word == "leaves":
            return str(len(self.state.operations))
        if word == "node":
            return hexed(self.state.tree().known(number(*rest)))
        need(word == "operations_root")
        return self.state.operations_root(number(*rest)).hex()

    def log_proof(self, *words):
        start, stop, inactive = map(number, words)
        state = self.state
        count, tree = len(state.operations), state.tree()
        if start >= stop:
            raise Refused("M4")
        if stop > count:
            raise Refused(f"M5 {stop}")
        peaks = peaks_of(state.family, count)
        if inactive > len(peaks):
            raise Refused("M16")
        digests = range_digests(peaks, lambda node: tree.known(node.position), start, stop, inactive, "backward")
        return Merkle(count, inactive, digests).written().hex()

    def made_chunks(self, height, *pairs):
        leaves = [(number(at), unhex(chunk)) for at, chunk in (pair.split(":") for pair in pairs)]
        self.state.make_chunks(number(height), leaves)
        return "ok"

    def of_both(self, word, *rest):
        state = self.state
        need(state.grafted is not None)
        tree = state.grafted[1]
        if word == "size":
            return str(len(forest.grow(state.family, len(state.operations)).nodes))
        if word == "node":
            return hexed(state.both(number(*rest)))
        need(word in ("prune", "prune_all"))
        tree.prune(number(*rest) if word == "prune" else tree.count)
        return "ok"

    def whole(self, word, *rest):
        state = self.state
        if word == "canonical_root":
            return state.canonical_root().hex()
        if word == "parts":
            return " ".join(hexed(part) for part in state.parts())
        if word == "counts":
            return f"{states.graftable(state.family, len(state.operations), state.height)} {state.aligned()}"
        if word == "chunks":
            return joined([chunk.hex() for chunk in state.chunks()])
        need(word == "honest" and number(rest[0]) < len(state.operations))
        return state.honest(number(rest[0])).written(state.family).hex()

    def prove(self, word, *rest):
        state, root = self.state, self.root
        need(state.width in (1, 32) and 8 * state.width * state.pruned <= len(state.bits))
        family, count = state.family, len(state.operations)
        if word == "range":
            return state.new_range(number(rest[0]), number(rest[1]), root).written(family).hex()
        if word == "one":
            return state.new_one(number(*rest), root).written(family).hex()
        if word == "ask":
            need(number(rest[1]) > 0)
            proof, numbers, chunks = state.ask(number(rest[0]), number(rest[1]), root)
            told = joined([str(n) for n in numbers], " ")
            return " ".join([proof.written(family).hex(), told] + [chunk.hex() for chunk in chunks])
        withheld = listed(rest[-1], number)
        if word == "build_range":
            start, stop = number(rest[0]), number(rest[1])
            if start >= stop:
                raise Refused("M4")
            if stop > count:
                raise Refused(f"M5 {stop}")
            return state.build(start, stop, root, withheld).written(family).hex()
        need(word == "build_one")
        location = number(rest[0])
        if location >= count:
            raise Refused(f"M7 {location}")
        return state.build_one(location, root, withheld).written(family).hex()

    def count(self, word, *rest):
        family = self.state.family
        if word == "graftable":
            leaves, height = number(rest[0]), number(rest[1])
            need(leaves <= forest.MAX_LEAVES and 0 < height <= 62)
            return str(states.graftable(family, leaves, height))
        if word == "graftable_of":
            leaves, height = number(rest[0]), states.grafting_height(number(rest[1]))
            need(leaves <= forest.MAX_LEAVES and height is not None)
            return str(states.graftable(family, leaves, height))
        if word == "aligned":
            leaves, floor, height = map(number, rest)
            need(height < 64)
            if leaves > forest.MAX_LEAVES:
                raise Refused(f"M3 {leaves}")
            return str(states.aligned_peaks(family, leaves, floor, 1 << height))
        if word == "positions":
            position, height = number(rest[0]), number(rest[1])
            node = states.node_at(family, position)
            need(node.height >= height)
            grafted = states.root_position(family, node.first >> height, node.height - height)
            return f"{grafted} {position}"
        need(word == "required")
        width, leaves, bits, pruned = map(number, rest[:4])
        need(leaves <= forest.MAX_LEAVES and states.grafting_height(width) is not None)
        location = None if rest[4] == "none" else number(rest[4])
        return joined([str(n) for n in states.required(family, width, leaves, bits, pruned, location)], " ")

    def hashed(self, word, *rest):
        family = self.state.family
        if word == "branch":
            height, position, left, right = number(rest[0]), number(rest[1]), digest(rest[2]), digest(rest[3])
            node = states.node_at(family, position)
            own = states.root_position(family, node.first << height, node.height + height)
            return forest.branch_digest(own, left, right).hex()
        need(word == "joined")
        height, first, have = map(number, rest[:3])
        chunks, position = listed(rest[3], unhex), number(rest[4])
        node = states.node_at(family, position)
        own = forest.branch_digest(position, digest(rest[5]), digest(rest[6]))
        index = node.first >> height
        if node.height == height and first <= index < min(have, first + len(chunks)):
            own = states.graft(chunks[index - first], own)
        return own.hex()

    # Bytes of proofs.

    def read(self, read):
        reader = Reader(self.proof)
        value = read(reader)
        reader.end()
        return value

    def written(self, data):
        return f"{len(data)} {hexed(data)}"

    def range_parts(self, proof):
        merkle = proof.merkle
        digests = joined([d.hex() for d in merkle.digests])
        tail = " ".join(hexed(part) for part in (proof.pending, proof.partial, proof.operations_root))
        return f"{merkle.leaves} {merkle.inactive} {digests} {tail}"

    def witness(self, word, *rest):
        family = self.state.family

        def read(reader):
            grafted = reader.digest()
            pending = reader.option(reader.digest) if family == "mmb" else None
            return grafted, pending, reader.option(lambda: (reader.varint(), reader.digest()))

        grafted, pending, partial = self.read(read)
        if word == "written":
            held = option(pending) if family == "mmb" else b""
            tail = b"\0" if partial is None else b"\1" + varint(partial[0]) + partial[1]
            return self.written(grafted + held + tail)
        if word == "parts":
            tail = "none" if partial is None else "%d %s" % (partial[0], partial[1].hex())
            return f"{grafted.hex()} {hexed(pending)} {tail}"
        need(word in ("root", "shows"))
        following, last = partial or (0, None)
        root = states.sealed(digest(*rest), grafted, pending, following, last)
        return root.hex() if word == "root" else truth(root == self.root)

    def range(self, most, word, *rest):
        family, most = self.state.family, number(most)
        proof = self.read(lambda reader: reader.range(family, most))
        if word == "written":
            return self.written(proof.written(family))
        if word == "parts":
            return self.range_parts(proof)
        start, operations, chunks, width = rest
        start, chunks, width = number(start), listed(chunks, unhex), number(width)
        if word == "digests":
            need(width in (1, 3, 32) and all(len(chunk) == width for chunk in chunks))
            operations = [forest.number(n) for n in listed(operations, number)]
            try:
                rebuilt, root = states.led(family, proof, start, operations, chunks, width)
            except Malformed:
                raise Refused("M15")
            if root != self.root:
                raise Refused("M17")
            return self.nodes(rebuilt)
        need(word in ("shows", "shows_arrays"))
        if word == "shows_arrays":
            need(width in (0, 1, 2, 3, 32) and all(len(chunk) == width for chunk in chunks))
        return truth(states.shows_range(family, proof, start, listed(operations, unhex), chunks, width, self.root))

    def nodes(self, rebuilt):
        return " ".join(f"{at}:{digest.hex()}" for at, (_, digest) in sorted(rebuilt.told.items()))

    def form(self, form, width, most):
        """The width and the count of a form of proofs; a bad width is refused before any byte where it is open."""
        width, most = number(width), number(most)
        need(form in ("array", "bytes", "vector") and (form != "array" or width in (1, 32)))
        bad = form == "bytes" and states.grafting_height(width) is None
        return width, most, bad

    def of_operation(self, reader, limits):
        width, most, bad = limits
        if bad:
            raise Fault("C7")
        return reader.operation(self.state.family, width, most)

    def operation(self, form, width, most, word, *rest):
        limits = self.form(form, width, most)
        proof = self.read(lambda reader: self.of_operation(reader, limits))
        if word == "written":
            return self.written(proof.written(self.state.family))
        if word == "parts":
            return f"{proof.location} {hexed(proof.chunk)} {self.range_parts(proof.range)}"
        need(word == "shows")
        return truth(states.shows_operation(self.state.family, proof, unhex(*rest), self.root))

    def value_shown(self, proof, next_key, key, value):
        operation = states.update(unhex(key, 8), forest.number(number(value)), next_key)
        return truth(states.shows_operation(self.state.family, proof, operation, self.root))

    def value(self, form, width, most, word, *rest):
        limits = self.form(form, width, most)
        proof, next_key = self.read(lambda reader: (self.of_operation(reader, limits), reader.take(8)))
        if word == "written":
            return self.written(proof.written(self.state.family) + next_key)
        if word == "next_key":
            return next_key.hex()
        need(word == "shows")
        return self.value_shown(proof, next_key, *rest)

    def shows_value(self, width, key, value):
        try:
            limits = (number(width), 122, False)
            proof, next_key = self.read(lambda reader: (self.of_operation(reader, limits), reader.take(8)))
        except Fault:
            return "false"
        return self.value_shown(proof, next_key, key, value)

    def absence(self, form, width, most, word, *rest):
        limits, family = self.form(form, width, most), self.state.family

        def read(reader):
            (tag,) = reader.take(1)
            if tag not in (1, 2):
                raise Fault(f"C5 {tag}")
            proof = self.of_operation(reader, limits)
            if tag == 1:
                return tag, proof, (reader.take(8), reader.take(8), reader.take(8))
            return tag, proof, reader.option(lambda: reader.take(8))

        tag, proof, what = self.read(read)
        if word == "written":
            tail = b"".join(what) if tag == 1 else option(what)
            return self.written(bytes([tag]) + proof.written(family) + tail)
        need(word == "shows")
        asked = unhex(*rest, 8)
        if tag == 2:
            return truth(states.shows_operation(family, proof, states.commit(what, proof.location), self.root))
        key, value, next_key = what
        if asked == key or not states.in_span(key, next_key, asked):
            return "false"
        return truth(states.shows_operation(family, proof, states.update(key, value, next_key), self.root))

    # Proofs whose keys and values are strings of at most so many bytes.

    def strings(self, kind, width, most, greatest, word, *rest):
        limits, greatest = self.form("vector", width, most), number(greatest)
        need(kind in ("value", "absence"))
        told = self.string_value if kind == "value" else self.string_absence
        return told(limits, lambda reader: reader.string(greatest), word, *rest)

    def string_value(self, limits, read, word, *rest):
        family = self.state.family
        proof, next_key = self.read(lambda reader: (self.of_operation(reader, limits), read(reader)))
        if word == "written":
            return self.written(proof.written(family) + string(next_key))
        if word == "next_key":
            need(not rest)
            return hexed(next_key)
        need(word == "shows")
        key, value = map(unhex, rest)
        return truth(states.shows_operation(family, proof, states.string_update(key, value, next_key), self.root))

    def string_absence(self, limits, read, word, *rest):
        family = self.state.family

        def whole(reader):
            (tag,) = reader.take(1)
            if tag not in (1, 2):
                raise Fault(f"C5 {tag}")
            proof = self.of_operation(reader, limits)
            if tag == 1:
                return tag, proof, (read(reader), read(reader), read(reader))
            return tag, proof, reader.option(lambda: read(reader))

        tag, proof, what = self.read(whole)
        if word == "written":
            tail = b"".join(map(string, what)) if tag == 1 else option(None if what is None else string(what))
            return self.written(bytes([tag]) + proof.written(family) + tail)
        need(word == "shows")
        (asked,) = map(unhex, rest)
        if tag == 2:
            operation = states.string_commit(what, proof.location)
            return truth(states.shows_operation(family, proof, operation, self.root))
        key, value, next_key = what
        if asked == key or not states.in_span(key, next_key, asked):
            return "false"
        return truth(states.shows_operation(family, proof, states.string_update(key, value, next_key), self.root))

    def log(self, most, word, *rest):
        family, most = self.state.family, number(most)
        proof = self.read(lambda reader: reader.merkle(most))
        if word == "shows_each":
            locations, numbers = listed(rest[0], number), listed(rest[1], number)
            return truth(logs.shows_each(family, proof, locations, numbers, self.root))
        start, numbers, *more = rest
        start, numbers = number(start), listed(numbers, number)
        if word == "shows":
            return truth(logs.shows(family, proof, start, numbers, self.root))
        if word == "pinned":
            return truth(logs.pinned(family, proof, start, numbers, listed(more[0], digest), self.root))
        if word == "digests":
            return self.nodes(logs.told(family, proof, start, numbers, self.root))
        need(word == "multi")
        peaks = [part.split(":") for part in listed(more[1], str)]
        peaks = {number(at): digest(node) for at, node in peaks}
        found = logs.multi(family, proof, start, numbers, self.root, listed(more[0], number), peaks)
        return found.written().hex()

    # Changed bytes.

    def is_true(self, proof, words):
        whole, self.proof = self.proof, proof
        try:
            return self.of_state(*words) == "true"
        except (Fault, Refused):
            return False
        finally:
            self.proof = whole

    def spoilt(self, *words):
        """The bytes of which a changed bit leaves the answer at `true`."""
        found = []
        for index in range(len(self.proof)):
            for bit in range(8):
                changed = bytearray(self.proof)
                changed[index] ^= 1 << bit
                found += [str(index)] if self.is_true(bytes(changed), words) else []
        return joined(found, " ")

    def shortened(self, *words):
        """The lengths to which the bytes, cut, leave the answer at `true`."""
        lengths = reversed(range(len(self.proof)))
        return joined([str(length) for length in lengths if self.is_true(self.proof[:length], words)], " ")


def answer(case, words):
    try:
        return case.answer(words)
    except (Refused, Fault) as refusal:
        return str(refusal)
    except (BadLine, ValueError, TypeError, IndexError):
        return "bad line"


if __name__ == "__main__":
    play(lambda: partial(answer, Case()))
