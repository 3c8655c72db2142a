#!/usr/bin/env python3
"""The answers that the player of the store must give, from the definitions.

    python3 tools/reference/store.py < crates/store_player/stdin > crates/store_player/stdout

A store is a log, of which all is computed anew, and the writer of it, which calls the device of devices.py. No
definition tells which calls an opening, a commit and a read make, nor their order: these were read off the crates and
are modelled here. crates/store_player/README.md has the words of a line.
"""
from copy import deepcopy
from zlib import crc32

import histories
from proof_states import State
from devices import PIECE, Device, Refused, Settings, recovered
from histories import RECORD, number as encoded_number
from lines import BadLine, hexed, number, play, said, unhex
from logs import batch_word, key, metadata_of

PAGE = 64
FOOTER = 12
ROOM = PAGE - FOOTER
BUFFERS = (128, 128)


def sizes_of(words):
    """The sizes of the write buffer and of the one that a log is read through."""
    match words:
        case []:
            return BUFFERS
        case [write, replay]:
            return number(write), number(replay)
    raise BadLine


# ---------------------------------------------------------------- the device

KINDS = ("open", "read", "write", "resize", "sync")


def rate(words):
    """Two numbers that are a rate."""
    numerator, denominator = map(number, words)
    if denominator == 0 or numerator > denominator:
        raise BadLine


def setting(words):
    """Words that change a setting."""
    match words:
        case ["fault", kind, _, _] if kind in KINDS:
            rate(words[2:])
        case ["keep", _, _] | ["keep", "write" | "resize", _, _]:
            rate(words[-2:])
        case ["mode", "prefix" | "subset"]:
            pass
        case _:
            raise BadLine
    return words


class Disk(Device):
    """The device, with what ends its numbers and cuts its power. A header of eight bytes is before the log."""

    def check_end(self, end):
        self.let_through()
        if self.live is None:
            raise Refused("F1")
        if end + 8 >= 2**64:
            raise Refused("F8")

    def write(self, at, data, is_durable):
        self.check_end(at + len(data))
        super().write(at, data, is_durable)

    def resize(self, length):
        self.check_end(length)
        super().resize(length)

    def cut_after(self, calls):
        if self.left != 0:
            self.left = calls

    def is_set(self, step):
        """Puts settings or a cut in place, where a step says some."""
        match step:
            case ["settings", settings]:
                self.settings = settings
            case ["cut", calls]:
                self.cut_after(calls)
            case _:
                return False
        return True

    def started(self, call, words):
        """What is started is made at once, then a call, and then its answer is told: both, with a refusal as its text."""
        def told(made):
            try:
                return made()
            except Refused as refused:
                return str(refused)

        first = told(call)
        return f"{told(lambda: self.answer(words))}; {first}"

    def answer(self, words):
        """The answer to a call of the device by itself."""
        match words:
            case ["read-many", *ranges]:
                pairs = zip(ranges[::2], ranges[1::2], strict=True)
                return " ".join([hexed(self.read(number(at), number(count))) for at, count in pairs]) or "none"
            case ["start", "sync", *words]:
                return self.started(lambda: self.answer(["sync"]), words)
            case ["start", "read", at, count, *words]:
                return self.started(lambda: self.answer(["read", at, count]), words)
            case ["open"] if self.live is None:
                return str(self.open())
            case ["close"]:
                self.close()
            case ["crash"] if self.live is None:
                self.crash()
            case ["read", at, count]:
                return hexed(self.read(number(at), number(count)))
            case ["write", at, data, "plain" | "sync" as mode]:
                self.write(number(at), unhex(data), mode == "sync")
            case ["resize", length]:
                self.resize(number(length))
            case ["sync"]:
                self.sync()
            case ["cut", calls]:
                self.cut_after(number(calls))
            case ["is", "cut"]:
                return said(self.left == 0)
            case ["is", "closed"]:
                return said(self.live is None)
            case _:
                raise BadLine
        return "ok"


def of_opening(opening, words):
    """What is asked of an opening."""
    match words:
        case ["base"]:
            return hexed(opening.base)
        case ["shown"]:
            return hexed(opening.shown)
        case ["pieces"]:
            starts = range(0, len(opening.shown), PIECE)
            return " ".join(str(len(opening.shown[at:at + PIECE])) for at in starts) or "none"
        case ["mutations"]:
            return ", ".join(map(mutation_text, opening.mutations)) or "none"
        case ["chance", size]:
            size = number(size)
            if size not in [2**n for n in range(4, 17)]:
                raise BadLine
            return said(opening.is_by_chance(size))
    raise BadLine


def mutation_text(mutation):
    kind, *fields = mutation
    return f"write {fields[0]} {hexed(fields[1])}" if kind == "write" else f"resize {fields[0]}"


# ---------------------------------------------------------------- pages

def verified(page, slot):
    """How many of its bytes a slot of a page vouches for, the first slot or the second."""
    at = ROOM + 6 * slot
    count = int.from_bytes(page[at:at + 2], "big")
    is_whole = 0 < count <= ROOM and crc32(page[:count]) == int.from_bytes(page[at + 2:at + 6], "big")
    return count if is_whole else 0


def slot_bytes(count, checksum):
    return count.to_bytes(2, "big") + checksum.to_bytes(4, "big")


class Cache:
    """Pages that are kept under the name of their writer and their number, the one that was put longest ago first."""

    def __init__(self, room):
        self.room, self.names, self.kept = room, 0, {}

    def name(self):
        self.names += 1
        return self.names

    def put(self, name, at, data):
        """Keeps the whole pages of bytes that stand from a place on."""
        for start in range(0, len(data) - ROOM + 1, ROOM):
            place = name, (at + start) // ROOM
            self.kept.pop(place, None)
            if len(self.kept) >= self.room:
                del self.kept[next(iter(self.kept))]
            self.kept[place] = data[start:start + ROOM]


class Writer:
    """The writer of a log on a device: what is behind its last whole page that was written is in memory.

    A slot (which of the two, its bytes) is the one of the page where the tip begins that a sync made durable.
    """

    def __init__(self, disk, cache, capacity):
        self.disk, self.cache, self.capacity = disk, cache, max(capacity, PAGE)
        self.name, self.offset, self.tip, self.slot, self.synced = None, 0, b"", None, 0

    def size(self):
        return self.offset + len(self.tip)

    # -- growing

    def page(self, content, kept):
        """A page of content, in which a slot is kept beside the one that is said anew."""
        slots = [slot_bytes(len(content), crc32(content)), bytes(6)]
        if kept is not None:
            which, stands = kept
            slots = [stands, slots[0]] if which == 0 else [slots[0], stands]
        return content.ljust(ROOM, b"\0") + slots[0] + slots[1]

    def flush(self, content):
        """Writes the content of the tip's pages, all in one."""
        pieces = [content[at:at + ROOM] for at in range(0, len(content), ROOM)]
        pages = [self.page(piece, None if at else self.slot) for at, piece in enumerate(pieces)]
        self.disk.write(self.offset // ROOM * PAGE, b"".join(pages), False)

    def leave(self, count):
        """Goes on behind so many bytes of the tip."""
        self.offset, self.tip = self.offset + count, self.tip[count:]

    def append(self, data):
        """Appends bytes: whenever they do not fit in the buffer it is filled, and its whole pages are written."""
        while self.capacity - len(self.tip) < len(data):
            taken = self.capacity - len(self.tip)
            self.tip, data = self.tip + data[:taken], data[taken:]
            whole = len(self.tip) // ROOM * ROOM
            self.flush(self.tip[:whole])
            self.cache.put(self.name, self.offset, self.tip)
            self.leave(whole)
            self.slot = None
        self.tip += data

    def sync(self):
        if self.synced == self.size():
            return
        if self.tip:
            self.flush(self.tip)
        self.disk.sync()
        self.synced = self.size()
        self.cache.put(self.name, self.offset, self.tip)
        self.slot = self.slot_of_tip()
        self.leave(len(self.tip) // ROOM * ROOM)

    def slot_of_tip(self):
        """The slot that vouches for the last page of the tip as it was written, where that is not whole."""
        last = self.tip[len(self.tip) // ROOM * ROOM:]
        if not last:
            return None
        stays = self.slot if len(self.tip) < ROOM else None
        return 0 if stays is None else 1 - stays[0], slot_bytes(len(last), crc32(last))

    # -- reading

    def whole_page(self, at):
        """The content of a whole page that was written: as it is kept, or of the device, and then kept."""
        found = self.cache.kept.get((self.name, at))
        if found is None:
            found = self.disk.read(at * PAGE, PAGE)[:ROOM]
            self.cache.put(self.name, at * ROOM, found)
        return found

    def read(self, at, count):
        end, found = at + count, b""
        while at < min(end, self.offset):
            piece = self.whole_page(at // ROOM)[at % ROOM:][:end - at]
            found, at = found + piece, at + len(piece)
        return found + self.tip[max(at - self.offset, 0):max(end - self.offset, 0)]

    # -- recovering

    def prefix(self, length, capacity):
        """How many bytes are recovered of a file of some length, of which as many pages are read at once as fit."""
        at, pages = 0, length // PAGE
        while at < pages:
            count = min(max(capacity // PAGE, 1), pages - at)
            found = len(recovered(self.disk.read(at * PAGE, count * PAGE), PAGE))
            if found < count * ROOM:
                return at * ROOM + found
            at += count
        return pages * ROOM

    def cut(self, size):
        """Cuts the list to its first bytes, and leaves one slot in its last page where that is not whole.

        The pages that were kept are those of another name then.
        """
        self.name = self.cache.name()
        at, part = divmod(size, ROOM)
        self.tip, self.slot = b"", None
        if part:
            page = self.disk.read(at * PAGE, PAGE)
            self.disk.resize((at + 1) * PAGE)
            self.slot = self.leave_one_slot(at, page, part)
            self.tip = page[:part]
        else:
            self.disk.resize(at * PAGE)
        self.disk.sync()
        self.offset, self.synced = at * ROOM, size

    def leave_one_slot(self, at, page, part):
        """Has one slot of a page vouch for so many bytes, and the other for none; it answers the one."""
        counted = 0 if verified(page, 0) >= verified(page, 1) else 1
        slots = page[ROOM:ROOM + 6], page[ROOM + 6:]
        said_so = slot_bytes(part, crc32(page[:part]))
        if (slots[counted], slots[1 - counted]) == (said_so, bytes(6)):
            return counted, said_so
        start, other = at * PAGE + ROOM, 1 - counted
        self.disk.write(start + 6 * other, bytes(2) + said_so[2:], True)
        self.disk.write(start + 6 * other, said_so[:2], True)
        self.disk.write(start + 6 * counted, bytes(6), True)
        return other, said_so


BEGINNING = histories.bytes_of([("commit", None, 0)])


def opened(disk, cache, capacity):
    """Opens the device's log: the writer that goes on behind its last commit, and the bytes up to there."""
    length = disk.open()
    writer = Writer(disk, cache, capacity)
    size = writer.prefix(length, capacity)
    writer.cut(size)
    data = writer.read(0, size)
    count = histories.committed(data)
    if count != size:
        writer.cut(count)
    if count == 0:
        writer.append(BEGINNING)
        writer.sync()
    return writer, data[:count] or BEGINNING


# ---------------------------------------------------------------- stores

class StoreRefused(Exception):
    pass


def of_device(refused):
    """A store's refusal, of one of its device."""
    match refused.args:
        case ["F6", kind]:
            return StoreRefused(f"S1 {kind}")
        case ["F10"]:
            return StoreRefused("S2")
        case ["F8"]:
            return StoreRefused("S3")
        case ["F5", fault]:
            return StoreRefused(f"S12 {fault}")
    return StoreRefused("S5")


def proof_text(value, proof):
    """What is told of a proof of a key: of its value, or of its absence."""
    said = "absent" if value is None else int.from_bytes(value, "big")
    return f"{said} {proof.hex()}"


class Store:
    """A log of a history on an open device. A store that has failed has none."""

    def __init__(self, form, disk, cache, capacity):
        self.form, self.disk, self.pruned = form, disk, 0
        try:
            self.writer, data = opened(disk, cache, capacity)
        except Refused as refused:
            raise of_device(refused) from None
        self.kept = histories.operations_of(data)
        if self.kept is None or histories.history_of(self.kept) is None:
            raise StoreRefused("S5")

    def log(self):
        if self.kept is None:
            raise StoreRefused("S6")
        return self.kept

    def snapshot(self):
        return histories.Snapshot(*self.form, self.log())

    def read(self, at):
        """The operation at a location, read where it stands."""
        return histories.decoded(self.writer.read(at * RECORD, RECORD))

    def read_for(self, batch):
        """Reads what a batch cannot be told without: of each key that is put and keeps its next key the value that it
        had, and of each other whose next key changes the value that it keeps; in ascending order."""
        log = self.log()
        old = histories.state_after(log)
        new, said = histories.after(old, batch), {key for word, key, *_ in batch}
        put = {key for key in said if key in new}
        for key in sorted(set(old) & set(new)):
            stays = histories.next_key(old, key) == histories.next_key(new, key)
            if stays == (key in put):
                self.read(histories.place_of(log, key))

    def commit(self, batch, metadata):
        log = self.log()
        self.read_for(batch)
        old = histories.state_after(log)
        more = histories.changes(old, histories.after(old, batch))
        more.append(("commit", metadata, histories.floor_of(log + more)))
        # Refused from here on, the store has failed.
        self.kept = None
        self.disk.let_through()
        self.writer.append(histories.bytes_of(more))
        self.writer.sync()
        self.kept = log + more
        return self.snapshot().root.hex()

    def get(self, name):
        at = histories.place_of(self.log(), name)
        if at is None:
            return "none"
        kind, *fields = self.read(at)
        assert (kind, fields[0]) == ("update", name)
        return str(int.from_bytes(fields[1], "big"))

    def prove(self, name):
        log = self.log()
        at, present = histories.place_of(log, name), histories.state_after(log)
        if at is None:
            before = max((key for key in present if key < name), default=max(present, default=None))
            at = len(log) - 1 if before is None else histories.place_of(log, before)
        self.read(at)
        return proof_text(*self.snapshot().proof(name))

    def proved(self, question):
        """What is told of operations by their locations, with the bytes that prove it."""
        kind, start, stop = question
        log, (family, width) = self.log(), self.form
        if start >= stop:
            raise StoreRefused("S11")
        if stop > len(log):
            raise StoreRefused("S9")
        if start < 8 * width * self.pruned:
            raise StoreRefused("S10")
        state = State(family, width)
        state.operations, state.bits = [histories.encoded(operation) for operation in log], histories.bits(log)
        state.floor = log[-1][2]
        if kind == "operation" and not state.bits[start]:
            raise StoreRefused("S8")
        told = [", ".join(histories.text(self.read(at)) for at in range(start, stop))]
        if kind == "range":
            told.append("".join(str(int(bit)) for bit in state.bits[start:stop]))
        made = {"operation": lambda *_: state.honest(start).written(family), "range": state.range_bytes, "log": state.slice_bytes}
        return "; ".join([*told, made[kind](start, stop).hex()])

    def prune(self, location):
        chunks = self.snapshot().pruned(self.pruned, location)
        if chunks is None:
            raise StoreRefused("S7")
        self.pruned = chunks
        return str(chunks)

    def answer(self, step):
        """The answer to a step that a store takes, open or failed."""
        try:
            match step:
                case ["commit", batch, metadata]:
                    return self.commit(batch, metadata)
                case ["get", name]:
                    return self.get(name)
                case ["root"]:
                    return self.snapshot().root.hex()
                case ["commits"]:
                    return str(sum(operation[0] == "commit" for operation in self.log()[1:]))
                case ["floor"]:
                    return str(self.log()[-1][2])
                case ["len"]:
                    return str(len(self.log()))
                case ["prune", location]:
                    return self.prune(location)
                case ["prove", name]:
                    return self.prove(name)
                case ["prove", *question]:
                    return self.proved(question)
        except Refused as refused:
            raise of_device(refused) from None
        raise AssertionError(step)


class Alone:
    """A store by itself, which is open as long as it stands."""

    def __init__(self, form, disk, room, capacity):
        self.disk, self.store = disk, Store(form, disk, Cache(room), capacity)

    def step(self, step):
        if step[0] in ("open", "close", "crash"):
            raise BadLine
        if self.disk.is_set(step):
            return "set"
        try:
            return self.store.answer(step)
        except StoreRefused as refused:
            return str(refused)


class Session:
    """A device with a cache, on which a store is open or not, and the steps that wait."""

    def __init__(self, form, disk, room):
        self.form, self.disk, self.cache = form, disk, Cache(room)
        self.store, self.waiting = None, []

    def open(self, capacity):
        try:
            self.store = Store(self.form, self.disk, self.cache, capacity)
        except StoreRefused:
            self.disk.close()
            raise
        return "opened"

    def close(self):
        self.store = None
        self.disk.close()
        return "closed"

    def crash(self):
        self.disk.crash()
        return "crashed"

    def taken(self, step):
        if self.disk.is_set(step):
            return "set"
        match step:
            case ["open" | "crash", *_] if self.store:
                return "still open"
            case ["open", capacity]:
                return self.open(capacity)
            case ["crash"]:
                return self.crash()
            case _ if not self.store:
                return "not open"
            case ["close"]:
                return self.close()
        return self.store.answer(step)

    def step(self, step):
        try:
            return self.taken(step)
        except StoreRefused as refused:
            return str(refused)

    def run(self):
        """What is answered to the steps that wait, as one run, at whose end an open store is closed."""
        steps, self.waiting = self.waiting, []
        answers = ", ".join(map(self.step, steps))
        if self.store:
            self.close()
        return answers

    def run_whole(self):
        """So over the device and the cache of the session: an open store is closed before it."""
        if self.store:
            self.close()
        return self.run()


# ---------------------------------------------------------------- cases

class Stores:
    """What stands in a case: a device, or a session or a store that has it; a batch, and the settings said last."""

    def __init__(self):
        self.disk, self.room, self.user = None, 1, None
        self.batch, self.settings = [], Settings()

    def bare(self):
        """The device, where nothing else has it."""
        if self.disk is None or self.user is not None:
            raise BadLine
        return self.disk

    def begin(self, words):
        """Makes a device."""
        match words:
            case [seed, room]:
                version = None
            case [seed, room, "version", version]:
                version = number(version, 2**16)
            case _:
                raise BadLine
        self.disk, self.room, self.user = Disk(number(seed), version), max(number(room), 1), None
        self.settings = Settings()
        return "ok"

    def form(self, family, width):
        """The family and the width of a store, which takes the device: that is closed."""
        if self.bare().live is not None or family not in ("mmr", "mmb") or width not in ("1", "32"):
            raise BadLine
        return family, int(width)

    def open_store(self, form, sizes):
        capacity, _ = sizes_of(sizes)
        try:
            self.user = Alone(form, self.disk, self.room, capacity)
        except StoreRefused as refused:
            self.disk.close()
            return str(refused)
        return "opened"

    def apart(self):
        if self.user is None:
            raise BadLine
        self.user = None
        self.disk.close()
        return "ok"

    def set(self, words):
        """Takes a setting, and gives the step that puts all of them in place."""
        setting(words)
        if self.disk is None:
            raise BadLine
        self.settings.change(words)
        return ["settings", deepcopy(self.settings)]

    def has_settings(self):
        if self.disk is None or isinstance(self.user, Session):
            raise BadLine
        return said(self.disk.settings.text() == self.settings.text())

    def step(self, words):
        """The step that words ask for."""
        match words:
            case ["open", *sizes]:
                return ["open", sizes_of(sizes)[0]]
            case ["close"] | ["crash"] | ["root"] | ["commits"] | ["floor"] | ["len"]:
                return words
            case ["commit", *metadata]:
                metadata = metadata_of(metadata)
                batch, self.batch = self.batch, []
                return ["commit", batch, metadata]
            case ["get" | "prove" as word, name]:
                return [word, key(name)]
            case ["prove", "operation", at]:
                return ["prove", "operation", number(at), number(at) + 1]
            case ["prove", "range" | "log" as kind, start, stop]:
                return ["prove", kind, number(start), number(stop)]
            case ["prune", location]:
                return ["prune", number(location)]
            case ["cut", calls]:
                return ["cut", number(calls)]
            case ["fault" | "keep" | "mode", *_]:
                return self.set(words)
        raise BadLine

    def answer(self, words):
        match words:
            case ["device", word, *_] if not word.isdigit():
                return self.bare().answer(words[1:])
            case ["device", *words]:
                return self.begin(words)
            case ["openings"]:
                return str(len(self.bare().openings))
            case ["opening", at, *words]:
                openings, at = self.bare().openings, number(at)
                if at >= len(openings):
                    raise BadLine
                return of_opening(openings[at], words)
            case ["session", family, width]:
                self.user = Session(self.form(family, width), self.disk, self.room)
                return "ok"
            case ["store", family, width, *sizes]:
                return self.open_store(self.form(family, width), sizes)
            case ["apart"]:
                return self.apart()
            case ["check" | "turned" | "shortened", *_]:
                return of_client(words)
            case ["has", "settings"]:
                return self.has_settings()
            case ["injections"]:
                return str(self.disk.injections)
        if word := batch_word(words):
            self.batch.append(word)
            return "ok"
        return self.step_answer(words)

    def step_answer(self, words):
        if self.user is None and words[0] in ("fault", "keep", "mode"):
            self.bare().is_set(self.set(words))
            return "set"
        if self.user is None:
            raise BadLine
        if not isinstance(self.user, Session):
            return self.user.step(self.step(words))
        match words:
            case ["later", *words] if words:
                self.user.waiting.append(self.step(words))
                return "ok"
            case ["run"]:
                return self.user.run()
            case ["run", "whole"]:
                return self.user.run_whole()
        return self.user.step(self.step(words))


# ---------------------------------------------------------------- the client

def turned(proof):
    """Each proof in which one bit is another."""
    for at in range(len(proof)):
        for bit in range(8):
            yield proof[:at] + bytes([proof[at] ^ 1 << bit]) + proof[at + 1:]


def of_client(words):
    match words:
        case [call, "mmr" | "mmb" as family, "1" | "32" as width, root, name, value, proof]:
            root, name, proof = unhex(root), key(name), unhex(proof)
            value = None if value == "absent" else encoded_number(number(value))
        case _:
            raise BadLine
    if len(root) != 32:
        raise BadLine

    def says(proof):
        return histories.is_shown(family, int(width), root, name, value, proof)

    if call == "check":
        return "yes" if says(proof) else "no"
    if call == "turned":
        return str(sum(map(says, turned(proof))))
    return str(sum(says(proof[:count]) for count in range(len(proof))))


if __name__ == "__main__":
    play(lambda: Stores().answer, Refused)
