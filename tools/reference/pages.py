#!/usr/bin/env python3
"""The answers to cases of pages and of writers over them, from the format alone.

    tools/reference/pages.py < crates/pages_player/stdin > crates/pages_player/stdout

Files are bytes as long as they are given; once a writer has written, what is known of a page is its content and the lengths that
its two slots say, since the format leaves open which slot comes first. Choices of ours that no promise fixes are marked "ours".
"""

import struct
import zlib

from lines import BadLine, hexed, number, play, unhex

TEXTS = {
    "F1": "F1: blob missing",
    "F6": "F6: injected fault",
    "F7": "F7: blob too short",
    "F8": "F8: number ended",
    "F9": "F9: out of memory",
    "F10": "F10: power cut",
    "F12": "F12: checksum mismatch",
}


class Refused(Exception):
    """A call that is refused, by its number."""


def spelled(words):
    out = b""
    for word in words:
        digits, _, times = word.partition("*")
        out += unhex(digits) * (number(times) if times else 1)
    return out


def is_page_size(size):
    return 16 <= size <= 65536 and size & (size - 1) == 0


def footer(page):
    return struct.unpack(">HIHI", page[-12:])


def counted_slot(page):
    """The slot that counts, and its length; None where none verifies."""
    len1, crc1, len2, crc2 = footer(page)
    verified = []
    for name, length, crc in (("first", len1, crc1), ("second", len2, crc2)):
        if 1 <= length <= len(page) - 12 and zlib.crc32(page[:length]) == crc:
            verified.append((name, length))
    return max(verified, key=lambda it: it[1]) if verified else None


def recovered(file, size):
    """The content that is recovered of a file."""
    content = b""
    for start in range(0, len(file) - len(file) % size, size):
        page = file[start : start + size]
        found = counted_slot(page)
        if found is None:
            break
        content += page[: found[1]]
        if found[1] < size - 12:
            break
    return content


def page_of(first, second):
    content = bytes(range(52))
    sums = [zlib.crc32(content[:it]) if it else 0 for it in (first, second)]
    return content + struct.pack(">HIHI", first, sums[0], second, sums[1])


class Pages:
    """What a writer left: content, and of each page the lengths that its slots say, that of the durable one first."""

    def __init__(self, content, slots):
        self.content, self.slots = content, slots


class Kept:
    """The pages of one list that are kept in memory, at most so many."""

    def __init__(self, most):
        self.most, self.pages = most, []

    def keep(self, page):
        # ours: a page that is flushed whole or read is kept, and where there is no room the one that was put longest ago goes
        self.pages = [it for it in self.pages if it != page]
        if len(self.pages) >= self.most:
            self.pages.pop(0)
        self.pages.append(page)


class Reads:
    """The reads of a list: its content, of which so many first bytes are on whole pages, and the others in memory."""

    def read(self, offset, count):
        if offset + count > len(self.content):
            return "F7"
        for page in self.pages_of(offset, count):
            if page not in self.kept.pages:
                self.kept.keep(page)
        return hexed(self.content[offset : offset + count])

    def read_up_to(self, offset, count):
        return self.read(offset, max(min(count, len(self.content) - offset), 0))

    def pages_of(self, offset, count):
        end = min(offset + count, self.flushed)
        return range(offset // self.room, -(-end // self.room)) if offset < end else range(0)

    def is_served(self, offset, count):
        is_kept = all(page in self.kept.pages for page in self.pages_of(offset, count))
        return offset + count <= len(self.content) and is_kept

    def are_within(self, ranges):
        return all(offset + count <= len(self.content) for offset, count in ranges)

    def read_many(self, ranges):
        if not self.are_within(ranges):
            return "F7"
        return hexed(b"".join(unhex(self.read(*it)) for it in ranges))

    def try_many(self, ranges):
        if not self.are_within(ranges):
            return "F7"
        return "+".join(str(at) for at, it in enumerate(ranges) if not self.is_served(*it)) or "all"

    def try_read(self, form, text):
        ranges = items(text) if form == "items" else pairs(text)
        if form == "one":
            offset, count = ranges[0]
            return hexed(self.content[offset : offset + count]) if self.is_served(offset, count) else "false"
        if form not in ("items", "ranges"):
            raise BadLine
        return self.try_many(ranges)


def pairs(text):
    """Ranges, each an offset, a plus and a count, with commas between them."""
    ranges = [it.split("+", 1) for it in text.split(",")]
    if any(len(it) != 2 for it in ranges):
        raise BadLine
    return [(number(offset), number(count)) for offset, count in ranges]


def items(text):
    """A size and offsets: the ranges of as many bytes from each of them on."""
    size, colon, offsets = text.partition(":")
    if not colon:
        raise BadLine
    return [(number(offset), number(size)) for offset in offsets.split(",")]


class Sealed(Reads):
    """A list that takes no more bytes, and the pages of its writer that are kept."""

    def __init__(self, writer):
        self.content, self.flushed, self.room, self.kept = writer.content, writer.flushed, writer.room, writer.kept

    def play(self, words, told):
        while words:
            match words:
                case ["size", *words]:
                    told.append(str(len(self.content)))
                case ["copied", *words]:
                    pass
                case ["read", "items", text, *words]:
                    told.append(self.read_many(items(text)))
                case ["read", "ranges", text, *words]:
                    told.append(self.read_many(pairs(text)))
                case ["read", "at" | "into", text, *words] if len(pairs(text)) == 1:
                    told.append(self.read(*pairs(text)[0]))
                case ["read", "up-to", text, *words] if len(pairs(text)) == 1:
                    told.append(self.read_up_to(*pairs(text)[0]))
                case ["try", form, text, *words]:
                    told.append(self.try_read(form, text))
                case _:
                    raise BadLine
        return ", ".join(told) or "ok"


class Replay:
    """A list that is read from a place on, so many pages at once."""

    def __init__(self, sealed, pages_at_once):
        self.sealed, self.at_once = sealed, pages_at_once
        self.place, self.next = 0, 0

    def ensure(self, count):
        # ours: whole pages are read, as many as the buffer has, and then as many bytes of what stands behind them
        room, flushed, end = self.sealed.room, self.sealed.flushed, len(self.sealed.content)
        while self.next - self.place < count and self.next < end:
            if self.next >= flushed:
                self.next = min(self.next + self.at_once * room, end)
            else:
                self.next = min((self.next // room + self.at_once) * room, flushed)
        return "true" if self.next - self.place >= count else "false"

    def taken(self, count):
        self.place += count
        return hexed(self.sealed.content[self.place - count : self.place])

    def play(self, words, told):
        while words:
            there = self.next - self.place
            match words:
                case ["size", *words]:
                    told.append(str(len(self.sealed.content)))
                case ["remaining", *words]:
                    told.append(str(there))
                case ["exhausted", *words]:
                    told.append("true" if self.next == len(self.sealed.content) else "false")
                case ["chunk", *words]:
                    told.append(hexed(self.sealed.content[self.place : self.next]))
                case ["seek", place, *words]:
                    is_past = number(place) > len(self.sealed.content)
                    if not is_past:
                        self.place = self.next = number(place)
                    told.append("F7" if is_past else "ok")
                case ["ensure", count, *words]:
                    told.append(self.ensure(number(count)))
                case ["copy", count, *words]:
                    told.append(self.taken(number(count)) if number(count) <= there else "F7")
                case ["take", count, *words] if number(count) <= there:
                    told.append(self.taken(number(count)))
                case ["advance", count, *words] if number(count) <= there:
                    self.taken(number(count))
                    told.append("ok")
                case _:
                    raise BadLine
        return ", ".join(told) or "ok"


class Writer(Reads):
    def __init__(self, pages, size, capacity, most_kept):
        self.room, self.capacity = size - 12, max(capacity, size)
        self.content, self.slots = pages.content, list(pages.slots)
        self.synced = len(self.content)
        self.flushed = len(self.content) - len(self.content) % self.room
        self.kept = Kept(most_kept)
        self.durable = Pages(pages.content, list(pages.slots))

    def append(self, piece):
        if len(self.content) - self.flushed + len(piece) > self.capacity:
            self.content += piece
            self.flush(len(self.content) - len(self.content) % self.room)
        else:
            self.content += piece

    def put(self, end):
        """Puts the content up to an end on its pages: a page that has a durable slot gets the other one."""
        for page in range(self.flushed // self.room, -(-end // self.room)):
            length = min(self.room, end - page * self.room)
            if page == len(self.slots):
                self.slots.append((length, 0))
            elif self.slots[page][0] != length:
                self.slots[page] = (length, self.slots[page][0])

    def let_go(self, end):
        """Has the content in memory no longer but for its last page, if that is not whole."""
        for page in range(self.flushed // self.room, end // self.room):
            self.kept.keep(page)
        self.flushed = end - end % self.room

    def flush(self, end):
        self.put(end)
        self.let_go(end)

    def pages(self):
        """What stands on its pages."""
        return Pages(self.content[: sum(it[0] for it in self.slots)], list(self.slots))

    def start_sync(self):
        """All is on its pages and durable, but the writer counts it as that only when it has waited."""
        self.put(len(self.content))
        self.durable = self.pages()
        return len(self.content)

    def wait_for_sync(self, size):
        self.let_go(size)
        self.synced = size

    def sync(self):
        self.wait_for_sync(self.start_sync())

    def try_append(self, piece):
        if len(self.content) - self.flushed + len(piece) > self.capacity:
            return "none"
        self.content += piece
        return str(len(self.content) - len(piece))


class Case:
    def __init__(self):
        self.file, self.pages, self.durable = b"", None, None
        self.size, self.capacity, self.room, self.calls = 64, 128, 8, 0
        self.tip = (0, 64, b"")
        self.cache = (4, 2, 0, [])
        self.disk, self.record, self.started = b"", 0, {}

    def pages_now(self):
        """The pages of what is recovered of the file."""
        if self.pages:
            return self.pages
        content, room = recovered(self.file, self.size), self.size - 12
        slots = []
        for start in range(0, len(content), room):
            length = min(room, len(content) - start)
            # a writer clears the slot that does not count of a page that is not full
            page = self.file[start // room * self.size :][: self.size]
            other = [it for it in (footer(page)[0], footer(page)[2]) if it != length][:1] if length == room else []
            slots.append((length, *(other or [0])))
        return Pages(content, slots)

    def pages_there(self):
        return len(self.pages.slots) if self.pages else len(self.file) // self.size

    def cut_pages(self, size):
        pages, room = self.pages_now(), self.size - 12
        content = pages.content[:size]
        count = -(-len(content) // room)
        slots = pages.slots[:count]
        if len(content) % room:
            slots[-1] = (len(content) % room, 0)
        return Pages(content, slots)

    def check_sizes(self):
        if not is_page_size(self.size) or self.room == 0:
            raise BadLine

    def play(self, pages, words, told):
        writer = Writer(pages, self.size, self.capacity, self.room)
        while words:
            words = self.step(writer, words, told)
        # bytes that are in the writer's buffer are gone with it
        self.pages, self.durable = writer.pages(), writer.durable
        return ", ".join(told) or "ok"

    def start(self, first, words, is_refused):
        """Appends a piece, starts a sync, and makes the calls of a line before it is waited for and after."""
        writer, told = Writer(self.cut_pages(1 << 64), self.size, self.capacity, self.room), []
        told.append(str(len(writer.content)))
        writer.append(first)
        durable, is_refused = writer.durable, is_refused and writer.synced < len(writer.content)
        size = writer.start_sync()
        if is_refused:
            writer.durable = durable
        while words:
            match words:
                case ["wait", *_] if is_refused:
                    told.append("F6 sync")
                    break
                case ["wait", *words]:
                    writer.wait_for_sync(size)
                    told.append("ok")
                    while words:
                        words = self.step(writer, words, told)
                case ["covered", *words]:
                    told.append(str(size))
                case ["try-append", text, *words]:
                    told.append(writer.try_append(unhex(text)))
                case ["view", offset, count, *words]:
                    told.append(writer.read(number(offset), number(count)))
                case ["try" | "size" | "needs-sync" | "kept" | "try-snapshot", *_]:
                    words = self.step(writer, words, told)
                case _:
                    raise BadLine
        self.pages, self.durable = writer.pages(), writer.durable
        return ", ".join(told)

    def sealed(self, first, more, play, is_refused=False):
        """What is told of the list that is sealed after a first piece, while its writer goes on by more bytes and a sync,
        which may be refused: then it makes nothing durable."""
        writer = Writer(self.cut_pages(1 << 64), self.size, self.capacity, self.room)
        writer.append(first)
        writer.sync()
        sealed = Sealed(writer)
        writer.append(more)
        durable = writer.durable
        writer.sync()
        if is_refused:
            writer.durable = durable
        told = play(sealed)
        self.pages, self.durable = writer.pages(), writer.durable
        return told

    def try_write(self, words):
        writer, told = Writer(self.cut_pages(1 << 64), self.size, self.capacity, self.room), []
        for at in range(0, len(words), 2):
            match words[at : at + 2]:
                case ["bytes", value]:
                    piece = unhex(value)
                case ["value", value]:
                    piece = number(value).to_bytes(8, "big")
                case _:
                    raise BadLine
            told.append(writer.try_append(piece))
        self.pages, self.durable = writer.pages(), writer.durable
        return ", ".join([*told, str(len(writer.content))])

    def step(self, writer, words, told):
        match words:
            case ["append" | "append-owned", text, *rest]:
                told.append(str(len(writer.content)))
                writer.append(unhex(text))
            case ["sync", *rest]:
                writer.sync()
                told.append("ok")
            case ["size", *rest]:
                told.append(str(len(writer.content)))
            case ["needs-sync", *rest]:
                told.append("true" if writer.synced < len(writer.content) else "false")
            case ["kept", page, *rest]:
                # ours: under the writer's second name
                start = number(page) * writer.room
                there = number(page) in writer.kept.pages
                told.append(writer.content[start : start + writer.room].hex() if there else "none")
            case ["try-snapshot", *rest]:
                told.append("none" if writer.synced < len(writer.content) else str(len(writer.content)))
            case ["read-many", form, text, *rest] if form in ("items", "ranges"):
                told.append(writer.read_many(items(text) if form == "items" else pairs(text)))
            case ["try", form, text, *rest]:
                told.append(writer.try_read(form, text))
            case ["read", "at" | "into", offset, count, *rest]:
                told.append(writer.read(number(offset), number(count)))
            case ["read", "up-to", offset, count, *rest]:
                told.append(writer.read_up_to(number(offset), number(count)))
            case _:
                raise BadLine
        return rest

    def answer(self, words):
        match words:
            case ["format", *words]:
                return of_formats(words)
            case ["tip", *words]:
                return self.of_tip(words)
            case ["cache", *words]:
                return self.of_cache(words)
            case ["disk", *words]:
                return self.of_disk(words)
            case ["write", *words]:
                self.check_sizes()
                return self.play(self.cut_pages(1 << 64), words, [])
            case ["start", first, *words]:
                self.check_sizes()
                return self.start(unhex(first), words, False)
            case ["fault", first, *words]:
                self.check_sizes()
                return self.start(unhex(first), words, True)
            case ["try-write", *words]:
                self.check_sizes()
                return self.try_write(words)
            case ["snapshot", first, more, *words]:
                self.check_sizes()
                return self.sealed(unhex(first), unhex(more), lambda sealed: sealed.play(words, []))
            case ["fault-behind", first, more, *words]:
                self.check_sizes()
                # with no more bytes there is nothing to be synced
                more = unhex(more)
                said = "failed" if more else "synced"
                return self.sealed(unhex(first), more, lambda sealed: sealed.play(words, [said]), more != b"")
            case ["seal", first, *words]:
                self.check_sizes()
                return self.sealed(unhex(first), b"", lambda sealed: sealed.play(words, []))
            case ["replay", first, buffer, *words]:
                self.check_sizes()
                at_once = max(number(buffer) // self.size, 1)
                return self.sealed(unhex(first), b"", lambda sealed: Replay(sealed, at_once).play(words, []))
            case ["replay-recovered", cut, buffer, *words]:
                self.check_sizes()
                at_once = max(number(buffer) // self.size, 1)
                writer = Writer(self.cut_pages(number(cut)), self.size, self.capacity, self.room)
                self.pages, self.durable = writer.pages(), writer.durable
                return Replay(Sealed(writer), at_once).play(words, [])
            case ["recover", cut, *words]:
                self.check_sizes()
                found = len(self.pages_now().content)
                return self.play(self.cut_pages(number(cut)), words, [str(found)])
            case ["cut", size]:
                if not is_page_size(self.size):
                    raise BadLine
                found = len(self.pages_now().content)
                self.pages = self.cut_pages(number(size))
                left = len(self.pages.content)
                # the file is opened and resized; a slot is written in three steps where its page gets shorter; a sync
                is_shorter = left < found and left % (self.size - 12)
                self.calls = 1 + 1 + (3 if is_shorter else 0) + 1
                return str(left % (self.size - 12)) if left % (self.size - 12) else "none"
            case ["text", name] if name in TEXTS:
                return TEXTS[name]
        return self.of_file(words)

    def of_file(self, words):
        match words:
            case ["pages", size, capacity, room]:
                self.size, self.capacity, self.room = number(size), number(capacity), number(room)
            case ["file", *words]:
                self.file, self.pages = spelled(words), None
            case ["page", first, second]:
                self.file, self.pages = self.file + page_of(number(first), number(second)), None
            case ["crash"] if self.durable:
                self.pages = self.durable
            case ["length"]:
                return str(len(self.pages.slots) * self.size if self.pages else len(self.file))
            case ["calls"]:
                return str(self.calls)
            case ["show"] if not self.pages:
                return hexed(self.file)
            case ["slots"] if self.pages:
                return ", ".join(f"{min(it)}:{max(it)}" for it in self.pages.slots) or "ok"
            case ["slots"] if len(self.file) % self.size == 0:
                lengths = [footer(self.file[at : at + self.size])[0::2] for at in range(0, len(self.file), self.size)]
                return ", ".join(f"{min(it)}:{max(it)}" for it in lengths) or "ok"
            case ["prefix"] if is_page_size(self.size):
                return str(len(self.pages.content if self.pages else recovered(self.file, self.size)))
            case ["found", _, most]:
                self.check_sizes()
                length = len(self.pages_now().content)
                return f"{length}, {length}, {min(length, number(most))}"
            case ["range", offset, count] if is_page_size(self.size):
                content, offset, count = self.pages_now().content, number(offset), number(count)
                if offset + count > len(content):
                    raise BadLine
                return hexed(content[offset : offset + count])
            case ["tail", count] if is_page_size(self.size):
                content, pages = self.pages_now().content, self.pages_there()
                if (pages - 1) * (self.size - 12) >= len(content) and pages:
                    raise BadLine
                return f"{len(content)}, {hexed(content[max(len(content) - number(count), 0) :])}"
            case ["scan", _, most] if is_page_size(self.size):
                length = len(self.pages_now().content)
                return f"{length}, {min(length, number(most))}"
            case _:
                raise BadLine
        return "ok"

    def of_tip(self, words):
        offset, capacity, kept = self.tip
        match words:
            case ["new", offset, capacity]:
                self.tip = (number(offset), number(capacity), b"")
            case ["append", piece]:
                piece = unhex(piece)
                if offset + len(kept) + len(piece) >= 1 << 64:
                    raise BadLine
                taken = piece[: max(capacity - len(kept), 0)]
                self.tip = (offset, capacity, kept + taken)
                return str(len(taken))
            case ["drain", count] if number(count) <= len(kept):
                self.tip = (offset + number(count), capacity, kept[number(count) :])
            case ["truncate", count]:
                self.tip = (offset, capacity, kept[: number(count)])
            case ["restart", offset]:
                self.tip = (number(offset), capacity, b"")
            case ["show"]:
                is_empty = "false" if kept else "true"
                return f"{offset} {offset + len(kept)} {max(capacity - len(kept), 0)} {is_empty} {hexed(kept)}"
            case _:
                raise BadLine
        return "ok"

    def of_cache(self, words):
        size, room, names, kept = self.cache
        match words:
            case ["new", size, room] if number(size) and number(room) and number(size) < 65536:
                self.cache = (number(size), number(room), 0, [])
                return "ok"
            case ["next-id"]:
                self.cache = (size, room, names + 1, kept)
                return str(names)
            case ["page-size"]:
                return str(size)
            case ["place", offset]:
                return f"{number(offset) // size} {number(offset) % size}"
            case ["put", blob, piece, offset]:
                piece, offset = unhex(piece), number(offset)
                if offset % size or offset + len(piece) >= 1 << 64:
                    raise BadLine
                for at in range(0, len(piece) - len(piece) % size, size):
                    place = (number(blob), (offset + at) // size)
                    # ours: a full cache gives up the page that was put longest ago
                    kept = [it for it in kept if it[0] != place][-(room - 1) if room > 1 else len(kept) :]
                    kept.append((place, piece[at : at + size]))
                self.cache = (size, room, names, kept)
                return str(len(piece) % size)
            case ["page", blob, page]:
                found = dict(kept).get((number(blob), number(page)))
                return "none" if found is None else found.hex()
        raise BadLine

    def of_disk(self, words):
        try:
            return self.disk_call(words)
        except Refused as refusal:
            return str(refusal)

    def read(self, offset, count):
        if offset + count >= 1 << 64:
            raise Refused("F8")
        if offset + count > len(self.disk):
            raise Refused("F7")
        return hexed(self.disk[offset : offset + count])

    def disk_call(self, words):
        match words:
            case ["showing", text]:
                self.disk, self.record = unhex(text), 1
                return "ok"
            case ["read", offset, count]:
                return self.read(number(offset), number(count))
            case ["read-many", *ranges] if len(ranges) % 2 == 0:
                pairs = zip(ranges[::2], ranges[1::2])
                return ", ".join(self.read(number(offset), number(count)) for offset, count in pairs) or "ok"
            case ["start", "reads", *words] if len(words) % 2 == 0:
                # they are of what is there now, and their refusal is told of when they are finished
                self.started["reads"] = self.of_disk(["read-many", *words])
                return "ok"
            case ["start", "sync"]:
                self.started["sync"] = "ok"
            case ["finish", word] if word in self.started:
                return self.started.pop(word)
            case ["write", offset, text, "plain" | "sync"]:
                offset, piece = number(offset), unhex(text)
                if offset + len(piece) >= 1 << 64:
                    raise Refused("F8")
                grown = self.disk.ljust(offset, b"\0")
                self.disk = grown[:offset] + piece + grown[offset + len(piece) :]
            case ["resize", size]:
                self.disk = self.disk[: number(size)].ljust(number(size), b"\0")
            case ["sync"]:
                pass
            case ["show"]:
                return hexed(self.disk)
            case ["calls"]:
                return str(self.record)
            case _:
                raise BadLine
        self.record += 1
        return "ok"


def of_formats(words):
    match words:
        case ["footer", len1, crc1, len2, crc2]:
            fields = [number(it) for it in (len1, crc1, len2, crc2)]
            if max(fields[0::2]) > 65535 or max(fields[1::2]) >= 1 << 32:
                raise BadLine
            return struct.pack(">HIHI", *fields).hex() + " 12"
        case ["footer-of", text]:
            text = unhex(text)
            if len(text) != 12:
                return "C1" if len(text) < 12 else "C2"
            return " ".join(map(str, footer(text)))
        case ["slot", *words]:
            page = spelled(words)
            if not is_page_size(len(page)):
                raise BadLine
            found = counted_slot(page)
            return f"{found[0]} {found[1]}" if found else "none"
        case ["prefix", size, *words] if is_page_size(number(size)):
            return str(len(recovered(spelled(words), number(size))))
        case ["is-page-size", size]:
            return "true" if is_page_size(number(size)) else "false"
        case ["content-size", size] if is_page_size(number(size)):
            return str(number(size) - 12)
    raise BadLine


if __name__ == "__main__":
    play(lambda: Case().answer)
