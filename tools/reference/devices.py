"""A device whose calls fail by chance, with a log that a crash tears, from the definitions: a file is a base and the
mutations since, all of which are kept as data and replayed for each question.

Refusals are raised as `Refused("F6", "sync")`: the number, and what it carries.
"""
from zlib import crc32

PIECE = 1024  # images are lent in pieces of so many bytes, a choice of ours


class Refused(Exception):
    def __str__(self):
        return " ".join(map(str, self.args))


class Pcg32:
    """The generator XSH RR 64/32, seeded by a number as Rust's rand_core 0.9 does."""

    MULTIPLIER, MASK = 6364136223846793005, 2**64 - 1

    def __init__(self, seed):
        # The seed's bytes are drawn of a generator of their own.
        state, words = seed, []
        for _ in range(4):
            state = (state * self.MULTIPLIER + 11634580027462260723) & self.MASK
            words.append(self.output(state))
        first, second = words[0] | words[1] << 32, words[2] | words[3] << 32
        self.increment = second | 1
        self.state = ((first + self.increment) * self.MULTIPLIER + self.increment) & self.MASK

    @staticmethod
    def output(state):
        turn, word = state >> 59, ((state >> 18 ^ state) >> 27) & 0xFFFFFFFF
        return (word >> turn | word << (-turn & 31)) & 0xFFFFFFFF

    def half(self):
        word = self.output(self.state)
        self.state = (self.state * self.MULTIPLIER + self.increment) & self.MASK
        return word

    def word(self):
        low = self.half()
        return low | self.half() << 32


def put(data, at, piece):
    """The bytes with a piece put at a place, zeros in a gap before it. A piece of no bytes changes nothing."""
    if not piece:
        return data
    data = data.ljust(at, b"\0")
    return data[:at] + piece + data[at + len(piece):]


def sized(data, length):
    return data[:length].ljust(length, b"\0")


class Write:
    """A write: whole and durable, torn by a fault already, or to be torn by a crash in a mode that keeps a share."""

    def __init__(self, at, data, mode, share, is_durable=False, kept=None):
        self.at, self.data, self.mode, self.share = at, data, mode, share
        self.is_durable, self.kept = is_durable, kept

    def choose(self, sample, word):
        """Which of its bytes a crash or a fault keeps."""
        if self.mode == "prefix":
            count = word() % (len(self.data) + 1)
            return [at < count for at in range(len(self.data))]
        return [sample(self.share) for _ in self.data]

    def put_kept(self, data, kept):
        for at, is_kept in enumerate(kept):
            if is_kept:
                data = put(data, self.at + at, self.data[at:at + 1])
        return data

    def durable(self, data):
        """What it makes durable of the bytes as it stands."""
        if self.is_durable:
            return put(data, self.at, self.data)
        return data if self.kept is None else self.put_kept(data, self.kept)

    def crashed(self, data, sample, word):
        if self.is_durable or self.kept is not None:
            return self.durable(data)
        return self.put_kept(data, self.choose(sample, word))


class Resize:
    def __init__(self, length, share):
        self.length, self.share = length, share

    def durable(self, data):
        return data

    def crashed(self, data, sample, _word):
        return sized(data, self.length) if sample(self.share) else data


class Opening:
    def __init__(self, base, mutations, shown):
        self.base, self.mutations, self.shown = base, mutations, shown

    def is_by_chance(self, size):
        """Whether a slot verifies that neither the base nor a file of the first mutations, each whole, has."""
        files = [self.base]
        for mutation in self.mutations:
            files.append(put(files[-1], *mutation[1:]) if mutation[0] == "write" else sized(files[-1], mutation[1]))
        for start in range(0, len(self.shown) - size + 1, size):
            page = self.shown[start:start + size]
            for slot in (size - 12, size - 6):
                count = int.from_bytes(page[slot:slot + 2], "big")
                if not 0 < count <= size - 12 or crc32(page[:count]) != int.from_bytes(page[slot + 2:slot + 6], "big"):
                    continue
                vouched = page[slot:slot + 6] + page[:count]
                pages = [file[start:start + size] for file in files]
                if all(other[slot:slot + 6] + other[:count] != vouched for other in pages):
                    return True
        return False


HALF, NEVER, ALWAYS = (1, 2), (0, 1), (1, 1)


class Settings:
    """How often calls of each kind fail, and what a crash keeps."""

    def __init__(self):
        self.rates = {kind: NEVER for kind in ("open", "read", "write", "sync", "resize")}
        self.keep_writes = self.keep_resizes = HALF
        self.mode = "subset"

    def change(self, words):
        """Takes words that change a setting."""
        if words[0] == "fault":
            self.rates[words[1]] = (int(words[2]), int(words[3]))
        elif words[0] == "mode":
            self.mode = words[1]
        elif words[1] == "write":
            self.keep_writes = (int(words[2]), int(words[3]))
        elif words[1] == "resize":
            self.keep_resizes = (int(words[2]), int(words[3]))
        else:
            self.keep_writes = self.keep_resizes = (int(words[1]), int(words[2]))

    def text(self):
        said = [f"{kind} {n} {d}" for kind, (n, d) in
                [(kind, self.rates[kind]) for kind in ("open", "read", "write", "sync", "resize")]
                + [("keep write", self.keep_writes), ("keep resize", self.keep_resizes)]]
        return " ".join(said) + f" mode {self.mode}"


class Device:
    def __init__(self, seed, version=None):
        self.random = Pcg32(seed)
        self.version = version
        self.settings = Settings()
        self.base, self.log = b"", []
        self.live = None
        self.left = None
        self.injections = 0
        self.openings = []
        # What the record begins with since the last sync or opening.
        self.said_base, self.said = b"", []

    def sample(self, share):
        n, d = share
        if n == 0 or n == d:
            return n == d
        return self.random.word() % d < n

    def draws(self, kind):
        """Whether a fault is injected, which is counted."""
        is_failed = self.sample(self.settings.rates[kind])
        self.injections += is_failed
        return is_failed

    def let_through(self):
        if self.left == 0:
            raise Refused("F10")

    def count(self):
        if self.left is not None:
            self.left -= 1

    def durable(self):
        data = self.base
        for mutation in self.log:
            data = mutation.durable(data)
        return data

    def open(self):
        self.let_through()
        self.count()
        if self.draws("open"):
            raise Refused("F6", "open")
        if self.version not in (None, 0):
            raise Refused("F5", "H6")
        self.base, self.log = self.durable(), []
        self.live = self.base
        self.openings.append(Opening(self.said_base, self.said, self.base))
        self.said_base, self.said = self.base, []
        return len(self.live)

    def close(self):
        self.live = None

    def crash(self):
        for mutation in self.log:
            self.base = mutation.crashed(self.base, self.sample, self.random.word)
        self.log = []
        self.left = None

    def begin(self, kind):
        """What comes before each call of the open log: whether a fault is injected into it."""
        self.let_through()
        if self.live is None:
            raise Refused("F1")
        self.count()
        return self.draws(kind)

    def read(self, at, count):
        if self.begin("read"):
            raise Refused("F6", "read")
        if at + count > len(self.live):
            raise Refused("F7")
        return self.live[at:at + count]

    def write(self, at, data, is_durable):
        is_failed = self.begin("write")
        # A durable write of no bytes stands at the beginning, so that it grows nothing.
        at = at if data or not is_durable else 0
        write = Write(at, data, self.settings.mode, self.settings.keep_writes, is_durable and not is_failed)
        self.said.append(("write", at, data))
        self.log.append(write)
        if is_failed:
            write.kept = write.choose(self.sample, self.random.word)
            self.live = write.put_kept(self.live, write.kept)
            raise Refused("F6", "write")
        self.live = put(self.live.ljust(at, b"\0"), at, data)

    def resize(self, length):
        is_failed = self.begin("resize")
        self.said.append(("resize", length))
        if is_failed:
            low, high = sorted((len(self.live), length))
            if self.sample(self.settings.keep_resizes) and high - low > 1:
                between = low + 1 + self.random.word() % (high - low - 1)
                self.log.append(Resize(between, self.settings.keep_resizes))
                self.live = sized(self.live, between)
            raise Refused("F6", "resize")
        self.log.append(Resize(length, self.settings.keep_resizes))
        self.live = sized(self.live, length)

    def sync(self):
        if self.begin("sync"):
            raise Refused("F6", "sync")
        self.base, self.log = self.live, []
        self.said_base, self.said = self.base, []


# ---------------------------------------------------------------- pages

class Pages:
    """A list of bytes in pages of so many bytes, as a writer leaves them that made each growth durable."""

    def __init__(self, size=64):
        self.size, self.room = size, size - 12
        self.content = b""
        self.pages = []

    def slot(self, page, count):
        return count.to_bytes(2, "big") + crc32(page[:count]).to_bytes(4, "big")

    def grow(self, more):
        """Appends bytes, and makes them durable: in each page that they reach the slot that is not durable says so."""
        if not more:
            return
        first = len(self.content) // self.room
        self.content += more
        for at in range(first, -(-len(self.content) // self.room)):
            piece = self.content[at * self.room:(at + 1) * self.room]
            page = piece.ljust(self.room, b"\0")
            slots = [bytes(6), bytes(6)]
            durable = None
            if at < len(self.pages):
                old = self.pages[at]
                slots = [old[self.room:self.room + 6], old[self.room + 6:]]
                counts = [int.from_bytes(slot[:2], "big") for slot in slots]
                durable = 0 if counts[0] >= counts[1] else 1
            slots[0 if durable is None else 1 - durable] = self.slot(page, len(piece))
            page += slots[0] + slots[1]
            self.pages[at:at + 1] = [page]

    def file(self):
        return b"".join(self.pages)


def recovered(file, size=64):
    """What is recovered of a file: the content of its pages up to the first that is not whole."""
    room, content = size - 12, b""
    for start in range(0, len(file) - size + 1, size):
        page = file[start:start + size]
        found = 0
        for slot in (room, room + 6):
            count = int.from_bytes(page[slot:slot + 2], "big")
            if 0 < count <= room and crc32(page[:count]) == int.from_bytes(page[slot + 2:slot + 6], "big"):
                found = max(found, count)
        content += page[:found]
        if found < room:
            break
    return content
