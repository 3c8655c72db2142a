#!/usr/bin/env python3
"""The answers that the player of logs must give, from the definitions.

    python3 tools/reference/logs.py < crates/log_player/stdin > crates/log_player/stdout

A log is a list of operations, of which all is computed anew; a disk is its file, told by its pages.
crates/log_player/README.md has the words of a line.
"""

import histories
from devices import Pages, recovered
from histories import RECORD, number as encoded_number, text
from lines import BadLine, hexed, number, play, said, unhex

MOST_BYTES = 2**24
MOST_READS = 2**24


def key(word):
    return unhex(word, 8)


def batch_word(words):
    """The word of a batch that a line is, if it is one."""
    match words:
        case ["put", name, value]:
            return "put", key(name), encoded_number(number(value))
        case ["del", name]:
            return "del", key(name)
    return None


def texts(operations):
    return " ".join(map(text, operations)) or "none"


def operation(words):
    """The operation that words name."""
    match words:
        case ["delete", name]:
            return "delete", key(name)
        case ["update", name, value, following]:
            return "update", key(name), encoded_number(number(value)), key(following)
        case ["commit", floor]:
            return "commit", None, number(floor)
        case ["commit", floor, metadata]:
            return "commit", encoded_number(number(metadata)), number(floor)
    raise BadLine


def metadata_of(words):
    match words:
        case []:
            return None
        case [metadata]:
            return encoded_number(number(metadata))
    raise BadLine


# ---------------------------------------------------------------- histories

def state_text(state):
    return " ".join(f"{name.hex()}={int.from_bytes(state[name], 'big')}" for name in sorted(state)) or "none"


def or_none(found):
    return "none" if found is None else str(found)


class Logs:
    """A log of operations with the batch that is put together."""

    def __init__(self):
        self.log = [("commit", None, 0)]
        self.batch = []

    def state(self):
        return histories.state_after(self.log)

    def changes(self):
        return histories.changes(self.state(), histories.after(self.state(), self.batch))

    def commit(self, metadata):
        more, self.batch = self.changes(), []
        more.append(("commit", metadata, histories.floor_of(self.log + more)))
        self.log += more
        return texts(more)

    def answer(self, words):
        if word := batch_word(words):
            self.batch.append(word)
            return "ok"
        match words:
            case ["push", *words]:
                self.log.append(operation(words))
                return "ok"
            case ["commit", *metadata]:
                return self.commit(metadata_of(metadata))
            case ["records", *words]:
                return of_records(words)
            case ["disk", *words]:
                return of_disk(words)
            case ["live", *words]:
                return of_live(words)
            case ["text", *words]:
                return of_text(words)
            case ["report", *words]:
                return hexed(report(words).encode() + b"\n")
            case ["script", *words]:
                return of_script(words)
        return self.question(words)

    def question(self, words):
        log = self.log
        match words:
            case ["log"]:
                return texts(log)
            case ["len"]:
                return str(len(log))
            case ["bytes"]:
                return hexed(histories.bytes_of(log))
            case ["changes"]:
                return texts(self.changes())
            case ["bits"]:
                return "".join("01"[bit] for bit in histories.bits(log))
            case ["active", at]:
                at = number(at)
                if at >= len(log):
                    raise BadLine
                return said(histories.is_active(log, at))
            case ["floor"]:
                return str(histories.floor_of(log))
            case ["floor", "from" | "by", start]:
                if number(start) > histories.floor_of(log):
                    raise BadLine
                return str(histories.floor_of(log))
            case ["place", name]:
                return or_none(histories.place_of(log, key(name)))
            case ["ranked", at]:
                at = number(at)
                if at >= len(log) or log[at][0] == "commit":
                    raise BadLine
                return or_none(histories.place_of(log, log[at][1]))
            case ["is", "log"]:
                return said(histories.history_of(log) is not None)
            case ["state"]:
                return state_text(self.state())
            case ["apply"]:
                return state_text(histories.after(self.state(), self.batch))
            case ["value", name]:
                found = self.state().get(key(name))
                return "none" if found is None else str(int.from_bytes(found, "big"))
            case ["next", name]:
                found = histories.next_key(self.state(), key(name))
                return "none" if found is None else found.hex()
        raise BadLine


# ---------------------------------------------------------------- bytes

def log_in(data):
    """The log that these bytes are, or None."""
    operations = histories.operations_of(data)
    if not operations or histories.history_of(operations) is None:
        return None
    return operations


def of_records(words):
    match words:
        case ["read", data]:
            log = log_in(unhex(data))
            return "corrupt" if log is None else texts(log)
        case ["len"]:
            return str(RECORD)
        case ["in", count]:
            return str(number(count) // RECORD)
        case ["of", *words]:
            return histories.encoded(operation(words)).hex()
        case ["committed", data]:
            return str(histories.committed(unhex(data)))
    raise BadLine


def file_of(*parts):
    pages = Pages()
    for part in parts:
        pages.grow(part)
    return pages.file()


BEGINNING = histories.bytes_of([("commit", None, 0)])


def recovery(file):
    """The log that is recovered of a file, and how many bytes the file has then."""
    content = recovered(file)
    log = content[:histories.committed(content)] or BEGINNING
    return log, -(-len(log) // Pages().room) * Pages().size


def of_disk(words):
    match words:
        case ["file", first, second]:
            return hexed(file_of(unhex(first), unhex(second)))
        case ["recover", file]:
            log, count = recovery(unhex(file))
            return f"{hexed(log)} {count}"
        case ["recovered", file]:
            content = recovered(unhex(file))
            if histories.committed(content) != len(content) or not content:
                raise NotImplementedError("a file that is cut")
            return hexed(unhex(file))
        case ["at", data, at]:
            data, at = unhex(data), number(at)
            record = data[at * RECORD:(at + 1) * RECORD]
            if len(record) < RECORD:
                return "F7"
            found = histories.decoded(record)
            return "corrupt" if found is None else text(found)
    raise BadLine


def of_live(words):
    match words:
        case ["begin"]:
            return live_of(b"")
        case ["recover", data]:
            return live_of(file_of(unhex(data)))
        case ["get", data, name]:
            log = log_in(recovery(file_of(unhex(data)))[0])
            name = key(name)
            if log is None:
                return "S5"
            found = histories.state_after(log).get(name)
            return "none" if found is None else str(int.from_bytes(found, "big"))
        case ["commit", data, *words]:
            log = log_in(recovery(file_of(unhex(data)))[0])
            match words:
                case []:
                    batch = []
                case [name, value]:
                    batch = [("put", key(name), encoded_number(number(value)))]
                case _:
                    raise BadLine
            if log is None:
                return "S5"
            history = histories.history_of(log)
            old = history[-1][0] if history else {}
            history.append((histories.after(old, batch), None))
            return histories.Snapshot("mmr", 1, histories.log_of(history)).root.hex() + " live"
    raise BadLine


def live_of(file):
    data, count = recovery(file)
    log = log_in(data)
    if log is None:
        return "S5"
    root = histories.Snapshot("mmr", 1, log).root.hex()
    return f"{len(histories.history_of(log))} {root} {count}"


# ---------------------------------------------------------------- the script

def text_of(word):
    return "" if word == "-" else word.translate(str.maketrans("~!^", " \r\t"))


def parsed_key(word):
    return word.lower() if len(word) == 16 and all(c in "0123456789abcdefABCDEF" for c in word) else None


def parsed_number(word):
    is_number = word and all(c in "0123456789" for c in word) and int(word) < 2**64
    return str(int(word)) if is_number else None


FAULTS = ("open", "read", "write", "sync", "resize")
ALONE = ("open", "root", "floor", "len", "proof", "mode prefix", "mode subset", "close", "crash")


def parsed_line(line):
    """What a line asks for, or None."""
    if not line:
        return "empty"
    words = line.split(" ")
    shapes = {
        "put": ("put", parsed_key, parsed_number), "del": ("del", parsed_key), "get": ("get", parsed_key),
        "prove": ("prove", parsed_key), "check value": ("check value", parsed_key, parsed_number),
        "check absent": ("check absent", parsed_key), "prune": ("prune", parsed_number), "cut": ("cut", parsed_number),
    }
    shapes |= {f"new {family}": (f"new {family}", parsed_number) for family in ("mmr", "mmb")}
    shapes |= {f"fault {kind}": (f"fault {kind}", parsed_number, parsed_number) for kind in FAULTS}
    shapes |= {word: (word,) for word in ALONE}
    for front, (name, *parsers) in shapes.items():
        front = front.split()
        if words[:len(front)] == front and len(words) == len(front) + len(parsers):
            parts = [parse(word) for parse, word in zip(parsers, words[len(front):])]
            return None if None in parts else " ".join([name, *parts])
    if words[0] == "commit" and len(words) <= 2:
        parts = [parsed_number(word) for word in words[1:]]
        return None if None in parts else " ".join(["commit", *parts])
    return None


REFUSALS = {"S6": "S6: the store has failed", "S7": "S7: past the floor", "S8": "S8: the operation is not active",
            "S9": "S9: past the end of the log", "S10": "S10: before the pruned chunks", "S11": "S11: the range is empty",
            "memory": "out of memory", "read": "the script cannot be read"}


def of_text(words):
    match words:
        case ["key", word]:
            return or_none(parsed_key(text_of(word)))
        case ["number", word]:
            return or_none(parsed_number(text_of(word)))
        case ["line", word]:
            return or_none(parsed_line(text_of(word)))
        case ["of", name] if name in REFUSALS:
            return REFUSALS[name]
        case ["width", width]:
            return said(number(width) in [2**n for n in range(13)])
    raise BadLine


def report(words):
    """The line that the script prints."""
    match words:
        case ["new" | "none" | "absent" | "yes" | "no" | "ok" | "closed" | "crashed" as word]:
            return word
        case ["error", code]:
            return f"error {code}"
        case ["root" | "proof" as word, data]:
            return f"{word} {unhex(data).hex()}"
        case ["bad", count]:
            return f"bad line {number(count)}"
        case ["open" | "commit" | "value" | "present" | "floor" | "len" | "pruned" as word, count]:
            return f"{word} {number(count)}"
    raise BadLine


def of_script(words):
    match words:
        case ["text", word]:
            return hexed(text_of(word).encode())
        case ["drip", left, broken]:
            left, broken = number(left), number(broken)
            if 0 < broken <= left or left >= MOST_READS:
                return "read"
            return f"{left} true"
        case ["repeat", count]:
            return f"{number(count)} true" if number(count) <= MOST_BYTES else "read"
    raise BadLine


if __name__ == "__main__":
    play(lambda: Logs().answer)
