#!/usr/bin/env python3
"""The answers to the cases of debts, audits, snapshots and started syncs of a store that never fails, from the rules
alone.

    tools/reference/debts.py crates/storage_player

It plays the cases of `stdin` of which it knows every line, compares with `stdout`, and prints which it played; the
status is 1 where a line differs, which it prints. An open is an object that knows whether it is settled and which open
came before it; a blob holds the file that it was opened on, so that nothing is numbered.
"""
import pathlib
import struct
import sys
import zlib


class Unknown(Exception):
    """The line asks for something that is not played here."""


def unhex(digits):
    return b"" if digits == "-" else bytes.fromhex(digits)


def hexed(data):
    return data.hex() or "-"


def is_valid(partition):
    return all(letter.isascii() and (letter.isalnum() or letter in "_-") for letter in partition)


class Open:
    def __init__(self, name, generation, before):
        self.name, self.generation, self.before, self.is_settled = name, generation, before, False


class Generation:
    def __init__(self):
        self.latest, self.debt, self.failure = None, False, None


class File:
    def __init__(self, durable):
        self.durable = durable


class Blob:
    def __init__(self, file, live):
        self.file, self.live = file, live


class Case:
    def __init__(self):
        self.names, self.tickets = {}, []
        self.partitions, self.blobs, self.started = {}, [], []

    def pending(self, words):
        match words:
            case ["admit", partition, name, how]:
                if how not in ("anew", "existing"):
                    return "bad line"
                name = partition, unhex(name)
                generation = self.names.get(name) if how == "existing" else None
                if generation and generation.failure:
                    return "F11"
                if not generation:
                    generation = self.names[name] = Generation()
                generation.latest = Open(name, generation, generation.latest)
                self.tickets.append(generation.latest)
                return str(len(self.tickets) - 1)
            case ["forget", partition, name]:
                self.names.pop((partition, unhex(name)), None)
                return "ok"
            case ["retained", partition, name]:
                generation = self.names.get((partition, unhex(name)))
                return (generation and generation.failure) or "none"
            case ["ticket", number, *words]:
                place = int(number)
                ticket = self.tickets[place] if place < len(self.tickets) else None
                return self.of_ticket(place, ticket, words) if ticket else "bad line"
        raise Unknown

    def of_ticket(self, place, ticket, words):
        generation = ticket.generation
        counts = self.names.get(ticket.name) is generation
        match words:
            case ["close"]:
                self.tickets[place] = None
            case ["settle"] | ["release"]:
                ticket.is_settled |= counts
            case ["clear"]:
                if counts and generation.latest is ticket and not generation.failure:
                    generation.debt = False
            case ["fail", failure]:
                if counts:
                    generation.debt = True
                    generation.failure = {"F1": "F1", "F6": "F6 sync", "F9": "F9"}[failure]
            case ["settled"]:
                return str(not counts or not ticket.before or ticket.before.is_settled).lower()
            case ["debt"]:
                return str(counts and generation.debt).lower()
            case _:
                raise Unknown
        return "ok"

    def audit(self):
        told = b""
        for partition in sorted(self.partitions, key=str.encode):
            for name in sorted(self.partitions[partition]):
                for part in (partition.encode(), name, self.partitions[partition][name].durable):
                    told += struct.pack(">Q", len(part)) + part
        return struct.pack(">I", zlib.crc32(told)).hex()

    def behind_header(self, partition, name):
        if not is_valid(partition):
            return "F3"
        if partition not in self.partitions:
            return "F2"
        file = self.partitions[partition].get(unhex(name))
        data = file.durable if file else b""
        if len(data) < 8 or self.is_torn(data):
            return "F1"
        magic, layout = data[:4], data[4:6]
        if magic not in (b"CWIC", b"CWI1"):
            return "F5 H1"
        if magic == b"CWI1" and len(data) < 4096:
            return "F5 H3"
        if layout != (b"\0\0" if magic == b"CWIC" else b"\0\1"):
            return "F5 H4"
        if magic == b"CWI1" and data[8:12] != struct.pack(">I", zlib.crc32(data[:8])):
            return "F5 H5"
        return hexed(data[8 if magic == b"CWIC" else 4096 :])

    def is_torn(self, data):
        """Some bytes of a header of the second layout, then zeros, and no whole one."""
        if len(data) > 4096 or data[:1] != b"C":
            return False
        for version in {data[6:8].ljust(2, b"\0"), data[6:7].ljust(2, b"\0"), b"\0\0"}:
            front = b"CWI1\0\1" + version
            region = (front + struct.pack(">I", zlib.crc32(front))).ljust(4096, b"\0")
            if data == region:
                return False
            if any(data == region[:count].ljust(len(data), b"\0") for count in range(1, len(data) + 1)):
                return True
        return False

    def blob(self, blob, words):
        there = any(blob.file is file for files in self.partitions.values() for file in files.values())
        match words:
            case ["write", offset, data, mode]:
                at, data = int(offset) + 8, unhex(data)
                blob.live = blob.live[:at].ljust(at, b"\0") + data + blob.live[at + len(data) :]
                if mode == "sync" and there:
                    kept = blob.file.durable
                    blob.file.durable = kept[:at].ljust(at, b"\0") + data + kept[at + len(data) :]
                return "ok"
            case ["read", offset, count]:
                at, count = int(offset) + 8, int(count)
                return hexed(blob.live[at : at + count]) if at + count <= len(blob.live) else "F7"
            case ["sync"] | ["start"]:
                answer = "ok" if there else "F1"
                if there:
                    blob.file.durable = blob.live
                if words == ["sync"]:
                    return answer
                self.started.append(answer)
                return "started"
        raise Unknown

    def answer(self, words):
        match words:
            case ["failing"]:  # nothing fails until a rate is set
                return "ok"
            case ["pending", *words]:
                return self.pending(words)
            case ["put", partition, name, data]:
                self.partitions.setdefault(partition, {})[unhex(name)] = File(unhex(data))
                return "ok"
            case ["remove", partition, name] if unhex(name) in self.partitions.get(partition, {}):
                del self.partitions[partition][unhex(name)]
                return "ok"
            case ["open", partition, name, least, greatest] if is_valid(partition):
                files = self.partitions.setdefault(partition, {})
                if unhex(name) not in files:
                    files[unhex(name)] = File(b"CWIC\0\0" + struct.pack(">H", int(greatest)))
                file = files[unhex(name)]
                version = int.from_bytes(file.durable[6:8], "big")
                if file.durable[:6] != b"CWIC\0\0" or not int(least) <= version <= int(greatest):
                    raise Unknown
                self.blobs.append(Blob(file, file.durable))
                return f"{len(file.durable) - 8} {version}"
            case ["blob", number, *words]:
                return self.blob(self.blobs[int(number)], words)
            case ["finish"]:
                return self.started.pop() if self.started else "bad line"
            case ["live", number]:
                return hexed(self.blobs[int(number)].live)
            case ["file", partition, name]:
                return hexed(self.partitions[partition][unhex(name)].durable)
            case ["scan", partition]:
                if partition not in self.partitions:
                    return "F2"
                return " ".join(hexed(name) for name in sorted(self.partitions[partition])) or "none"
            case ["logical", partition, name]:
                return self.behind_header(partition, name)
            case ["audit"]:
                return self.audit()
            case ["snapshot"]:
                self.partitions = {
                    partition: {name: File(file.durable) for name, file in files.items()}
                    for partition, files in self.partitions.items()
                }
                return "ok"
        raise Unknown


def cases(text):
    """Each case, its name first, without comments."""
    found = []
    for line in text.splitlines():
        if line.startswith("case"):
            found.append([line])
        elif line.strip() and not line.startswith("#"):
            found[-1].append(line)
    return found


def main():
    folder = pathlib.Path(sys.argv[1])
    wanted = folder.joinpath("stdout").read_text().splitlines()
    played, differ, begin = [], 0, 0
    for name, *lines in cases(folder.joinpath("stdin").read_text()):
        answers = wanted[begin + 1 : begin + 1 + len(lines)]
        begin += 1 + len(lines)
        case = Case()
        try:
            told = [case.answer(line.split()) for line in lines]
        except (Unknown, KeyError, IndexError, ValueError):
            continue
        played.append(name)
        for line, told, answer in zip(lines, told, answers):
            if told != answer:
                differ += 1
                print(f"{name}: {line[:60]}: {told}, and not {answer}")
    print(f"{len(played)} cases: " + "; ".join(name.removeprefix("case ") for name in played))
    sys.exit(differ != 0)


main()
