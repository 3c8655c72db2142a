#!/usr/bin/env python3
"""The answers to cases of operations, from the format alone.

    tools/reference/operations.py < crates/operations_player/stdin > crates/operations_player/stdout

An operation is ("delete", key), ("update", fields) or ("commit", metadata or None, floor), with keys, values and next keys as bytes.
A kind of operations says how its fields are spelled: `Kind` has the names of the format.
"""
from lines import BadLine, hexed, number, play, unhex

GREATEST_FLOOR = 1 << 62


class Fault(Exception):
    """A refusal to read, by its number."""


class Input:
    def __init__(self, data):
        self.data = data

    def take(self, count):
        if len(self.data) < count:
            raise Fault("C1")
        taken, self.data = self.data[:count], self.data[count:]
        return taken

    def varint(self):
        number = 0
        for place in range(10):
            byte = self.take(1)[0]
            if place == 9 and byte > 1:
                raise Fault("C3")
            number |= (byte & 127) << (7 * place)
            if byte < 128:
                if byte == 0 and place > 0:
                    raise Fault("C3")
                return number
        raise Fault("C3")


def varint(number):
    out = b""
    while number > 127:
        out += bytes([number % 128 + 128])
        number //= 128
    return out + bytes([number])


class Kind:
    """Operations with keys of so many bytes, ordered (updates name the next key) or not, fixed (values are numbers) or variable."""

    def __init__(self, key_size, is_ordered, is_fixed):
        self.key_size, self.is_ordered, self.is_fixed = key_size, is_ordered, is_fixed

    def value_of(self, word):
        if self.is_fixed:
            return number(word).to_bytes(8, "big")
        return unhex(word)

    def say_value(self, value):
        return str(int.from_bytes(value, "big")) if self.is_fixed else hexed(value)

    def key_of(self, word):
        key = unhex(word)
        if len(key) != self.key_size or word == "-":
            raise BadLine
        return key

    def spelled_value(self, value):
        return value if self.is_fixed else varint(len(value)) + value

    def read_value(self, data):
        if self.is_fixed:
            return data.take(8)
        count = data.varint()
        if count > 16:
            raise Fault("C6")
        return data.take(count)

    def fields_of(self, words):
        if len(words) != (3 if self.is_ordered else 2):
            raise BadLine
        key, value = self.key_of(words[0]), self.value_of(words[1])
        return (key, value, self.key_of(words[2])) if self.is_ordered else (key, value)

    def say_fields(self, fields):
        said = [hexed(fields[0]), self.say_value(fields[1])]
        return " ".join(said + [hexed(it) for it in fields[2:]])

    def spelled_fields(self, fields):
        return fields[0] + self.spelled_value(fields[1]) + b"".join(fields[2:])

    def read_fields(self, data):
        key, value = data.take(self.key_size), self.read_value(data)
        return (key, value, data.take(self.key_size)) if self.is_ordered else (key, value)

    def update_size(self):
        return (2 if self.is_ordered else 1) * self.key_size + 8

    def size(self):
        return max(1 + self.update_size(), 1 + 1 + 8 + 8, 1 + self.key_size)

    def operation_of(self, words):
        if words[:1] == ["update"]:
            return ("update", self.fields_of(words[1:]))
        if words[:1] == ["delete"] and len(words) == 2:
            return ("delete", self.key_of(words[1]))
        if words[:1] == ["commit"] and len(words) == 3:
            return ("commit", None if words[1] == "none" else self.value_of(words[1]), number(words[2]))
        raise BadLine

    def say(self, operation):
        if operation[0] == "update":
            return "update " + self.say_fields(operation[1])
        if operation[0] == "delete":
            return "delete " + hexed(operation[1])
        metadata = "none" if operation[1] is None else self.say_value(operation[1])
        return f"commit {metadata} {operation[2]}"

    def spelled(self, operation):
        if operation[0] == "delete":
            out = b"\xd1" + operation[1]
        elif operation[0] == "update":
            out = b"\xd2" + self.spelled_fields(operation[1])
        elif self.is_fixed:
            there = b"\0" + bytes(8) if operation[1] is None else b"\1" + operation[1]
            out = b"\xd3" + there + operation[2].to_bytes(8, "big")
        else:
            there = b"\0" if operation[1] is None else b"\1" + self.spelled_value(operation[1])
            out = b"\xd3" + there + varint(operation[2])
        return out.ljust(self.size(), b"\0") if self.is_fixed else out

    def read(self, data):
        whole = data
        if self.is_fixed:
            data = Input(whole.take(self.size()))
        tag = data.take(1)[0]
        if tag == 0xD1:
            found = ("delete", data.take(self.key_size))
        elif tag == 0xD2:
            found = ("update", self.read_fields(data))
        elif tag == 0xD3:
            found = self.read_commit(data)
        else:
            raise Fault(f"C5 {tag}")
        if self.is_fixed and any(data.data):
            raise Fault("C7")
        return found

    def read_commit(self, data):
        flag = data.take(1)[0]
        if flag > 1:
            raise Fault("C4")
        metadata = self.read_value(data) if flag else None
        if self.is_fixed and not flag and any(data.take(8)):
            raise Fault("C7")
        floor = int.from_bytes(data.take(8), "big") if self.is_fixed else data.varint()
        if floor > GREATEST_FLOOR:
            raise Fault("C7")
        return ("commit", metadata, floor)

    def show(self, operation):
        if operation[0] == "delete":
            return f"[key:{operation[1].hex()} <deleted>]"
        if operation[0] == "update":
            key, value, *following = operation[1]
            between = f" next_key:{following[0].hex()}" if following else ""
            return f"[key:{key.hex()}{between} value:{self.spelled_value(value).hex()}]"
        metadata = "" if operation[1] is None else " " + self.spelled_value(operation[1]).hex()
        return f"[commit{metadata} with inactivity floor: {operation[2]}]"

    def key_in(self, operation):
        if operation[0] == "commit":
            return "none"
        return hexed(operation[1] if operation[0] == "delete" else operation[1][0])


def of_operations(kind, words):
    match words:
        case ["read", text]:
            data = Input(unhex(text))
            found = kind.read(data)
            if data.data:
                raise Fault("C2")
            return kind.say(found)
        case ["front", text]:
            data = Input(unhex(text))
            found = kind.read(data)
            return f"{kind.say(found)}, {len(data.data)} left"
        case ["write", *words]:
            return hexed(kind.spelled(kind.operation_of(words)))
        case ["show", *words]:
            return kind.show(kind.operation_of(words))
        case ["kind", *words]:
            operation = kind.operation_of(words)
            flags = [str(operation[0] == it).lower() for it in ("delete", "update", "commit")]
            floor = str(operation[2]) if operation[0] == "commit" else "none"
            return " ".join([*flags, kind.key_in(operation), floor])
        case ["into-key", *words]:
            return kind.key_in(kind.operation_of(words))
        case ["copy", *words]:
            return kind.say(kind.operation_of(words))
    raise BadLine


def of_updates(kind, words):
    match words:
        case ["read", text]:
            data = Input(unhex(text))
            found = kind.read_fields(data)
            if data.data:
                raise Fault("C2")
            return kind.say_fields(found)
        case ["write", *words]:
            return hexed(kind.spelled_fields(kind.fields_of(words)))
        case ["key" | "into-key", *words]:
            return hexed(kind.fields_of(words)[0])
        case ["value" | "into-value", *words]:
            return kind.say_value(kind.fields_of(words)[1])
        case ["lent", *words]:
            fields = kind.fields_of(words)
            # what an update lends to the next is its next key: one that names none is not asked
            return f"{int(kind.is_ordered)} {kind.say_fields(fields)}"
        case ["copy" | "parts", *words]:
            return kind.say_fields(kind.fields_of(words))
    raise BadLine


def answer(words):
    match words:
        case ["store", "encode", *words]:
            return of_operations(Kind(8, True, True), ["write", *words])
        case ["store", "decode", text]:
            return of_operations(Kind(8, True, True), ["front", text])
        case ["store", *words]:
            return of_operations(Kind(8, True, True), words)
        case ["ordered" | "unordered" as order, "fixed" | "variable" as encoding, *words]:
            kind = Kind(4, order == "ordered", encoding == "fixed")
            if words[:1] == ["alone"]:
                return of_updates(kind, words[1:])
            if words == ["size"] and kind.is_fixed:
                return f"{kind.size()} {kind.update_size()}"
            if words[:2] == ["size", "delete"] and not kind.is_fixed and kind.is_ordered:
                return str(len(kind.spelled(kind.operation_of(words[1:]))))
            return of_operations(kind, words)
    raise BadLine


if __name__ == "__main__":
    play(lambda: answer, Fault)
