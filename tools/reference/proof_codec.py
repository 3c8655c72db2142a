"""Bytes of proofs, read and written: numbers base 128, options, lists of digests, and the proofs of a state."""

MAX_LEAVES = 2**62


class Fault(Exception):
    """The number of the first fault of bytes, and what it carries."""


class Reader:
    def __init__(self, data):
        self.data, self.at = data, 0

    def take(self, count):
        if len(self.data) - self.at < count:
            raise Fault("C1")
        self.at += count
        return self.data[self.at - count : self.at]

    def varint(self):
        value, shift = 0, 0
        while True:
            (byte,) = self.take(1)
            if shift == 63 and byte > 1:
                raise Fault("C3")
            value |= (byte & 127) << shift
            if byte < 128:
                if byte == 0 and shift:
                    raise Fault("C3")
                return value
            shift += 7

    def flag(self):
        (byte,) = self.take(1)
        if byte > 1:
            raise Fault("C4")
        return byte == 1

    def location(self):
        value = self.varint()
        if value > MAX_LEAVES:
            raise Fault("C7")
        return value

    def digest(self):
        return self.take(32)

    def string(self, greatest):
        count = self.varint()
        if count > greatest:
            raise Fault("C6")
        return self.take(count)

    def option(self, read):
        return read() if self.flag() else None

    def merkle(self, most):
        leaves, inactive, count = self.location(), self.varint(), self.varint()
        if count > most:
            raise Fault("C6")
        return Merkle(leaves, inactive, [self.digest() for _ in range(count)])

    def range(self, family, most):
        merkle = self.merkle(most)
        pending = self.option(self.digest) if family == "mmb" else None
        return Range(merkle, pending, self.option(self.digest), self.digest())

    def operation(self, family, width, most):
        location = self.location()
        return Operation(location, self.take(width), self.range(family, most))

    def end(self):
        if self.at < len(self.data):
            raise Fault("C2")


def varint(value):
    groups = []
    while value > 127:
        groups.append(value % 128 + 128)
        value //= 128
    return bytes(groups + [value])


def string(data):
    return varint(len(data)) + data


def option(digest):
    return b"\0" if digest is None else b"\1" + digest


class Merkle:
    """A Merkle proof."""

    def __init__(self, leaves, inactive, digests):
        self.leaves, self.inactive, self.digests = leaves, inactive, digests

    def written(self):
        counts = varint(self.leaves) + varint(self.inactive) + varint(len(self.digests))
        return counts + b"".join(self.digests)


class Range:
    """A proof over a range of operations of a state."""

    def __init__(self, merkle, pending, partial, operations_root):
        self.merkle, self.pending, self.partial = merkle, pending, partial
        self.operations_root = operations_root

    def written(self, family):
        pending = option(self.pending) if family == "mmb" else b""
        return self.merkle.written() + pending + option(self.partial) + self.operations_root


class Operation:
    """A proof of one operation of a state."""

    def __init__(self, location, chunk, range_proof):
        self.location, self.chunk, self.range = location, chunk, range_proof

    def written(self, family):
        return varint(self.location) + self.chunk + self.range.written(family)
