"""What lines of cases are made of, for the programs that tell what players must answer (crates/case_lines/README.md)."""
import sys


class BadLine(Exception):
    """The line asks for nothing."""


def need(condition):
    if not condition:
        raise BadLine


def number(word, limit=2**64):
    need(word.isascii() and word.isdecimal() and int(word) < limit)
    return int(word)


def unhex(word, count=None):
    """The bytes that digits name; of as many as are wanted, if a count is given."""
    try:
        found = b"" if word == "-" and count is None else bytes.fromhex(word)
    except ValueError:
        raise BadLine from None
    need(count is None or len(found) == count)
    return found


def hexed(data):
    return data.hex() or "-"


def said(flag):
    return str(flag).lower()


def play(begin, refused=(), bad=BadLine):
    """Answers the lines of standard input by the player of their case, which `begin` makes: what a refusal says, else `bad line`."""
    player = begin()
    for line in sys.stdin:
        words = line.split()
        if not words or words[0].startswith("#"):
            continue
        if words[0] == "case":
            player = begin()
            print(line.rstrip("\n"))
            continue
        try:
            print(player(words))
        except refused as refusal:
            print(refusal)
        except bad:
            print("bad line")
