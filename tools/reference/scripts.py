#!/usr/bin/env python3
"""What a script must print and how it must end, from the definitions.

    python3 tools/reference/scripts.py < SCRIPT

The store, its device and their choices are those of store.py; docs/SCRIPT.md has the lines.
"""
import string
import sys
from copy import deepcopy

import histories
from devices import Settings
from lines import BadLine, number
from logs import key as key_of
from store import BUFFERS, Disk, Session, encoded_number, rate

DONE, BAD_LINE = 0, 2
KINDS = ("open", "read", "write", "sync", "resize")
CACHE_PAGES = 8


def key(word):
    if len(word) != 16 or not set(word) <= set(string.hexdigits):
        raise BadLine
    return key_of(word)


class Script:
    """What stands after the first line: a session, the settings in place, a batch and a proof."""

    def __init__(self, family, seed):
        self.family = family
        self.session = Session((family, 1), Disk(number(seed)), CACHE_PAGES)
        self.settings, self.batch, self.kept = Settings(), [], None

    def ask(self, *step):
        """The answer of a step and whether it is a refusal."""
        answer = self.session.step(list(step))
        if answer in ("not open", "still open"):
            raise BadLine
        if answer[0] == "S" and answer[1].isdigit():
            return f"error {answer.split()[0]}", True
        return answer, False

    def said(self, step, word=None):
        answer, is_refused = self.ask(*step)
        return answer if is_refused or word is None else f"{word} {answer}"

    def counted(self, step, word):
        answer, is_refused = self.ask(*step)
        return answer if is_refused else self.said(["commits"], word)

    def set(self, words):
        self.settings.change(words)
        self.ask("settings", deepcopy(self.settings))
        return "ok"

    def prove(self, name):
        answer, is_refused = self.ask("prove", name)
        if is_refused:
            return answer
        value, proof = answer.split()
        self.kept = bytes.fromhex(proof), bytes.fromhex(self.ask("root")[0])
        return value if value == "absent" else f"present {value}"

    def check(self, name, value):
        if self.kept is None:
            raise BadLine
        proof, root = self.kept
        return "yes" if histories.is_shown(self.family, 1, root, name, value, proof) else "no"

    def line(self, words):
        match words:
            case ["open"]:
                return self.counted(["open", BUFFERS[0]], "open")
            case ["put", name, value]:
                self.batch.append(("put", key(name), encoded_number(number(value))))
                return None
            case ["del", name]:
                self.batch.append(("del", key(name)))
                return None
            case ["commit", *metadata] if len(metadata) < 2:
                metadata = encoded_number(number(metadata[0])) if metadata else None
                batch, self.batch = self.batch, []
                return self.counted(["commit", batch, metadata], "commit")
            case ["get", name]:
                answer, is_refused = self.ask("get", key(name))
                return answer if is_refused or answer == "none" else f"value {answer}"
            case ["root" | "floor" | "len" as word]:
                return self.said([word], word)
            case ["prune", location]:
                return self.said(["prune", number(location)], "pruned")
            case ["prove", name]:
                return self.prove(key(name))
            case ["proof"] if self.kept:
                return f"proof {self.kept[0].hex()}"
            case ["check", "value", name, value]:
                return self.check(key(name), encoded_number(number(value)))
            case ["check", "absent", name]:
                return self.check(key(name), None)
            case ["cut", calls]:
                self.ask("cut", number(calls))
                return "ok"
            case ["mode", "prefix" | "subset"]:
                return self.set(words)
            case ["fault", kind, *fraction] if kind in KINDS and len(fraction) == 2:
                rate(fraction)
                return self.set(words)
            case ["close"] | ["crash"]:
                return self.said(words)
        raise BadLine


def begun(words):
    match words:
        case ["new", "mmr" | "mmb" as family, seed]:
            return Script(family, seed)
    raise BadLine


def run(text):
    """The lines that are printed, and the status."""
    script, printed = None, []
    for at, line in enumerate(text.split("\n"), 1):
        if line == "":
            continue
        try:
            words = line.split(" ")
            if script is None:
                script, answer = begun(words), "new"
            else:
                answer = script.line(words)
        except BadLine:
            return printed + [f"bad line {at}"], BAD_LINE
        if answer is not None:
            printed.append(answer)
    return printed, DONE


def main():
    printed, status = run(sys.stdin.read())
    print("".join(line + "\n" for line in printed), end="")
    sys.exit(status)


if __name__ == "__main__":
    main()
