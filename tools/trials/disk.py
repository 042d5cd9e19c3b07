"""What a program does to a file and its log, told by `strace`, and what the disk may have of both after a stop at each call.

A file has what was synced, and beyond it whatever of the later calls the system wrote by itself. Linux alone, and `strace` is a package of its own.
"""
import hashlib
import itertools
import os
import re
import stat

CALLS = "openat,write,sendto,pwrite64,ftruncate,fsync,fdatasync"
LINE = re.compile(r"(\d+) +(?:<\.\.\. \w+ resumed>)?(.*?)(?:\s*<unfinished \.\.\.>)?$")
CALL = re.compile(r'(\w+)\((?:AT_FDCWD|\d+)<([^>]*)>(?:\(deleted\))?(?:, "([^"]*)")?([^"]*)\) += (-?\d+)')
LAST = re.compile(r"(\d+)$")
# Of how many changes each choice is tried.
FEW = 6


def traced(bench, folder, name, program, options):
    """A program that runs another one under `strace` with these options, and leaves a log of its calls beside itself."""
    path = os.path.join(folder, name)
    with open(path, "w") as file:
        file.write(f'#!/bin/sh\nexec strace -f -y -xx -s 4194304 {options} -o {path}.log {program} "$@"\n')
    os.chmod(path, stat.S_IRWXU)
    return path


def unhex(text):
    return bytes.fromhex((text or "").replace("\\x", ""))


def calls_in(log):
    """The calls of a log in the order in which they ended: the name, the path of what they are on, their text, their last number, and the result."""
    begun = {}
    with open(log) as file:
        for line in file:
            process, rest = LINE.match(line.rstrip("\n")).groups()
            whole = begun.pop(process, "") + rest
            if line.endswith("<unfinished ...>\n"):
                begun[process] = whole
            elif call := CALL.match(whole):
                name, path, text, more, result = call.groups()
                number = LAST.search(more)
                yield name, os.fsdecode(unhex(path)), unhex(text), int(number[1]) if number else 0, int(result)


class File:
    """A file on a disk: what was synced, or None where it may not be there, and the changes since."""

    def __init__(self):
        self.synced, self.made, self.changes = None, False, []

    def change(self, at, piece):
        self.changes.append((at, piece))

    def sync(self):
        self.synced, self.changes = self.after(self.changes), []

    def after(self, changes):
        content = bytearray(self.synced or b"")
        for at, piece in changes:
            if piece is None:
                content[at:] = bytes(max(0, at - len(content)))
            else:
                content.extend(bytes(max(0, at - len(content))))
                content[at : at + len(piece)] = piece
        return bytes(content)

    def left(self):
        """What may be left of the changes: any of them, or all with the last one half written; of many, all but one or one alone at the least."""
        at, piece = self.changes[-1]
        torn = [*self.changes[:-1], (at, piece if piece is None else piece[: len(piece) // 2])]
        sizes = range(len(self.changes) + 1) if len(self.changes) <= FEW else (0, 1, len(self.changes) - 1, len(self.changes))
        return [torn, *itertools.chain.from_iterable(itertools.combinations(self.changes, size) for size in sizes)]

    def found(self):
        """What may be found of it after a stop: no file, where it wasn't synced; what was synced; and that with what is left of the changes since."""
        if not self.made:
            return [None]
        kept = [self.after(changes) for changes in (self.left() if self.changes else [[]])]
        return kept if self.synced is not None else [None, *kept]


def stops_in(log, path):
    """Each state of a file and its log that a stop may leave, with how many texts were written by then that the program's callers count on: lines that
    it printed, and answers with status 200. Each comes once for each such number."""
    files, said, seen = {path: File(), f"{path}-wal": File()}, 0, set()
    for name, at, text, number, result in calls_in(log):
        if name == "openat":
            made = files.get(os.path.join(at, os.fsdecode(text)))
            if made and result >= 0:
                made.made = True
        elif at in files and result >= 0:
            if name == "pwrite64":
                files[at].change(number, text)
            elif name == "ftruncate":
                files[at].change(number, None)
            elif name in ("fsync", "fdatasync"):
                files[at].sync()
        elif text.startswith((b"login ", b"HTTP/1.1 200 ")):
            said += 1
        for state in itertools.product(*(file.found() for file in files.values())):
            key = (said, *(hashlib.sha256(content).digest() if content is not None else None for content in state))
            if key not in seen:
                seen.add(key)
                yield said, state
