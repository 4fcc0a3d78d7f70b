#!/usr/bin/env python3
"""Gives each command that reads a file everything that a name may be of: links, folders, sockets, devices, pipes, names as long as may be and longer ones.

    kinds_of_files.py PROGRAM SCRATCH

What opens and has the same bytes (open(2), symlink(7), fifo(7)) leaves what the file itself leaves: by links, by a name of 4,095 characters, by a pipe whose writer
comes late or writes in parts, by /dev/stdin. /dev/null is as an empty file (null(4)), and /dev/zero and /dev/full as a file of zeros (full(4)). What can't be opened
or read is `cannot read FILE` with status 1: a link to nothing or to itself, a folder, a socket, a name of a folder for a file, a name of 4,096 characters or with a
part of 256 (PATH_MAX, NAME_MAX), standard input that is closed, a folder, or open to be written alone. A name that is no UTF-8 is `usage` (docs/FORMATS.md,
"Commands"). A file in whose place another one comes while it is read is one of both. One that is written over while it is read is what was there of either: the
program ends with a status that docs/FORMATS.md has, and soon.
"""
import os
import socket
import subprocess
import sys
import threading
import time
from contextlib import contextmanager

import mnemonics
from rows import row_of

SECONDS = 60
ROW = ("entries", "a consumer that waits is served by the producer, before that goes on")
FAULTY = b"pragma Profile (Ravenscar);\nprocedure Main is begin end Main;\n"
PATH_MAX = 4_096
NAME_MAX = 255
PAUSE = 0.05
CHANGES = 5
STATUSES = range(10)
FILE = "FILE"
COMMANDS = [
    ("source", ["go", FILE, "lines", "100000"]),
    ("lines", ["go", "source", FILE, "100000"]),
    ("source", ["compile", FILE, "new.img"]),
    ("source", ["simulate", FILE]),
    ("faulty", ["simulate", FILE]),
    ("lines", ["simulate", "source", FILE]),
    ("faulty", ["check", FILE]),
    ("source", ["format", FILE]),
    ("source", ["lower", FILE]),
    ("source", ["trace", FILE, "lines", "100000"]),
    ("lines", ["trace", "source", FILE, "100000"]),
    ("source", ["trace", "--vcd", FILE, "lines", "100000"]),
    ("source", ["trace", "--vcd", "--time", FILE, "lines", "100000"]),
    ("source", ["trace", "--chart", FILE, "lines", "100000"]),
    ("source", ["trace", "--svg", FILE, "lines", "100000"]),
    ("source", ["measure", FILE, "lines", "100000"]),
    ("source", ["measure", FILE, "choices", "20000", "1000"]),
    ("choices", ["measure", "source", FILE, "20000", "1000"]),
    ("source", ["search", FILE, "choices", "20000", "1000"]),
    ("choices", ["search", "source", FILE, "20000", "1000"]),
    ("faulty", ["trace", FILE, "lines", "1"]),
    ("faulty", ["trace", "--vcd", FILE, "lines", "1"]),
    ("faulty", ["measure", FILE, "lines", "1"]),
    ("lines", ["trace", "--vcd", "source", FILE, "100000"]),
    ("lines", ["measure", "source", FILE, "100000"]),
    ("source", ["search", "--quiet", FILE, "choices", "20000", "1000", "waits"]),
    ("choices", ["search", "--quiet", "source", FILE, "20000", "1000", "line", "x", "--part", "1/2"]),
    ("faulty", ["search", FILE, "choices", "20000", "1000"]),
    ("faulty", ["explain", "6", FILE]),
    ("source", ["explain", "6", FILE]),
    ("image", ["list", FILE]),
    ("image", ["run", FILE, "lines", "3"]),
    ("lines", ["run", "image", FILE, "3"]),
]


class Folder:
    """A folder with the files, in which the program is called."""

    def __init__(self, program, folder):
        self.program, self.folder, self.calls = program, folder, 0
        os.makedirs(os.path.join(folder, "folder"))
        self.files = {"source": row_of(*ROW)[0], "faulty": FAULTY, "lines": b"5 1 7\n9 1 8\n", "choices": b"0 1 50|90\n8000 1 70|-\n"}
        self.files |= {"image": mnemonics.image_of("thousand"), "empty": b"", "zeros": b"\0" * 200_000}
        for name, data in self.files.items():
            with open(self.path(name), "wb") as file:
                file.write(data)
        os.symlink("nowhere", self.path("dangling"))
        os.symlink("round", self.path("round"))
        os.mkfifo(self.path("pipe"))
        self.socket = socket.socket(socket.AF_UNIX)
        inside = os.getcwd()
        os.chdir(folder)
        self.socket.bind("socket")
        os.chdir(inside)

    def path(self, name):
        return os.path.join(self.folder, name)

    def call(self, words, **others):
        """What the program leaves."""
        self.calls += 1
        streams = {"stdout": subprocess.PIPE, "stderr": subprocess.PIPE, "stdin": subprocess.DEVNULL, **others}
        try:
            run = subprocess.run([self.program, *words], cwd=self.folder, check=False, timeout=SECONDS, **streams)
        except subprocess.TimeoutExpired:
            return (b"", b"takes too long", None)
        return (run.stdout, run.stderr, run.returncode)


def parts_to(path, data, parts):
    """Opens a pipe late, and writes the bytes in so many parts with pauses between."""
    time.sleep(PAUSE)
    size = -(-len(data) // parts) or 1
    with open(path, "wb", buffering=0) as pipe:
        for at in range(0, len(data), size):
            pipe.write(data[at : at + size])
            time.sleep(PAUSE)


def replace(folder, data):
    """Another file comes in the place of `given`."""
    with open(folder.path("next"), "wb") as file:
        file.write(data)
    os.replace(folder.path("next"), folder.path("given"))


def write_over(folder, data):
    """The file `given` is emptied, and has other bytes then."""
    with open(folder.path("given"), "wb") as file:
        file.write(data)


@contextmanager
def changing(change, folder, *contents):
    """The file `given` changes all the time, from one of the contents to the next."""
    over = threading.Event()

    def go_on():
        while not over.is_set():
            for data in contents:
                change(folder, data)

    writer = threading.Thread(target=go_on)
    writer.start()
    try:
        yield
    finally:
        over.set()
        writer.join()


def long_name(size, name):
    """A name of so many bytes for a file of the folder."""
    odd = "/" * ((size - len(name)) % 2)
    return "./" * ((size - len(name)) // 2) + odd + name


class Command:
    """A command, and what is wrong in its calls."""

    def __init__(self, folder, name, words):
        self.folder, self.name, self.words, self.wrong = folder, name, words, []

    def with_name(self, name):
        return [name if word == FILE else word for word in self.words]

    def as_file(self, file, name):
        """What the call leaves of this file, with another name for it in what it writes."""
        out, err, status = self.folder.call(self.with_name(file))
        return out, err.replace(file.encode() + b":", name.encode() + b":"), status

    def expect(self, what, left, expected):
        if left != expected:
            self.wrong.append(f"{' '.join(self.words)}: {what} leaves {left} where {expected} is expected")

    def same(self, what, name, file=None, **others):
        """What has this name is as the file, or as the command's own one."""
        self.expect(what, self.folder.call(self.with_name(name), **others), self.as_file(file or self.name, name))

    def unreadable(self, what, name, **others):
        self.expect(what, self.folder.call(self.with_name(name), **others), (b"", f"cannot read {name}\n".encode(), 1))

    def try_names(self):
        """Links, and names of each length."""
        for link, to in (("link", self.name), ("link to a link", "link")):
            os.symlink(to, self.folder.path(link))
            self.same(f"a {link}", link)
        for link in ("link", "link to a link"):
            os.remove(self.folder.path(link))
        for size in (PATH_MAX - 2, PATH_MAX - 1):
            self.same(f"a name of {size} characters", long_name(size, self.name))
        for size in (PATH_MAX, PATH_MAX + 1, 2 * PATH_MAX):
            self.unreadable(f"a name of {size} characters", long_name(size, self.name))
        self.unreadable(f"a part of a name of {NAME_MAX + 1} characters", "n" * (NAME_MAX + 1))
        self.expect("a name that is no UTF-8", self.folder.call(self.with_name(b"\xff")), (b"", b"usage\n", 1))

    def try_unreadable(self):
        """What can't be opened, or not be read."""
        for what in ("nothing", "dangling", "round", "folder", "socket", "folder/", f"{self.name}/", f"{self.name}/..", ""):
            self.unreadable(what or "no name", what)

    def try_devices(self):
        """Devices, and standard input by its name."""
        self.same("/dev/null", "/dev/null", "empty")
        for name in ("/dev/zero", "/dev/full"):
            self.same(name, name, "zeros")
        with open(self.folder.path(self.name), "rb") as given:
            self.same("/dev/stdin", "/dev/stdin", stdin=given)

    def try_pipes(self):
        """A pipe whose writer comes late, writes in parts, or writes nothing."""
        for data, parts, file in ((self.folder.files[self.name], 1, self.name), (self.folder.files[self.name], 3, self.name), (b"", 1, "empty")):
            writer = threading.Thread(target=parts_to, args=(self.folder.path("pipe"), data, parts))
            writer.start()
            self.same(f"a pipe with {parts} parts of {file}", "pipe", file)
            writer.join()

    def try_changes(self):
        """A file in whose place another one comes, and one that is written over, while it is read."""
        own, other = self.folder.files[self.name], self.folder.files["zeros"]
        with open(self.folder.path("given"), "wb") as file:
            file.write(own)
        either = [self.as_file(name, "given") for name in (self.name, "zeros")]
        with changing(replace, self.folder, own, other):
            for _ in range(CHANGES):
                left = self.folder.call(self.with_name("given"))
                self.expect("a file in whose place another one comes", left in either, True)
        with changing(write_over, self.folder, own, other):
            for _ in range(CHANGES):
                left = self.folder.call(self.with_name("given"))
                self.expect(f"a file that is written over ({left})", left[2] in STATUSES, True)

    def try_standard_input(self):
        """Standard input by the word `-`, of commands that know it."""
        if self.words[0] not in ("simulate", "check", "format", "lower", "search") or self.words[1] != FILE:
            return
        self.unreadable("standard input that is closed", "-", stdin=None, preexec_fn=lambda: os.close(0))
        folder = os.open(self.folder.path("folder"), os.O_RDONLY)
        self.unreadable("standard input that is a folder", "-", stdin=folder)
        os.close(folder)
        with open(self.folder.path("written"), "wb") as written:
            self.unreadable("standard input that is open to be written", "-", stdin=written)
        with open("/dev/zero", "rb") as zeros:
            self.same("standard input without end", "-", "zeros", stdin=zeros)


def main():
    program, scratch = (os.path.abspath(word) for word in sys.argv[1:])
    folder, wrong = Folder(program, scratch), []
    for name, words in COMMANDS:
        command = Command(folder, name, words)
        command.try_names()
        command.try_unreadable()
        command.try_devices()
        command.try_pipes()
        command.try_changes()
        command.try_standard_input()
        wrong += command.wrong
    for told in wrong:
        print(f"kinds_of_files: {told}", file=sys.stderr)
    print(f"kinds_of_files: {folder.calls} calls, {len(wrong)} wrong")
    return 1 if wrong else 0


if __name__ == "__main__":
    sys.exit(main())
