#!/usr/bin/env python3
"""Has the program compile to where nothing can be written, or not all of it, and read what can't be read, or not all of it: a message, status 1, and what
docs/FORMATS.md says of what was there ("Commands"). What is written beside an image is never left, and what has that name already stays.

    unwritable.py PROGRAM STREAMS SCRATCH

STREAMS is what makes a call of the system go wrong (streams.c). The bytes of the image are those that the program writes where it can, which checks/listing.py reads.
"""
import errno
import os
import resource
import shutil
import signal
import stat
import subprocess
import sys

from rows import row_of

NOBODY = 65_534
OLD = b"what was there"
CANNOT_WRITE = (b"", b"cannot write\n", 1)
ROOM = 64 << 20
PLACES = (".", "folder", "open")
DONE = (b"", b"", 0)
ROW = ("entries", "a consumer that waits is served by the producer, before that goes on")
HERE = os.path.dirname(os.path.abspath(__file__))


class Folder:
    """A folder with a source, in which the program is called, and what was wrong."""

    def __init__(self, program, scratch):
        self.scratch, self.program = scratch, os.path.join(scratch, "program")
        self.wrong, self.calls = [], 0
        for place in PLACES:
            os.makedirs(os.path.join(scratch, place), exist_ok=True)
        os.chmod(scratch, 0o755)
        shutil.copy(program, self.program)
        self.source = row_of(*ROW)[0]
        self.write("main.adb", self.source)

    def path(self, name):
        return os.path.join(self.scratch, name)

    def write(self, name, data):
        with open(self.path(name), "wb") as file:
            file.write(data)

    def read(self, name):
        """The bytes of a file, None where there is none."""
        if not os.path.isfile(self.path(name)):
            return None
        with open(self.path(name), "rb") as file:
            return file.read()

    def state(self, name):
        """The number of a file, its kind and permissions, its owner and its group."""
        found = os.lstat(self.path(name))
        return found.st_ino, found.st_mode, found.st_uid, found.st_gid

    def beside(self):
        """The files with a name that one beside an image has, and their bytes."""
        names = [os.path.join(place, name) for place in PLACES for name in os.listdir(self.path(place)) if name.endswith(".new")]
        return {name: self.read(name) for name in names}

    def expect(self, holds, what):
        if not holds:
            self.wrong.append(what)

    def was_reached(self, what):
        """A call that should go wrong was made; the file that tells it is removed."""
        if os.path.exists(self.path("reached")):
            os.remove(self.path("reached"))
        else:
            self.wrong.append(f"{what}: no call of the system went wrong")

    def call(self, what, words, left, files, **others):
        """Calls the program on the words; it leaves this, and these files."""
        beside = self.beside()
        run = subprocess.run([self.program, *words], cwd=self.scratch, capture_output=True, check=False, **others)
        self.calls += 1
        found = (run.stdout, run.stderr, run.returncode)
        if found != left:
            self.wrong.append(f"{what}: {words} leaves {found}, not {left}")
        for name, data in {"main.adb": self.source, **files}.items():
            self.expect(self.read(name) == data, f"{what}: {words} leaves {name} as {self.read(name)!r}")
        self.expect(self.beside() == beside, f"{what}: {words} leaves {self.beside()} beside, not {beside}")


def as_nobody():
    """Who may not do everything calls the program: where the tests run as root, nobody."""
    return {"user": NOBODY, "group": NOBODY, "extra_groups": []} if os.getuid() == 0 else {}


def try_places(folder):
    """Places that can't be opened to write: what was there stays."""
    compile_to = lambda name: ["compile", "main.adb", name]
    folder.call("a folder", compile_to("folder"), CANNOT_WRITE, {})
    folder.call("a folder by its end", compile_to("folder/"), CANNOT_WRITE, {})
    if os.listdir(folder.path("folder")):
        folder.wrong.append("a folder: something was made in it")
    folder.call("a file as a folder", compile_to("main.adb/new.img"), CANNOT_WRITE, {})
    folder.call("a folder that isn't there", compile_to("none/new.img"), CANNOT_WRITE, {"none": None})
    folder.call("a name that is too long", compile_to("n" * 256), CANNOT_WRITE, {})
    folder.call("no name", compile_to(""), CANNOT_WRITE, {})
    folder.call("the program that runs", compile_to("program"), CANNOT_WRITE, {"program": folder.read("program")})
    folder.write("kept.img", OLD)
    os.chmod(folder.path("kept.img"), 0o444)
    folder.call("a file that may not be written", compile_to("kept.img"), CANNOT_WRITE, {"kept.img": OLD}, **as_nobody())
    os.chmod(folder.path("folder"), 0o555)
    folder.call("a folder that may not be written", compile_to("folder/new.img"), CANNOT_WRITE, {"folder/new.img": None}, **as_nobody())
    folder.call("a full device", compile_to("/dev/full"), CANNOT_WRITE, {})
    folder.call("a device that takes all", compile_to("/dev/null"), DONE, {})
    os.symlink("nowhere", folder.path("round"))
    os.symlink("round", folder.path("nowhere"))
    folder.call("a link to itself", compile_to("round"), CANNOT_WRITE, {})


def try_unreadable(folder):
    """What can't be read is named, and nothing is written."""
    os.chmod(folder.path("kept.img"), 0o644)
    folder.call("a folder as a source", ["compile", "folder", "kept.img"], (b"", b"cannot read folder\n", 1), {"kept.img": OLD})
    folder.call("a folder as a schedule", ["go", "main.adb", "folder", "9"], (b"", b"cannot read folder\n", 1), {})
    folder.call("a folder as an image", ["list", "folder"], (b"", b"cannot read folder\n", 1), {})
    folder.write("secret.adb", folder.source)
    os.chmod(folder.path("secret.adb"), 0)
    folder.call("a source that may not be read", ["compile", "secret.adb", "kept.img"], (b"", b"cannot read secret.adb\n", 1), {"kept.img": OLD}, **as_nobody())


def try_endless(folder):
    """Of an image, a source and a schedule without end so much is read as decides, in little memory: each is refused by its first bytes, and nothing is written."""

    def confine():
        resource.setrlimit(resource.RLIMIT_AS, (ROOM, ROOM))

    folder.write("kept.img", OLD)
    for words in (["list", "/dev/zero"], ["run", "/dev/zero", "main.adb", "9"]):
        folder.call("an image without end", words, (b"", b"image fault 40 at byte 0\n", 6), {"kept.img": OLD}, preexec_fn=confine)
    refused = (b"", b"fault 2 at 1:1\n", 2)
    for words in (["compile", "/dev/zero", "kept.img"], ["go", "/dev/zero", "main.adb", "9"]):
        folder.call("a source without end", words, refused, {"kept.img": OLD}, preexec_fn=confine)
    wrong_line = (b"", b"schedule fault 50 at line 1\n", 7)
    folder.call("a schedule without end", ["go", "main.adb", "/dev/zero", "9"], wrong_line, {"kept.img": OLD}, preexec_fn=confine)


def image_of(folder):
    """The bytes of the source's image, which is compiled to a new file, over one that was longer, and by a link."""
    folder.call("a new file", ["compile", "main.adb", "new.img"], DONE, {})
    image = folder.read("new.img")
    subprocess.run([sys.executable, os.path.join(HERE, "listing.py"), folder.path("new.img")], capture_output=True, check=True)
    folder.write("long.img", OLD * 1_000)
    folder.call("a longer file", ["compile", "main.adb", "long.img"], DONE, {"long.img": image})
    folder.write("there.img", OLD)
    os.symlink("there.img", folder.path("link.img"))
    folder.call("a link", ["compile", "main.adb", "link.img"], DONE, {"there.img": image})
    return image


def try_same_file(folder, image):
    """Where IMG is SRC, by whatever names, nothing is written."""
    refused = b"procedure Main is begin null; end Main;"
    folder.write("refused.adb", refused)
    folder.call("a refused source to its own file", ["compile", "refused.adb", "./refused.adb"], (b"", b"fault 39 at 1:1\n", 2), {"refused.adb": refused})
    folder.write("own.adb", folder.source)
    os.symlink("own.adb", folder.path("linked.adb"))
    os.link(folder.path("own.adb"), folder.path("second.adb"))
    for name in ("own.adb", "./own.adb", "linked.adb", "second.adb"):
        folder.call("a source to its own file", ["compile", "own.adb", name], CANNOT_WRITE, {"own.adb": folder.source, "second.adb": folder.source})
    folder.call("a link to a source to that source", ["compile", "linked.adb", "own.adb"], CANNOT_WRITE, {"own.adb": folder.source})
    folder.write("own.new", folder.source)
    folder.call("a source where a file is made beside the image", ["compile", "own.new", "own"], DONE, {"own.new": folder.source, "own": image})


def replaces(folder, what, name, image, **others):
    """Compiles to a file that is there; whether another one has taken its name."""
    before = folder.state(name)
    folder.call(what, ["compile", "main.adb", name], DONE, {name: image}, **others)
    after = folder.state(name)
    folder.expect(after[1:] == before[1:], f"{what}: {before} has become {after}")
    return after[0] != before[0]


def try_replaced(folder, image):
    """A regular file is replaced by another one with its permissions, owner and group; other names of it keep what was there."""
    folder.write("kept.img", OLD)
    for mode in (0o600, 0o644, 0o777) + ((0o4755, 0o2711) if os.getuid() == 0 else ()):
        os.chmod(folder.path("kept.img"), mode)
        folder.expect(replaces(folder, f"permissions {mode:o}", "kept.img", image), f"permissions {mode:o}: the file was written to itself")
    if os.getuid() == 0:
        os.chown(folder.path("kept.img"), NOBODY, NOBODY - 1)
        folder.expect(replaces(folder, "another owner", "kept.img", image), "another owner: the file was written to itself")
    folder.write("first.img", OLD)
    os.link(folder.path("first.img"), folder.path("second.img"))
    folder.expect(replaces(folder, "two names", "first.img", image), "two names: the file was written to itself")
    folder.expect(folder.read("second.img") == OLD, "two names: the other name has lost what was there")


def try_itself(folder, image, streams):
    """What is no regular file is written to itself, and so is a regular one that can't be replaced."""

    def written(what, name, **others):
        folder.expect(not replaces(folder, what, name, image, **others), f"{what}: another file was made")

    folder.write("there.img", OLD)
    before = folder.state("there.img")
    written("a link", "link.img")
    folder.expect(folder.state("there.img") == before and folder.read("there.img") == image, "a link: its file was not written to itself")
    os.symlink("made.img", folder.path("free.img"))
    folder.call("a link to nothing", ["compile", "main.adb", "free.img"], DONE, {"made.img": image})
    folder.expect(stat.S_ISLNK(folder.state("free.img")[1]), "a link to nothing: it has gone")
    os.mkfifo(folder.path("pipe"))
    pipe = os.open(folder.path("pipe"), os.O_RDWR)
    folder.call("a pipe", ["compile", "main.adb", "pipe"], DONE, {})
    folder.expect(os.read(pipe, 2 * len(image)) == image and stat.S_ISFIFO(folder.state("pipe")[1]), "a pipe: it wasn't written to")
    os.close(pipe)
    folder.write("used.img", OLD)
    folder.write("used.img.new", OLD)
    written("a file beside it", "used.img")
    long = "n" * 252
    folder.write(long, OLD)
    written("a name that is as long as can be", long)
    for where, error in (("owners", errno.EPERM), ("modes", errno.EPERM), ("names", errno.EBUSY)):
        folder.write("fixed.img", OLD)
        written(f"no {where}", "fixed.img", env=failing(folder, streams, where, str(error), 1))
        folder.was_reached(f"no {where}")
    if os.getuid() == 0:
        for place in ("folder", "open"):
            name = os.path.join(place, "free.img")
            folder.write(name, OLD)
            os.chmod(folder.path(name), 0o666)
            os.chmod(folder.path(place), 0o777 if place == "open" else 0o555)
            written(f"a file in {place}", name, **as_nobody())


def full(size):
    """A file takes this many bytes."""

    def confine():
        signal.signal(signal.SIGXFSZ, signal.SIG_IGN)
        resource.setrlimit(resource.RLIMIT_FSIZE, (size, size))

    return confine


def try_full(folder, image, streams):
    """A file that takes only so many bytes, and writes that fail: what was there stays, or nothing where there was nothing. A file that is written to itself has
    a beginning of the image."""
    compile_to = lambda name: ["compile", "main.adb", name]
    for size in (0, 1, 50, len(image) - 1):
        folder.write("full.img", OLD)
        folder.call(f"room for {size} bytes", compile_to("full.img"), CANNOT_WRITE, {"full.img": OLD}, preexec_fn=full(size))
        folder.call(f"room for {size} bytes of a new file", compile_to("none.img"), CANNOT_WRITE, {"none.img": None}, preexec_fn=full(size))
        folder.write("used.img", OLD)
        folder.call(f"room for {size} bytes, in place", compile_to("used.img"), CANNOT_WRITE, {"used.img": image[:size]}, preexec_fn=full(size))
    folder.call("just room enough", compile_to("full.img"), DONE, {"full.img": image}, preexec_fn=full(len(image)))
    for how, left, data in [(str(errno.ENOSPC), CANNOT_WRITE, OLD), (str(errno.EIO), CANNOT_WRITE, OLD), ("none", CANNOT_WRITE, OLD), ("byte", DONE, image)]:
        folder.write("full.img", OLD)
        folder.call(f"a write with {how}", compile_to("full.img"), left, {"full.img": data}, env=failing(folder, streams, "files", how, how != "byte"))
        folder.was_reached(f"a write with {how}")


def failing(folder, streams, where, how, number):
    """The environment of a call whose call of the system of this number goes wrong."""
    return {**os.environ, "LD_PRELOAD": streams, "WHERE": where, "NUMBER": str(int(number)), "HOW": how, "REACHED": folder.path("reached")}


def main():
    program, streams, scratch = (os.path.abspath(word) for word in sys.argv[1:])
    folder = Folder(program, scratch)
    try_places(folder)
    try_unreadable(folder)
    try_endless(folder)
    image = image_of(folder)
    try_same_file(folder, image)
    try_replaced(folder, image)
    try_itself(folder, image, streams)
    try_full(folder, image, streams)
    for told in folder.wrong:
        print(f"unwritable: {told}", file=sys.stderr)
    print(f"unwritable: {folder.calls} calls where something can't be read or written, {len(folder.wrong)} wrong")
    return 1 if folder.wrong else 0


if __name__ == "__main__":
    sys.exit(main())
