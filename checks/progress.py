#!/usr/bin/env python3
"""Asks that a search which takes long reports about each second how far it is, to a terminal and to nothing else: checks/progress.py PROGRAM SCRATCH"""

import os
import pty
import re
import select
import subprocess
import sys
import time

SOURCE = """pragma Profile (Ravenscar);
with Ada.Real_Time; use Ada.Real_Time;
with Control_IO; use Control_IO;
package App is
   Total : Integer := 0;
   task Count with Priority => 5;
end App;
package body App is
   task body Count is
      Next : Time := Clock;
   begin
      loop
         Total := (Total * 5 + Read (1)) mod 1000000007;
         Next := Next + Milliseconds (1);
         delay until Next;
      end loop;
   end Count;
end App;
with App;
procedure Main is
begin
   null;
end Main;
"""
CHOICES = "0..39000/1000 1 0|1|2|3|4\n"
SECONDS = 3.5
ROW = re.compile(r"search: (\d+) % of the set, (\d+) runs, (\d+) worlds")


def reported(words, folder, terminal):
    """What a search that never ends has written to standard error, which is a terminal or a pipe, when it is stopped."""
    ours, theirs = pty.openpty() if terminal else os.pipe()
    search = subprocess.Popen(words, cwd=folder, stdin=subprocess.DEVNULL, stdout=subprocess.PIPE, stderr=theirs)
    os.close(theirs)
    written, end = b"", time.monotonic() + SECONDS
    while time.monotonic() < end:
        if select.select([ours], [], [], max(0, end - time.monotonic()))[0]:
            piece = os.read(ours, 4096)
            if not piece:
                break
            written += piece
    ended = search.poll()
    search.kill()
    out = search.communicate()[0]
    os.close(ours)
    return written.decode().replace("\r\n", "\n"), out, ended


def main():
    program, folder = os.path.abspath(sys.argv[1]), sys.argv[2]
    os.makedirs(folder)
    for name, text in (("main.adb", SOURCE), ("choices", CHOICES)):
        with open(os.path.join(folder, name), "w", encoding="ascii") as file:
            file.write(text)
    wrong, rows = 0, []
    for quiet, terminal in ((False, True), (True, True), (False, False)):
        words = [program, "search", *(["--quiet"] if quiet else []), "main.adb", "choices", "40000", "100000"]
        text, out, ended = reported(words, folder, terminal)
        if terminal and not quiet:
            rows = [ROW.fullmatch(line) for line in text.splitlines()]
            counts = [(int(row[1]), int(row[2]), int(row[3])) for row in rows if row]
            right = all(rows) and 2 <= len(rows) <= SECONDS and counts == sorted(counts) and counts[0][1] > 0
        else:
            right = text == ""
        if not right or out or ended is not None:
            wrong += 1
            print(f"progress: {' '.join(words[1:])}: {'a terminal' if terminal else 'a pipe'} got {text!r}, standard output {out!r}, status {ended}", file=sys.stderr)
    print(f"progress: {len(rows)} rows at a terminal in {SECONDS} seconds, none with --quiet or in a pipe, {wrong} wrong")
    sys.exit(1 if wrong else 0)


if __name__ == "__main__":
    main()
