#!/usr/bin/env python3
"""A campaign: random programs beside an interpreter of sources, changed texts beside a judge of rules, images beside their rules and a machine over plain
lists, traces, dumps and measures beside that machine, searches beside the run of each schedule by the interpreter.

    campaign.py [--program PROGRAM] [--kind KIND]... [--count N] [--case SEED] [MINUTES [SEED]]

The interpreter and the judge (checks/campaigns) are written from docs/LANGUAGE.md (checks/README.md, "Campaigns"). A campaign takes so many minutes (2), or
with --count ends after so many cases of each kind. Each minute a line says how many were tried. Each difference is made smaller, reported with the seed of its
case, and kept in a folder `campaign-..` of the directory for temporary files; `--case SEED` tries one case again. The status is 1 where there was a
difference. The program is bin/adarun, or where that isn't built the unproved one."""

import argparse
import os
import shutil
import subprocess
import sys
import tempfile
import threading
import time
from collections import Counter
from concurrent.futures import ProcessPoolExecutor

sys.dont_write_bytecode = True
HERE = os.path.dirname(os.path.realpath(__file__))
sys.path.insert(0, os.path.join(HERE, "campaigns"))

from cases import KINDS, Caller, Difference, legal_texts  # noqa: E402

MINUTES, SEED, MINUTE, DEPTH, STACK = 2, "adarun", 60, 30_000, 512 * 2**20
CALLER = None


def allow_depth():
    """Deep sources are read and run by recursion."""
    sys.setrecursionlimit(DEPTH)
    threading.stack_size(STACK)


def begin(program, folder):
    """What each process needs once."""
    global CALLER
    allow_depth()
    CALLER = Caller(program, folder)


def within_a_thread(work):
    """The result of the work in a thread, which has the stack that was asked for."""
    found = []
    thread = threading.Thread(target=lambda: found.append(work()))
    thread.start()
    thread.join()
    return found[0]


def tried(kind, seed):
    """The kind, the seed, what came of the case, and what differs."""

    def work():
        try:
            return KINDS[kind](CALLER, seed)
        except Exception as error:  # noqa: BLE001 (a case that the checks can't judge is a difference, too)
            return "failed", Difference(f"the checks fail: {type(error).__name__}: {error}", b"")

    return (kind, seed, *within_a_thread(work))


class Campaign:
    """Counts what is tried, and reports."""

    def __init__(self, arguments, folder):
        self.arguments, self.folder, self.start = arguments, folder, time.monotonic()
        self.counts, self.came, self.differences, self.minute = Counter(), Counter(), 0, 1

    def add(self, kind, seed, came, difference):
        self.counts[kind] += 1
        self.came[kind, came] += 1
        if difference:
            self.differences += 1
            self.keep(kind, seed, difference)
        if time.monotonic() - self.start >= MINUTE * self.minute:
            print(f"campaign: minute {self.minute}: {self.numbers()}", flush=True)
            self.minute += 1

    def keep(self, kind, seed, difference):
        path = os.path.join(self.folder, f"{kind}-{self.differences}")
        with open(path, "wb") as file:
            file.write(difference.content)
        with open(f"{path}.schedule", "w", encoding="ascii") as file:
            file.write(difference.schedule)
        print(f"campaign: {kind}, seed {seed}: {difference.told}\n{path}", file=sys.stderr, flush=True)

    def numbers(self):
        return ", ".join(f"{self.counts[kind]} {kind}" for kind in self.arguments.kind) + f", {self.differences} differences"

    def is_over(self):
        if self.arguments.count:
            return all(self.counts[kind] >= self.arguments.count for kind in self.arguments.kind)
        return time.monotonic() - self.start >= MINUTE * self.arguments.minutes

    def seeds(self):
        """Kinds and seeds, one kind after the other."""
        if self.arguments.case:
            yield self.arguments.kind[0], self.arguments.case
            return
        number = 0
        while not self.arguments.count or number < self.arguments.count:
            for kind in self.arguments.kind:
                yield kind, f"{self.arguments.seed}-{kind}-{number}"
            number += 1

    def run(self, program):
        workers = len(os.sched_getaffinity(0))
        if "texts" in self.arguments.kind:
            within_a_thread(legal_texts)  # once, for all processes
        with ProcessPoolExecutor(workers, initializer=begin, initargs=(program, self.folder)) as pool:
            seeds, running = self.seeds(), []
            while not self.is_over():
                while len(running) < 3 * workers and (case := next(seeds, None)):
                    running.append(pool.submit(tried, *case))
                if not running:
                    break
                self.add(*running.pop(0).result())
            pool.shutdown(wait=True, cancel_futures=True)
        for kind in self.arguments.kind:
            came = ", ".join(f"{count} {came}" for (of, came), count in sorted(self.came.items(), key=lambda it: -it[1]) if of == kind)
            print(f"campaign: {kind}: {came}")
        print(f"campaign: seed {self.arguments.seed}: {self.numbers()}")
        return 1 if self.differences or not all(self.counts[kind] for kind in self.arguments.kind) else 0


def program_of(name):
    if name:
        return name
    built = os.path.join(HERE, "..", "bin", "adarun")
    return built if os.path.exists(built) else subprocess.run([os.path.join(HERE, "unproved")], stdout=subprocess.PIPE, text=True, check=True).stdout.strip()


def main():
    parser = argparse.ArgumentParser()
    parser.add_argument("--program")
    parser.add_argument("--kind", action="append", choices=list(KINDS))
    parser.add_argument("--count", type=int)
    parser.add_argument("--case")
    parser.add_argument("minutes", nargs="?", type=float, default=MINUTES)
    parser.add_argument("seed", nargs="?", default=SEED)
    arguments = parser.parse_args()
    arguments.kind = [arguments.case.split("-")[-2]] if arguments.case else arguments.kind or list(KINDS)
    allow_depth()
    folder = tempfile.mkdtemp(prefix="campaign-")
    status = Campaign(arguments, folder).run(program_of(arguments.program))
    if status == 0:
        shutil.rmtree(folder)
    return status


if __name__ == "__main__":
    sys.exit(main())
