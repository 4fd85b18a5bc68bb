#!/usr/bin/env python3
"""Refuses tsb its allocations one at a time, and looks at what each run answers and what it leaves.

    bench/refuse.py [PROGRAM [WORKSPACE..]]

PROGRAM is the built tsb of this repository where it is not given, and WORKSPACE the title of a workspace of builds.py;
without one all are tried. In each the Nth call for memory is refused, for N = 1, 2 and on until a run makes fewer calls,
and then in the same way all calls from the Nth on. Each run starts from the sources alone, or from what an earlier build
of other texts left. Of each run it is checked:

- It ends with the status of a run without refusals, with 70 or with 74. With 70 it has printed nothing, and with 74 a
  front of the report; the line on standard error is that of the status.
- At each path stand the bytes from before or those of a clean build, and nothing from before is gone.
- The next run without refusals has the status, the report and the outputs of a clean build.

It prints a table and then what was wrong; where something was, it ends with 1. A C compiler is needed. A folder in memory
is fastest: TMPDIR=/dev/shm.
"""
import os
import subprocess
import sys
import tempfile

# The import below is to leave no folder beside the scripts.
sys.dont_write_bytecode = True

import builds
import plain
from builds import NO_MEMORY, OUTSIDE


class Room:
    """A folder in which runs are made, and the library that refuses."""

    def __init__(self, program, folder):
        self.program = program
        self.place = os.path.join(folder, "workspace")
        self.told = os.path.join(folder, "told")
        self.library = os.path.join(folder, "refuse.so")
        self.stands = None
        code = os.path.join(plain.TOP, "bench", "refuse.c")
        subprocess.run([os.environ.get("CC", "cc"), "-shared", "-fPIC", "-O2", "-o", self.library, code], check=True)

    def run(self, words, files, refused=None):
        """Runs the program over these files and refuses it what is said; None where it asked for less."""
        if self.stands != files:
            builds.fill(self.place, files)
        if refused is None:
            ran = builds.run(self.program, self.place, words)
        else:
            surroundings = {**os.environ, "LD_PRELOAD": self.library, "REFUSE": refused, "REFUSE_TOLD": self.told}
            ran = builds.run(self.program, self.place, words, surroundings)
        self.stands = ran.files
        if refused is not None:
            if not os.path.exists(self.told):
                return None
            os.remove(self.told)
        return ran


def wrong_answer(ran, clean):
    """What is wrong with the answer of a run."""
    if ran.status not in (clean.status, NO_MEMORY, OUTSIDE):
        return f"ends with {ran.status}"
    if ran.complaint != builds.COMPLAINTS.get(ran.status, b""):
        return f"ends with {ran.status} and says {ran.complaint}"
    if ran.status == NO_MEMORY:
        is_right = ran.printed == b""
    elif ran.status == OUTSIDE:
        is_right = clean.printed.startswith(ran.printed)
    else:
        is_right = ran.printed == clean.printed
    return None if is_right else f"ends with {ran.status} and prints {ran.printed}"


def wrong_files(ran, start, clean):
    """What is wrong with what it left."""
    for path in sorted(start.keys() | ran.files.keys()):
        if ran.files.get(path) not in (start.get(path), clean.files.get(path)):
            return f"leaves {path} with {ran.files.get(path)}"
    if ran.status not in (NO_MEMORY, OUTSIDE) and ran.files != clean.files:
        return "settles and leaves other files"
    return None


def try_all(room, case, start, suffix):
    """Refuses each call in turn. Gives the number of calls, how many runs ended how, and what was wrong."""
    clean = builds.clean(case, start)
    ends, faults, seen = {}, [], set()
    number = 0
    while True:
        refused = f"{number + 1}{suffix}"
        ran = room.run(case.words, start, refused)
        if ran is None:
            return number, ends, faults
        number += 1
        ends[ran.status] = ends.get(ran.status, 0) + 1
        wrong = wrong_answer(ran, clean) or wrong_files(ran, start, clean)
        left = tuple(sorted(ran.files.items()))
        # What one run left is gone on from once.
        if wrong is None and left not in seen:
            seen.add(left)
            differs = builds.difference(room.run(case.words, ran.files), clean)
            wrong = f"leaves what the next run does not build: {differs}" if differs else None
        if wrong is not None:
            faults.append(f"{case.title}, call {refused}: it {wrong}")


def row(title, start, refused, *counts):
    print(f"{title:37} {start:8} {refused:8}" + "".join(f"{count:>10}" for count in counts), flush=True)


def main():
    program = os.path.abspath(sys.argv[1] if len(sys.argv) > 1 else builds.PROGRAM)
    faults = []
    row("workspace", "start", "refused", "calls", "status 70", "status 74", "as clean", "wrong")
    with tempfile.TemporaryDirectory() as folder:
        room = Room(program, folder)
        for case in builds.CASES:
            if sys.argv[2:] and case.title not in sys.argv[2:]:
                continue
            for name, start in builds.starts(program, room.place, case).items():
                room.stands = None
                for suffix, kind in ("", "one"), ("..", "all on"):
                    calls, ends, wrong = try_all(room, case, start, suffix)
                    faults += wrong
                    counts = [ends.get(status, 0) for status in (NO_MEMORY, OUTSIDE)]
                    counts.append(sum(ends.values()) - sum(counts))
                    row(case.title, name, kind, calls, *counts, len(wrong))
    for fault in faults:
        print(fault)
    sys.exit(1 if faults else 0)


if __name__ == "__main__":
    main()
