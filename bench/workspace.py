#!/usr/bin/env python3
"""Builds made-up workspaces of plain files with tsb, and with `tsc -b` where it is installed, and prints a table.

    bench/workspace.py [PROJECTS [FILES [LARGE]]]

PROJECTS is 500, FILES is 2,000 and LARGE is 8 where they are not given. There are three cases:

- a workspace of PROJECTS projects of four files each. Project i references project (i-1)/2, rounded down, so that the
  references make a tree, and a solution at the root references all of them;
- one project of FILES files;
- one project of LARGE files of almost 4 MiB, which is the most that a file may have; here the bytes that are read and
  written are counted too, by the second of the whole run.

Each tool gets a copy of its own in a temporary folder, and runs twice: once from nothing, and once more where nothing has
changed. The words are `-b --verbose` in the first case and `-b` in the second. The figures are of the whole process: wall
time, processor time in the program (user) and in the system for it (sys), and peak memory. Where outputs are missing
after a run, it says so.
"""
import os
import shutil
import subprocess
import sys
import tempfile
import time
from collections import namedtuple

# The import below is to leave no folder beside the scripts.
sys.dont_write_bytecode = True

import plain

PROGRAM = os.path.join(plain.TOP, "crates", "tb_main", "out", "tb_main")
NOT_BUILT = 75
PER_PROJECT = 4

# tsc gets these options so that it writes the same JavaScript as tsb, and looks for no types that are installed. None of
# them has an effect on tsb.
OPTIONS = '"composite":true,"outDir":"dist","target":"es2022","module":"es2022","strict":true,"skipLibCheck":true,"types":[]'

# An input has this many bytes at most.
MOST_BYTES = 4 * 1024 * 1024

Case = namedtuple("Case", "title make size words projects files")


def put(folder, path, text):
    place = os.path.join(folder, path)
    os.makedirs(os.path.dirname(place), exist_ok=True)
    with open(place, "w", encoding="utf-8") as out:
        out.write(text)


def references(paths):
    return "[" + ",".join(f'{{"path":"{path}"}}' for path in paths) + "]"


def make_workspace(folder, projects, _tool):
    put(folder, "tsconfig.json", f'{{"files":[],"references":{references(f"p{i}" for i in range(projects))}}}\n')
    for i in range(projects):
        upstream = references([f"../p{(i - 1) // 2}"] if i > 0 else [])
        config = f'{{"compilerOptions":{{{OPTIONS}}},"include":["src"],"references":{upstream}}}\n'
        put(folder, f"p{i}/tsconfig.json", config)
        for j in range(PER_PROJECT):
            put(folder, f"p{i}/src/f{j}.ts", plain.source(i * PER_PROJECT + j))


def make_project(folder, files, tool):
    plain.make(folder, files)
    if tool == "tsc":
        put(folder, "tsconfig.json", f'{{"compilerOptions":{{{OPTIONS}}}}}\n')


def make_large(folder, files, tool):
    make_project(folder, 0, tool)
    for number in range(files):
        items, size, first = [], 0, number * 1_000_000
        while True:
            item = plain.constants(first + len(items))
            if size + len(item) > MOST_BYTES:
                break
            items.append(item)
            size += len(item)
        put(folder, f"large{number}.ts", "".join(items))


def count_bytes(folder):
    """How many bytes there are in inputs and in outputs."""
    read = written = 0
    for place, _, names in os.walk(folder):
        for name in names:
            size = os.path.getsize(os.path.join(place, name))
            if "dist" in place.split(os.sep):
                written += size
            elif name.endswith(".ts"):
                read += size
    return read, written


def count_outputs(folder):
    """How many files of JavaScript and of declarations stand in the output folders."""
    count = 0
    for place, _, names in os.walk(folder):
        if "dist" in place.split(os.sep):
            count += sum(name.endswith((".js", ".d.ts")) for name in names)
    return count


def run(command, folder):
    """Runs a tool there: its exit status, the seconds that it took, its usage and the last line that it printed."""
    # What was written before is not to be waited for.
    os.sync()
    with tempfile.TemporaryFile("w+") as printed:
        begin = time.perf_counter()
        child = subprocess.Popen(command, cwd=folder, stdout=printed, stderr=subprocess.STDOUT)
        _, status, usage = os.wait4(child.pid, 0)
        taken = time.perf_counter() - begin
        child.returncode = os.waitstatus_to_exitcode(status)
        printed.seek(0)
        lines = printed.read().strip().splitlines()
    return child.returncode, taken, usage, lines[-1] if lines else ""


def row(tool, which, taken, usage, projects):
    peak = usage.ru_maxrss
    print(
        f"  {tool:4} {which:8} {taken:8.2f} {usage.ru_utime:8.2f} {usage.ru_stime:8.2f} {peak / 1024:9.1f}"
        f" {taken * 1000 / projects:16.1f} {peak / projects:12.1f}"
    )


def measure(tool, program, case):
    with tempfile.TemporaryDirectory() as folder:
        case.make(folder, case.size, tool)
        for which in ("first", "second"):
            status, taken, usage, last = run([program, *case.words], folder)
            if tool == "tsb" and status == NOT_BUILT:
                print(f"  {tool:4} does not build this yet: status {status}, {last}")
                return
            if status != 0:
                print(f"  {tool:4} {which:8} ended with the status {status}: {last}")
                return
            row(tool, which, taken, usage, case.projects)
            found = count_outputs(folder)
            if found != 2 * case.files:
                print(f"  {tool:4} {which:8} left {found} outputs, not {2 * case.files}")
            if case.make is make_large:
                read, written = count_bytes(folder)
                print(f"       {read / 1e6:.1f} MB read, {written / 1e6:.1f} MB written: {read / taken / 1e6:.1f} and {written / taken / 1e6:.1f} MB/s")


def measure_all(case, tools):
    print(case.title)
    print("  tool run        wall s   user s    sys s  peak MiB  wall ms/project  KiB/project")
    for tool, program in tools:
        measure(tool, program, case)
    print()


def main():
    projects = int(sys.argv[1]) if len(sys.argv) > 1 else 500
    files = int(sys.argv[2]) if len(sys.argv) > 2 else 2000
    large = int(sys.argv[3]) if len(sys.argv) > 3 else 8
    # This word is none of tsb's, so that the call builds the program and does nothing more.
    subprocess.run([os.path.join(plain.TOP, "tsb"), "--nope"], stderr=subprocess.DEVNULL, check=False)
    tools = [("tsb", PROGRAM)]
    tsc = shutil.which("tsc")
    if tsc is None:
        print("tsc is not installed, so that there is nothing beside tsb.\n")
    else:
        version = subprocess.run([tsc, "--version"], capture_output=True, text=True, check=True).stdout.split()[-1]
        print(f"tsc is of version {version}.\n")
        tools.append(("tsc", tsc))
    cases = [
        Case(
            title=f"{projects} projects of {PER_PROJECT} files",
            make=make_workspace,
            size=projects,
            words=["-b", "--verbose"],
            projects=projects,
            files=projects * PER_PROJECT,
        ),
        Case(
            title=f"one project of {files} files",
            make=make_project,
            size=files,
            words=["-b"],
            projects=1,
            files=files,
        ),
        Case(
            title=f"one project of {large} files of almost 4 MiB",
            make=make_large,
            size=large,
            words=["-b"],
            projects=1,
            files=large,
        ),
    ]
    for case in cases:
        measure_all(case, tools)


if __name__ == "__main__":
    main()
