#!/usr/bin/env python3
"""Builds a made-up project of plain files with tsb, and prints how long that took and how much memory it held.

    bench/plain.py [FILES]

FILES is 2,000 where it is not given. The project is made in a temporary folder and built some times, each time from
nothing and then once more with all outputs in place. The figures are of the whole program: start, reading, building,
writing.
"""
import os
import shutil
import subprocess
import sys
import tempfile
import time

TOP = os.path.dirname(os.path.dirname(os.path.abspath(__file__)))
CONFIG = '{"compilerOptions":{"composite":true,"outDir":"dist"}}\n'
RUNS = 5
PER_FOLDER = 50


def source(number):
    """One plain file of ten items, with a comment before each constant."""
    lines = []
    for item in range(4):
        lines.append(f"// The constant of number {item}.")
        lines.append(f"export const value{item}: number = {number * 10 + item};")
        lines.append(f'export const name{item}: string = "name {number} {item}";')
    lines.append("export interface Point { x: number; y: number; label: string; hidden: boolean; }")
    lines.append("export type Label = string;")
    return "\n".join(lines) + "\n"


def constants(number):
    """Two plain items, whose names have this number."""
    return f'export const value{number}: number = {number};\nexport const name{number}: string = "name {number}";\n'


def make(folder, files):
    with open(os.path.join(folder, "tsconfig.json"), "w", encoding="utf-8") as out:
        out.write(CONFIG)
    size = 0
    for number in range(files):
        inner = os.path.join(folder, "src", f"part{number // PER_FOLDER}")
        os.makedirs(inner, exist_ok=True)
        text = source(number)
        size += len(text)
        with open(os.path.join(inner, f"file{number}.ts"), "w", encoding="utf-8") as out:
            out.write(text)
    return size


def build(folder):
    """Runs tsb there: the seconds that it took, its peak memory in KiB, and what it printed."""
    # What was written before is not to be waited for.
    os.sync()
    begin = time.perf_counter()
    child = subprocess.Popen([os.path.join(TOP, "tsb")], cwd=folder, stdout=subprocess.PIPE, text=True)
    printed = child.stdout.read()
    _, status, usage = os.wait4(child.pid, 0)
    taken = time.perf_counter() - begin
    child.returncode = os.waitstatus_to_exitcode(status)
    if child.returncode != 0:
        sys.exit(f"tsb ended with {child.returncode}: {printed}")
    return taken, usage.ru_maxrss, printed.strip()


def main():
    files = int(sys.argv[1]) if len(sys.argv) > 1 else 2000
    with tempfile.TemporaryDirectory() as warm:
        make(warm, 1)
        build(warm)
    first, second = [], []
    with tempfile.TemporaryDirectory() as folder:
        size = make(folder, files)
        for _ in range(RUNS):
            shutil.rmtree(os.path.join(folder, "dist"), ignore_errors=True)
            first.append(build(folder))
            second.append(build(folder))
    print(first[-1][2])
    print(f"files: {files}, bytes of sources: {size}")
    for name, runs in ("from nothing", first), ("once more", second):
        best = min(taken for taken, _, _ in runs)
        most = max(taken for taken, _, _ in runs)
        print(f"{name}: {best * 1000:.0f} ms to {most * 1000:.0f} ms in {RUNS} runs, at best {best * 1e6 / files:.0f} us a file")
    peak = max(memory for _, memory, _ in first + second)
    print(f"peak memory: {peak} KiB, {peak / files:.1f} KiB a file")


if __name__ == "__main__":
    main()
