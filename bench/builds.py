#!/usr/bin/env python3
"""Builds small workspaces with tsb, and holds what it answers and leaves against what is written down here.

    bench/builds.py [PROGRAM]

PROGRAM is the built tsb of this repository where it is not given. Each workspace is built from its sources alone, then
once more, and then, where an earlier state of its sources is told, on what a build of that left. It prints what was wrong
and ends with 1, or says that all was right. It takes a second or two.
"""
import hashlib
import json
import os
import shutil
import subprocess
import sys
import tempfile
from collections import namedtuple

# The import below is to leave no folder beside the scripts.
sys.dont_write_bytecode = True

import plain

PROGRAM = os.path.join(plain.TOP, "crates", "tb_main", "out", "tb_main")
SECONDS = 60

USAGE, NO_MEMORY, OUTSIDE, NOT_BUILT = 64, 70, 74, 75
COMPLAINTS = {
    USAGE: b"tsb: usage\n",
    NO_MEMORY: b"tsb: out of memory\n",
    OUTSIDE: b"tsb: outside fault\n",
    NOT_BUILT: b"tsb: not built yet\n",
}

# `sources` and `earlier` map paths to texts, and `outputs` those that a build writes.
Case = namedtuple("Case", "title sources status report outputs words earlier", defaults=({}, [], None))

# How a run ended, and the files that it left.
Ran = namedtuple("Ran", "status printed complaint files")

SETTINGS = b'{"compilerOptions":{"composite":true,"outDir":"dist"}}\n'
ONE = b"export const a: number = 1;\n"
MORE = b"export const a: number = 1;\nexport const b: number = 2;\n"
TYPES = b"export interface P { x: number; y: string; }\nexport type B = boolean; // the last\n"
BAD_ITEM = b"export const a: number = 1;\nexport const = 2;\n"
NO_TEXT = b"\xff"

# The JavaScript and the declarations of each text that reads, and the finding of each other one.
WRITTEN = {
    ONE: (b"export const a = 1;\n", b"export declare const a: number;\n"),
    MORE: (b"export const a = 1;\nexport const b = 2;\n", b"export declare const a: number;\nexport declare const b: number;\n"),
    TYPES: (b"export {};\n", b"export interface P {\n    x: number;\n    y: string;\n}\nexport type B = boolean;\n"),
    b"": (b"export {};\n", b"export {};\n"),
}
FINDINGS = {BAD_ITEM: [28, "TB1001", "", ""], NO_TEXT: [0, "TB1002", "", ""]}


def digest(text):
    return hashlib.sha256(text).hexdigest()


def spelled(value):
    return json.dumps(value, separators=(",", ":"), sort_keys=True).encode()


def entry(path, text):
    written, finding = WRITTEN.get(text), FINDINGS.get(text)
    return {
        "edges": [],
        "findings": [] if finding is None else [finding],
        "path": path,
        "reach": [],
        "signature": None if written is None else digest(written[1]),
        "version": digest(text),
    }


def built(root, folder, inputs, config=None):
    """What a project writes into this folder, whose config stands in its root where nothing else is said."""
    front = f"{root}/" if root else ""
    config = config or f"{front}tsconfig.json"
    outputs = {}
    for path, text in inputs.items():
        if text in WRITTEN:
            stem = f"{folder}/{path[len(front):-3]}"
            outputs[f"{stem}.js"], outputs[f"{stem}.d.ts"] = WRITTEN[text]
    outputs[f"{folder}/tsconfig.tsbuildinfo"] = spelled(
        {
            "builder": "tb1",
            "files": [entry(path, inputs[path]) for path in sorted(inputs)],
            "options": digest(spelled({"outDir": folder, "paths": [], "project": config, "rootDir": root})),
            "pending": [],
            "project": config,
            "root": root,
        }
    )
    return outputs


def one_project(inputs):
    return {"tsconfig.json": SETTINGS, **inputs}


def referring(paths):
    listed = ",".join(f'{{"path":"{path}"}}' for path in paths)
    return f'{{"compilerOptions":{{"composite":true,"outDir":"dist"}},"references":[{listed}]}}\n'.encode()


def report(*lines):
    return "".join(f"{line}\n" for line in lines).encode()


DONE = report("generation 0: 0 errors in 1 projects")
FAULTY = "generation 0: 1 errors in 0 projects"
BASES = b'{\n// bases\n"extends": ["./base/one.json", "./base/two"],\n"files": ["a.ts"],\n}\n'
PACKAGES = {
    "tsconfig.json": b'{"files":[],"references":[{"path":"p"},{"path":"q"}]}\n',
    "p/tsconfig.json": SETTINGS,
    "p/a.ts": ONE,
    "q/tsconfig.json": referring(["../p"]),
    "q/src/b.ts": TYPES,
    "q/src/c.ts": b"",
}
CASES = [
    Case(
        "one file",
        one_project({"a.ts": ONE}),
        0,
        DONE,
        built("", "dist", {"a.ts": ONE}),
        earlier=one_project({"a.ts": MORE, "b.ts": ONE}),
    ),
    Case("an empty file", one_project({"a.ts": b""}), 0, DONE, built("", "dist", {"a.ts": b""}), ["-b"]),
    Case(
        "bases",
        {
            "tsconfig.json": BASES,
            "a.ts": ONE,
            "base/one.json": b'{"compilerOptions":{"composite":true,"outDir":"../x"}}\n',
            "base/two.json": b'{"compilerOptions":{"outDir":"./y"}}\n',
        },
        0,
        DONE,
        built("", "base/y", {"a.ts": ONE}),
    ),
    Case(
        "three projects",
        PACKAGES,
        0,
        report(
            "project p/tsconfig.json: 1 files, 0 errors",
            "project q/tsconfig.json: 2 files, 0 errors",
            "project tsconfig.json: 0 files, 0 errors",
            "generation 0: 0 errors in 3 projects",
        ),
        {**built("p", "p/dist", {"p/a.ts": ONE}), **built("q", "q/dist", {"q/src/b.ts": TYPES, "q/src/c.ts": b""})},
        ["--verbose"],
        {**PACKAGES, "p/a.ts": TYPES, "q/src/c.ts": MORE},
    ),
    Case(
        "a cycle",
        {"a/tsconfig.json": referring(["../b"]), "a/a.ts": ONE, "b/tsconfig.json": referring(["../a"]), "b/a.ts": ONE},
        4,
        report("a/tsconfig.json(1,1): error TS6202: Project references form a cycle: a/tsconfig.json, b/tsconfig.json.", FAULTY),
        words=["a"],
    ),
    Case(
        "no config",
        one_project({"a.ts": ONE}),
        3,
        report("nope/tsconfig.json(1,1): error TB5002: Config not found.", FAULTY),
        words=["nope"],
    ),
    Case(
        "an unknown option",
        {"tsconfig.json": b'{"compilerOptions":{"composite":true,"outDir":"dist","foo":1}}\n', "a.ts": ONE},
        1,
        report("tsconfig.json(1,1): error TB5005: Config fault 5005: 'foo'.", FAULTY),
        earlier=one_project({"a.ts": ONE}),
    ),
    Case(
        "a file in node_modules",
        {
            "tsconfig.json": b'{"compilerOptions":{"outDir":"dist"},"files":["a.ts","node_modules/a.ts"]}\n',
            "a.ts": ONE,
            "node_modules/a.ts": ONE,
        },
        1,
        report("tsconfig.json(1,1): error TB5010: Config fault 5010: 'node_modules/a.ts'.", FAULTY),
    ),
    Case(
        "no reading",
        one_project({"a.ts": BAD_ITEM, "b.ts": ONE, "c.ts": NO_TEXT}),
        2,
        report(
            "a.ts(2,1): error TB1001: This item has no reading.",
            "c.ts(1,1): error TB1002: The file is not UTF-8.",
            "generation 0: 2 errors in 1 projects",
        ),
        built("", "dist", {"a.ts": BAD_ITEM, "b.ts": ONE, "c.ts": NO_TEXT}),
        earlier=one_project({"a.ts": ONE, "b.ts": TYPES}),
    ),
    Case(
        "a declaration file without a reading",
        one_project({"a.ts": ONE, "b.d.ts": NO_TEXT}),
        2,
        report("b.d.ts(1,1): error TB1002: The file is not UTF-8.", "generation 0: 1 errors in 1 projects"),
        built("", "dist", {"a.ts": ONE, "b.d.ts": NO_TEXT}),
    ),
    Case("a folder in the way", one_project({"a.ts": ONE, "dist/a.js/notes.txt": b""}), OUTSIDE, b""),
    Case("what is not built yet", one_project({"a.ts": ONE, "b.ts": b"export function f(): void {}\n"}), NOT_BUILT, b""),
    Case("a command that is not built yet", one_project({"a.ts": ONE}), NOT_BUILT, b"", words=["--watch"]),
    Case("words that do not go together", one_project({"a.ts": ONE}), USAGE, b"", words=["--clean", "--force"]),
    Case("a word that is no text", one_project({"a.ts": ONE}), USAGE, b"", words=[b"\xff"]),
]


def fill(place, files):
    """Makes the folder anew, with these files."""
    shutil.rmtree(place, ignore_errors=True)
    os.makedirs(place)
    for path, text in files.items():
        at = os.path.join(place, path)
        os.makedirs(os.path.dirname(at), exist_ok=True)
        with open(at, "wb") as out:
            out.write(text)


def read(place):
    files = {}
    for folder, _, names in os.walk(place):
        for name in names:
            at = os.path.join(folder, name)
            with open(at, "rb") as text:
                files[os.path.relpath(at, place)] = text.read()
    return files


def run(program, place, words, surroundings=None):
    """Runs the program in a folder."""
    try:
        ended = subprocess.run(
            [program, *words], cwd=place, env=surroundings, stdin=subprocess.DEVNULL, capture_output=True, timeout=SECONDS, check=False
        )
    except subprocess.TimeoutExpired:
        return Ran("no end", b"", b"", read(place))
    return Ran(ended.returncode, ended.stdout, ended.stderr, read(place))


def clean(case, start):
    """What a run of a case over these files has to be."""
    return Ran(case.status, case.report, COMPLAINTS.get(case.status, b""), {**start, **case.outputs})


def difference(ran, wanted):
    """What a run has that it is not to have."""
    for of, to in zip(ran[:3], wanted[:3]):
        if of != to:
            return f"{of}, and not {to}"
    for path in sorted(ran.files.keys() | wanted.files.keys()):
        if ran.files.get(path) != wanted.files.get(path):
            return f"{path} has {ran.files.get(path)}, and not {wanted.files.get(path)}"
    return None


def starts(program, place, case):
    """The files that a run of a case may start from: by name, the sources, and what an earlier build left."""
    found = {"sources": case.sources}
    if case.earlier is not None:
        fill(place, case.earlier)
        left = run(program, place, case.words).files
        found["earlier"] = {**case.sources, **{path: text for path, text in left.items() if path not in case.earlier}}
    return found


def main():
    program = os.path.abspath(sys.argv[1] if len(sys.argv) > 1 else PROGRAM)
    wrong, runs = [], 0
    with tempfile.TemporaryDirectory() as place:
        for case in CASES:
            for name, start in starts(program, place, case).items():
                fill(place, start)
                for which in "first", "second":
                    runs += 1
                    differs = difference(run(program, place, case.words), clean(case, start))
                    if differs is not None:
                        wrong.append(f"{case.title}, from {name}, the {which} run: {differs}")
    for each in wrong:
        print(each)
    print(f"{runs} runs, {len(wrong)} of them wrong")
    sys.exit(1 if wrong else 0)


if __name__ == "__main__":
    main()
