#!/usr/bin/env python3
"""Refuses each request for memory of the built programs in turn, and looks at what they answer.

    tests/refused_memory.py [--all | NAME ..]

Runs over the cases of crates/test_cases/data: those of worked.txt, with --all those of each file, or those
whose names are given. Two programs are run on each case, as `rt ci`, or `rt run` in their crates, left them
in out/. The first request is refused, then the second, and so on up to the first run in which none is.
`test_cases refused` judges by itself what stands behind a refused request. `dump_events`, from standard input and
from a file, has to print a beginning of the lines, and to say why it stopped.
"""
import concurrent.futures
import itertools
import os
import re
import shutil
import subprocess
import sys
import tempfile

ROOT = os.path.dirname(os.path.dirname(os.path.abspath(__file__)))
DATA = f"{ROOT}/crates/test_cases/data"
SAID = b"a request was refused\n"
WAYS = 12  # each has a line of `test_cases refused`
ESCAPE = re.compile(r"\\(?:u\{([0-9a-f]+)\}|(.))")
NAMED = {"n": "\n", "r": "\r", "t": "\t"}


def unescaped(line):
    """The text for which a line of a case stands."""
    return ESCAPE.sub(lambda it: chr(int(it[1], 16)) if it[1] else NAMED.get(it[2], it[2]), line)


class Case:
    def __init__(self, block):
        self.block = f"= {block}"
        title, *lines = block.rstrip("\n").split("\n")
        self.keeps_tags = title.endswith(" keep_tags")
        self.name = title[: -len(" keep_tags")] if self.keeps_tags else title
        self.text, self.events, self.fault = "", [], ""
        for line in map(unescaped, lines):
            if line.startswith("< "):
                self.text = line[2:]
            elif line.startswith("> "):
                event = line[2:].rpartition(" @ ")[0]
                self.events.append("+DOC" if event == "+DOC ---" else event)
            else:
                self.fault = line[2:]


def cases_of(file):
    with open(f"{DATA}/{file}", encoding="utf-8", newline="\n") as it:
        return [Case(block) for block in re.split("^= ", it.read(), flags=re.M)[1:]]


def program(name):
    path = f"{ROOT}/crates/{name}/out/{name}"
    if not os.path.isfile(path):
        sys.exit(f"{path} is not built: run rt ci at the top of the repository, or rt run in the crate")
    return path


def refuser(folder):
    """The library that refuses, compiled by whatever compiler of C is there, or by the kit's."""
    made, kit = f"{folder}/refuse_request.so", os.path.realpath(shutil.which("rt") or "")
    kits = os.path.join(os.path.dirname(os.path.dirname(kit)), "toolchain", "bin", "clang")
    for compiler in filter(None, (shutil.which("cc"), shutil.which("clang"), kits)):
        words = [compiler, "-O2", "-shared", "-fPIC", "-nostdlib", "-o", made, f"{ROOT}/tests/refuse_request.c"]
        if os.path.isfile(compiler) and subprocess.run(words).returncode == 0:
            return made
    sys.exit("there is no compiler of C")


class Run:
    """One run of a program, in which the request of that number is refused."""

    def __init__(self, library, number, words, text):
        env = {"LD_PRELOAD": library, "REFUSED_REQUEST": str(number)}
        ran = subprocess.run(words, input=text.encode(), capture_output=True, env=env, timeout=60, close_fds=False)
        self.status, self.out = ran.returncode, ran.stdout.decode()
        self.err = ran.stderr.replace(SAID, b"").decode()
        self.was_refused = SAID in ran.stderr


def judge_ways(run):
    """What is wrong with a run of `test_cases refused`. It may find no memory itself, for the case or its comparison."""
    refused = run.out.count(": refused\n")
    if run.status == 0 and refused == run.was_refused and run.out.count("\n") == WAYS:
        return None
    if run.status == 2 and run.was_refused:
        return None
    return f"status {run.status}, {refused} refused: {run.err.strip()}"


def judge_lines(case, name, run):
    """What is wrong with a run of `dump_events`."""
    lines = "".join(f"{event}\n" for event in case.events)
    fault = f"{case.fault}\n" if case.fault else ""
    if (run.status, run.out, run.err) == (int(bool(fault)), lines, fault):
        return None
    if run.was_refused and run.status == 1:
        if run.err == "out of memory\n" and lines.startswith(run.out) and run.out[-1:] in ("", "\n"):
            return None
        if run.err == f"dump_events: can't read {name}\n" and not run.out:
            return None
    return f"status {run.status}, {run.out!r}, {run.err.strip()}"


def sweep(library, words, text, judge):
    """Refuses each request in turn. How many there are, and what is wrong at the first that is not as it should be."""
    for number in itertools.count(1):
        run = Run(library, number, words, text)
        wrong = judge(run)
        if wrong or not run.was_refused:
            return number - 1, wrong and f"request {number}: {wrong}"


def check(library, folder, case):
    """How many requests of a case were refused, and what was wrong."""
    ways = [program("test_cases"), "refused"]
    sweeps = [sweep(library, ways, case.block, judge_ways)]
    if not case.keeps_tags:
        dump, file = program("dump_events"), f"{folder}/{abs(hash(case.block))}"
        with open(file, "w", encoding="utf-8", newline="") as it:
            it.write(case.text)
        sweeps.append(sweep(library, [dump], case.text, lambda run: judge_lines(case, "-", run)))
        sweeps.append(sweep(library, [dump, file], "", lambda run: judge_lines(case, file, run)))
    return sum(count for count, _ in sweeps), [wrong for _, wrong in sweeps if wrong]


def main(words):
    files = sorted(os.listdir(DATA)) if "--all" in words or words else ["worked.txt"]
    cases = [case for file in files for case in cases_of(file)]
    if words and "--all" not in words:
        cases = [case for case in cases if case.name in words]
    refused, failed = 0, 0
    with tempfile.TemporaryDirectory() as folder, concurrent.futures.ThreadPoolExecutor(os.cpu_count()) as pool:
        library = refuser(folder)
        for case, (count, wrong) in zip(cases, pool.map(lambda it: check(library, folder, it), cases)):
            refused, failed = refused + count, failed + bool(wrong)
            for it in wrong:
                print(f"{case.name}, {it}")
    print(f"refused memory: {len(cases) - failed} of {len(cases)} cases, {refused} requests refused")
    return 1 if failed or not cases else 0


if __name__ == "__main__":
    sys.exit(main(sys.argv[1:]))
