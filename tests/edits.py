#!/usr/bin/env python3
"""Runs each wrong body on the text that shows it, without a proof: is the answer still wrong, and wrong as told?

    tests/edits.py [--jobs N] [--rows] [CRATE | EDIT]..

A row of tests/edits.txt has an edit of crates/*/must-fail, the program and the call that show it, a text, and the wrong
answer. The script makes a copy of the tree for each of N jobs (2), puts the edit in, and runs the program on the text
by `rt try`. The unchanged tree answers the same texts; its answers are kept in out/edits.json. With --rows nothing is
run: each edit has a row, each row an edit and an answer, and each old text is in its file once.

- The program of `run` is `dump_events` or `check_yaml`, with its arguments, or one of tests/edits, which makes the
  calls that follow, prints what each answers, and then the events that are left. A row with `seen` in place of it is
  counted, and not run.
- In the text `\\n`, `\\r`, `\\t`, `\\\\` and `\\u{HEX}` stand for characters. `1,010 times` before a part repeats it.
  Parts follow each other; `piece_calls` gets each as a piece.
- A line of `more` comes more often than it should, and one of `fewer` less often. A line is told whole, or an event
  without its places. `status=0` is the line of the exit status.
"""

import argparse
import collections
import concurrent.futures
import hashlib
import json
import pathlib
import queue
import re
import shutil
import subprocess
import sys
import tempfile

from against_crate import ROOT, unescaped

ROWS, PROGRAMS, KEPT = ROOT / "tests/edits.txt", ROOT / "tests/edits", ROOT / "out/edits.json"
# What the programs of tests/edits use, as in crates.txt.
USED = "test_events yaml_tree saphyr_parser event_laws saphyr_scanner saphyr_scalar saphyr_input"
USES = {
    "input_calls": "saphyr_input",
    "parser_calls": USED,
    "piece_calls": f"saphyr_pieces saphyr_machine {USED}",
    "tree_calls": USED,
}
PROVED_PROGRAMS = ("dump_events", "check_yaml")
CODE = re.compile(r"(?:([\d,]+) times )?`([^`]*)`")

KEYS = ("run", "seen", "text", "more", "fewer", "gives")

Row = collections.namedtuple("Row", ("crate", "edit", *KEYS))


def rows():
    """The rows, in their order. In each the lines of a key are one text."""
    crate = None
    for block in ROWS.read_text(encoding="utf-8").split("\n\n"):
        lines = [it.partition(": ") for it in block.strip("\n").split("\n") if not it.startswith("#")]
        want = {key: "\n".join(value for it, _, value in lines if it == key) for key, _, _ in lines}
        crate = want.pop("crate", crate)
        if want:
            yield Row(crate, want.pop("edit"), *(want.pop(key, "") for key in KEYS))
        if want:
            raise ValueError(f"{ROWS} has another key: {', '.join(want)}")


def edits():
    """The files of the edits, by crate and name."""
    return {(it.parts[-3], it.stem): it for it in sorted(ROOT.glob("crates/*/must-fail/*.edit"))}


def pairs(edit):
    """Yields the file, the old and the new text of each change of an edit."""
    file = old = None
    for line in edit.read_text(encoding="utf-8").split("\n"):
        word, _, rest = line.partition(": ")
        if word == "file":
            file = rest
        elif word == "old":
            old = rest
        elif word == "new":
            yield file, old, rest


def changed(tree, crate, edit):
    """Puts an edit into a tree, and returns the texts of its files before."""
    before = {}
    for file, old, new in pairs(edit):
        path = tree / "crates" / crate / file
        text = path.read_text(encoding="utf-8")
        before.setdefault(path, text)
        if text.count(old) != 1:
            raise ValueError(f"{file} has {text.count(old)} times: {old}")
        path.write_text(text.replace(old, new), encoding="utf-8")
    return before


def asked(row):
    """The program of a row, its arguments and its input, or None if words say what shows the edit."""
    if row.seen:
        return None
    words = row.run.split(" ")
    parts = [unescaped(it[2]) * int((it[1] or "1").replace(",", "")) for it in CODE.finditer(row.text)]
    if words[0] in PROVED_PROGRAMS:
        return words[0], tuple(words[1:]), "".join(parts)
    between = "\1" if words[0] == "piece_calls" else ""
    return words[0], (), " ".join(words[1:]) + "\n" + between.join(parts)


def copied(folder):
    """A copy of the tree, with the programs of tests/edits as crates."""
    tree = pathlib.Path(folder)
    shutil.copytree(ROOT / "crates", tree / "crates", ignore=shutil.ignore_patterns("out", "must-fail"))
    lines = (ROOT / "crates.txt").read_text(encoding="utf-8")
    for name, used in USES.items():
        (tree / "crates" / name / "src").mkdir(parents=True)
        shutil.copy(PROGRAMS / f"{name}.rt.in", tree / "crates" / name / "src/main.rt")
        lines += f"{name}: {used}\n"
    (tree / "crates.txt").write_text(lines, encoding="utf-8")
    shutil.copy(ROOT / "HANDLES", tree)
    return tree


def answers(tree, program, questions):
    """The lines that a program of a tree prints for each arguments and input, and that of its status."""
    with tempfile.TemporaryDirectory() as folder:
        words = ["rt", "try", "--steps", "1", "--cases", folder]
        for number, (arguments, text) in enumerate(questions):
            pathlib.Path(folder, f"q{number}").write_bytes(text.encode())
            if arguments:
                pathlib.Path(folder, f"q{number}.args").write_text("".join(f"{it}\n" for it in arguments))
        for file in sorted({it for arguments, _ in questions for it in arguments}):
            if (tree / "crates" / program / "data" / file).is_file():
                words += ["--data", f"{file}=data/{file}"]
        how = {"stdin": subprocess.DEVNULL, "stdout": subprocess.PIPE, "stderr": subprocess.STDOUT}
        said = subprocess.run(words, cwd=tree / "crates" / program, **how).stdout.decode(errors="replace")
    found = re.findall(r"((?:.*\n)*?)case=q(\d+) (run=\w+ ?(?:status=\d+)?).*\n", said)
    lines = {int(number): [*want.removeprefix(f"== q{number}\n").split("\n")[:-1], run] for want, number, run in found}
    if len(lines) != len(questions):
        raise ValueError(f"{program} isn't built:\n{said[-2000:]}")
    return [[it.replace("run=ended ", "") for it in lines[number]] for number in range(len(questions))]


def right_answers(questions):
    """What the unchanged tree answers, as kept from an earlier run or from a new one."""
    paths = [*ROOT.glob("crates/*/src/**/*.rt"), *PROGRAMS.glob("*.rt.in"), ROOT / "crates.txt"]
    sums = hashlib.sha256(b"".join(it.read_bytes() for it in sorted(paths))).hexdigest()
    kept = json.loads(KEPT.read_text()) if KEPT.is_file() else {}
    known = kept.get("answers", {}) if kept.get("tree") == sums else {}
    wanted = collections.defaultdict(list)
    for question in questions:
        if repr(question) not in known and question[1:] not in wanted[question[0]]:
            wanted[question[0]].append(question[1:])
    with tempfile.TemporaryDirectory() as folder:
        tree = copied(folder)
        for program, asking in wanted.items():
            for question, lines in zip(asking, answers(tree, program, asking) if asking else []):
                known[repr((program, *question))] = lines
            KEPT.parent.mkdir(exist_ok=True)
            KEPT.write_text(json.dumps({"tree": sums, "answers": known}))
    return [known[repr(it)] for it in questions]


def often(lines, want):
    """How often a line comes, whole or as an event without its places."""
    return sum(want in (it, re.sub(r"^> (.*) @ [\d, ]+$", r"\1", it)) for it in lines)


def judged(row, right, wrong):
    """What is wrong with the answer of a wrong body, or None: it has to be wrong, and as told."""
    if wrong == right:
        return "gives the right answer"
    if row.fewer == "every line":
        return None if not wrong[:-1] and right[:-1] else "prints something"
    want = [(False, it[2]) for it in CODE.finditer(row.more)] + [(True, it[2]) for it in CODE.finditer(row.fewer)]
    for is_less, line in want:
        here, there = often(wrong, line), often(right, line)
        if not (here < there if is_less else here > there):
            return f"another wrong answer than told: {line!r} comes {here} times, and {there} times where all is right"
    return None


def tried(trees, row, edit, right):
    """Runs an edit on its text in a free tree, and says what is wrong, or None."""
    tree, question = trees.get(), asked(row)
    before = {}
    try:
        before = changed(tree, row.crate, edit)
        wrong = answers(tree, question[0], [question[1:]])[0]
        said = judged(row, right, wrong)
        return said and "\n  ".join([said, "right:", *right, "wrong:", *wrong])
    except ValueError as error:
        return str(error)
    finally:
        for path, text in before.items():
            path.write_text(text, encoding="utf-8")
        trees.put(tree)


def check_rows(table, known):
    """What is wrong with the rows and the files of the edits."""
    names = [(it.crate, it.edit) for it in table]
    yield from (f"{crate}, {edit}: no row" for crate, edit in known if (crate, edit) not in names)
    yield from (f"{crate}, {edit}: no such edit" for crate, edit in names if (crate, edit) not in known)
    for row in table:
        program = row.run.split(" ")[0]
        if not (row.seen and row.gives or program in (*PROVED_PROGRAMS, *USES) and row.more + row.fewer):
            yield f"{row.crate}, {row.edit}: its row has no program of the script, or no wrong answer"
    counts = collections.Counter(names)
    yield from (f"{crate}, {edit}: {count} rows" for (crate, edit), count in counts.items() if count > 1)
    for (crate, edit), path in known.items():
        texts = {}
        for file, old, new in pairs(path):
            text = texts.get(file) or (ROOT / "crates" / crate / file).read_text(encoding="utf-8")
            if text.count(old) != 1:
                yield f"{crate}, {edit}: {file} has {text.count(old)} times: {old}"
            texts[file] = text.replace(old, new)


def run(table, known, jobs):
    """Runs the edits of these rows, and returns how many failed."""
    failed, trees = 0, queue.Queue()
    right = right_answers([asked(row) for row in table])
    with tempfile.TemporaryDirectory() as folder, concurrent.futures.ThreadPoolExecutor(jobs) as pool:
        for number in range(jobs):
            trees.put(copied(f"{folder}/{number}"))
        begun = {
            pool.submit(tried, trees, row, known[row.crate, row.edit], lines): row for row, lines in zip(table, right)
        }
        for done in concurrent.futures.as_completed(begun):
            row, said = begun[done], done.result()
            failed += said is not None
            print(f"{row.crate}, {row.edit}: {'shown' if said is None else said}", flush=True)
    return failed


def main():
    arguments = argparse.ArgumentParser(description=__doc__.split("\n", 1)[0])
    arguments.add_argument("--jobs", type=int, default=2)
    arguments.add_argument("--rows", action="store_true")
    arguments.add_argument("names", nargs="*", metavar="CRATE|EDIT")
    given, table, known = arguments.parse_args(), list(rows()), edits()
    faults = list(check_rows(table, known))
    print(*faults, sep="\n", end="\n" if faults else "")
    chosen = [it for it in table if not given.names or {it.crate, it.edit} & set(given.names)]
    chosen = [it for it in chosen if (it.crate, it.edit) in known]
    shown = [it for it in chosen if asked(it)]
    for row in chosen:
        if not asked(row):
            print(f"{row.crate}, {row.edit}: not run, but seen by {row.seen}")
    failed = len(faults) + (0 if given.rows else run(shown, known, given.jobs))
    print(f"edits: {len(chosen)} rows, {len(chosen) - len(shown)} of them told in words; {failed} failed")
    return 1 if failed or not chosen else 0


if __name__ == "__main__":
    sys.exit(main())
