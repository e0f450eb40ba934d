#!/usr/bin/env python3
"""Tests the faces for C and for Rust of the library of crates/saphyr_parser_c, which `rt lib` left in its out/, or makes it.

    tests/faces.py

Builds the C programs of tests/faces and the crate of rust/, and runs each case of crates/test_cases/data through
both: their events and places are to be the case's, and its lines those that `dump_events` prints. Cut at lines, before
their ends or at bytes, each event has to be there when the rule of tests/prompt.py says, and line by line each fault.
In the texts of tests/findings.py both find what `check_yaml` finds. The C face is misused, each request for memory over
the worked texts and those is refused in turn, and where valgrind is there, it looks for leaks. Where there is no
compiler of C or no cargo, it says so, tests nothing and fails, unless the variable SKIP_MISSING is set.
SAPHYR_PARSER_LIB may name another folder with the library, as an absolute path.
"""
import concurrent.futures
import os
import re
import resource
import shutil
import subprocess
import sys
import tempfile
import types

import findings
import prompt
from refused_memory import DATA, ROOT, cases_of, judge_lines, program, refuser, sweep, unescaped

CRATE = f"{ROOT}/crates/saphyr_parser_c"
PROGRAMS = ("cases", "dump_events", "faults", "findings", "misuse", "pieces", "refusals", "trees")
PIECES = (1, 2, 3, 4096, "cuts")  # bytes, or two pieces, cut at each place
CUTS = ("lines", "ends", "odd", "even", "bytes")  # the pieces with which an event has to be there in time
LONG_NODES = (  # each of more bytes than are read again at once
    "a: |\n" + "  x\n" * 300,
    "a:\n" + "  x\n" * 300,
    "'" + "a b\n" * 300 + "'\n",
    "[" + "a,\n" * 300 + "]\n",
    "%A b\n" * 300 + "--- a\n",
    "# a\n" * 300 + "- a\n",
)
REFUSED_PIECES = (0, 2, 4096)  # 0: the whole text
HOW = ["-std=c11", "-D_GNU_SOURCE", "-O2", "-Wall", "-Wextra", f"-I{CRATE}"]
WRAP = [f"-Wl,--wrap={name}" for name in ("malloc", "realloc", "free")]
WRAPPED = ("findings", "refusals", "trees")  # these refuse by functions of their own
VALGRIND = ["valgrind", "-q", "--error-exitcode=99", "--leak-check=full", "--errors-for-leak-kinds=definite,indirect"]
FAILED = []


def fail(said):
    """Says what is wrong, of the first twenty."""
    FAILED.append(said)
    if len(FAILED) <= 20:
        print(said)


def without(tested, lacking):
    """Says that this is not tested, since there are no such programs. Returns the status, which is 0 if that was asked
    for."""
    print(f"{tested}: not tested, since there is no {' and no '.join(lacking)}")
    return 0 if os.environ.get("SKIP_MISSING") else 1


def libraries():
    """The proved library, and the kit's for memory."""
    folder = os.environ.get("SAPHYR_PARSER_LIB") or f"{CRATE}/out"
    kit = os.path.dirname(os.path.dirname(os.path.realpath(shutil.which("rt") or "")))
    if folder == f"{CRATE}/out" and not os.path.isfile(f"{folder}/libsaphyr_parser_c.a"):
        make_library(kit)
    of_kit = [f"{it}/liblibc_c.a" for it in (folder, f"{kit}/c")]
    return [f"{folder}/libsaphyr_parser_c.a", next(filter(os.path.isfile, of_kit), of_kit[0])]


def make_library(kit):
    """Compiles the library over those that `rt ci` left, in a minute or two, which `rt lib` would prove again."""
    os.makedirs(f"{CRATE}/out", exist_ok=True)
    words = [f"{kit}/bin/rattle", "build", *library_words(kit), "--incremental", "out/incremental"]
    words += ["-o", "out/libsaphyr_parser_c.a"]
    if subprocess.run(words, cwd=CRATE, capture_output=True).returncode:
        call(["rt", "lib"], CRATE)


def library_words(kit):
    """How the compiler `rattle` is told what the library stands on: the crates of crates.txt, and the kit's."""
    with open(f"{ROOT}/crates.txt", encoding="utf-8") as it:
        lines = [line.partition(":") for line in it if not line.startswith("#")]
    named = {before.split()[0]: behind.split() for before, _, behind in lines if before.strip()}
    own = {name: f"{ROOT}/crates/{name}/out/rlib" for name in named}
    words = ["--crate-name", "saphyr_parser_c", "--crate-type", "staticlib", "src/lib.rt"]
    for name in ["std", *named["saphyr_parser_c"]]:
        words += ["--extern", f"{name}={own.get(name, f'{kit}/rlibs')}/{name}.rlib"]
    for folder in (f"{kit}/rlibs", *filter(os.path.isdir, own.values())):
        words += ["-L", f"dependency={folder}"]
    words += ["--antt-project", f"{kit}/rattle/logic/antt-project.json", "--logic-built", f"{kit}/logic_built"]
    return [*words, "--links", "saphyr_parser_c=", "--toolchain", f"{kit}/toolchain", "--backend", "llvm"]


def built(folder, compiler):
    """The C programs and the Rust example, by their names."""
    call([compiler, "-std=c99", "-pedantic-errors", "-fsyntax-only", f"{CRATE}/saphyr_parser.h"], ROOT)
    made, to_link = {}, libraries()
    for name in PROGRAMS:
        made[name] = f"{folder}/{name}"
        wrap = WRAP if name in WRAPPED else []
        call([compiler, *HOW, *wrap, f"{ROOT}/tests/faces/{name}.c", *to_link, "-o", made[name]], ROOT)
    cargo("build", "--example", "dump_events")
    made["rust"] = os.environ.get("CARGO_TARGET_DIR", f"{ROOT}/rust/target") + "/release/examples/dump_events"
    return made


def call(words, folder):
    """Runs a command, and ends with what it says where it fails."""
    ran = subprocess.run(words, cwd=folder, capture_output=True)
    if ran.returncode:
        sys.exit(f"{' '.join(words)} in {folder} fails:\n{ran.stdout.decode()}{ran.stderr.decode()}")


def cargo(*words):
    call(["cargo", *words, "--release", "--offline", "--quiet"], f"{ROOT}/rust")


def listed(case):
    """The lines of a case, as `cases` is to print them."""
    lines = case.block.rstrip("\n").split("\n")[2:]
    return "".join(f"{unescaped(line)}\n" for line in lines).encode()


def framed(case):
    text = case.text.encode()
    return b"%d %d\n" % (case.keeps_tags, len(text)) + text


def check_lists(made, cases):
    """Each case through C in one process, with its places."""
    ran = subprocess.run([made["cases"]], input=b"".join(map(framed, cases)), capture_output=True)
    answers = ran.stdout.split(b"\xff")[:-1]
    if ran.returncode or len(answers) != len(cases):
        fail(f"C stopped with status {ran.returncode} behind {len(answers)} of {len(cases)} cases")
    for case, answer in zip(cases, answers):
        if answer != listed(case):
            fail(f"{case.name}, in C: {answer.decode()!r}")


def check_pieces(made, count, cases):
    """Each case through C in one process, in pieces of so many bytes, or in two."""
    texts = b"".join(map(framed, cases))
    answers = subprocess.run([made["pieces"], str(count)], input=texts, capture_output=True).stdout.split(b"\xff")[:-1]
    if len(answers) != len(cases):
        fail(f"C in pieces of {count} stopped behind {len(answers)} of {len(cases)} cases")
    for case, answer in zip(cases, answers):
        if answer != listed(case):
            fail(f"{case.name}, in C in pieces of {count}: {answer.decode()!r}")


def check_prompt(made, how, cases):
    """Each case through C in one process, in pieces that are cut so: each event is there when it is due."""
    texts = b"".join(map(framed, cases))
    answers = subprocess.run([made["pieces"], how], input=texts, capture_output=True).stdout.split(b"\xff")[:-1]
    if len(answers) != len(cases):
        fail(f"C by {how} stopped behind {len(answers)} of {len(cases)} cases")
    for case, answer in zip(cases, answers):
        lines = answer.decode().split("\n")
        if "\n".join(line for line in lines if not line.startswith("~")).encode() != listed(case):
            fail(f"{case.name}, in C by {how}: {answer.decode()!r}")
        found = prompt.late(case, lines)
        if found:
            fail(f"{case.name}, in C by {how}: event {found[0]} is not there behind {found[1]} bytes")


def page():
    with open(f"{ROOT}/docs/FACES.md", encoding="utf-8") as it:
        return it.read()


def check_table(made):
    """The table of docs/FACES.md holds line by line and byte by byte."""
    rows = list(prompt.table(page()))
    text = prompt.table_text(rows)
    for how in ("lines", "bytes"):
        framed_text = b"0 %d\n" % len(text) + text
        said = subprocess.run([made["pieces"], how], input=framed_text, capture_output=True).stdout.decode("latin-1")
        for (line, wanted), brought in zip(rows, prompt.table_answers(rows, said.split("\n"))):
            if wanted != brought:
                fail(f"the table of FACES.md by {how}: {line!r} brings {brought}")


def check_in_time(made, how, text):
    """Each event of a text comes in time. Returns what `pieces` printed."""
    framed_text = b"0 %d\n" % len(text) + text.encode()
    said = subprocess.run([made["pieces"], how], input=framed_text, capture_output=True).stdout.decode("latin-1")
    found = prompt.late(types.SimpleNamespace(text=text, block=said), said.split("\n"))
    if found:
        fail(f"in C by {how}, of {text[:20]!r}: event {found[0]} is not there behind {found[1]} bytes")
    return said


def check_anchors(made):
    """Line by line each event of a document of many anchors comes in time, and each alias means the latest anchor."""
    names = [f"a{number % 1500}" for number in range(2000)]
    latest = {name: number for number, name in enumerate(names, 1)}
    text = "".join([*(f"- &{name} x\n" for name in names), *(f"- *{name}\n" for name in names)])
    said = check_in_time(made, "lines", text)
    if re.findall("^> =ALI (.*) @", said, re.M) != [f"*{latest[name]}" for name in names]:
        fail("in C line by line an alias means an anchor that is not the latest")


def check_markers(made):
    """The line of a marker alone brings all before it, also where much waits."""
    for node in LONG_NODES:
        for marker in ("...", "---", "...\r"):
            for how in CUTS:
                check_in_time(made, how, f"{node}{marker}\nb: c\n---\n")


def late_kinds(made, texts):
    """Of each text with its `keep_tags` of which kind its late fault is, or None."""
    frames = b"".join(b"%d %d\n" % (keeps_tags, len(text)) + text for keeps_tags, text in texts)
    answers = subprocess.run([made["faults"]], input=frames, capture_output=True).stdout.split(b"\xff")[:-1]
    if len(answers) != len(texts):
        fail(f"faults stopped behind {len(answers)} of {len(texts)} texts")
    return [prompt.late_kind(text, answer.decode()) for (_, text), answer in zip(texts, answers)]


def check_faults(made, cases, worked):
    """The fault of each refused case, and of each worked text that is cut at a line, comes in time, but for the kinds
    that docs/FACES.md lists. The text of each kind there is late, and no shorter one is."""
    texts = [(case.keeps_tags, case.text.encode()) for case in cases if case.fault]
    for case in worked:
        lines = case.text.encode().splitlines(keepends=True)
        texts += [(case.keeps_tags, b"".join(lines[:count])) for count in range(1, len(lines))]
    listed_texts = dict(prompt.late_texts(page()))
    for (_, text), kind in zip(texts, late_kinds(made, texts)):
        if kind and kind not in listed_texts:
            fail(f"line by line the fault of {text!r} comes late, and FACES.md lists no such text")
    for kind, text in listed_texts.items():
        shorter = [(False, it) for it in prompt.shorter_texts(text)]
        *others, own = late_kinds(made, [*shorter, (False, text)])
        if own != kind or kind in others:
            fail(f"FACES.md: {text!r} is not the smallest text of which the fault comes late: {kind}")


def check_trees(made, cases):
    """Each case's trees through C in one process, beside its events, also where requests are refused; and misuse."""
    ran = subprocess.run([made["trees"]], input=b"".join(map(framed, cases)), capture_output=True)
    *wrong, count = ran.stdout.decode().splitlines() or [""]
    if wrong or ran.returncode or not count.endswith(" refused"):
        fail(f"trees, status {ran.returncode}: {wrong[:9] or count}")


def check_findings(made, folder, pool):
    """What is found in texts, in C and in Rust, with each options. How many requests were refused in C."""
    asked = [(options, text) for options in findings.OPTIONS for text in findings.texts()]
    wanted = list(pool.map(lambda it: findings.found_by(program("check_yaml"), *it), asked))
    frames = [options.framed(text) for options, text in asked]
    ran = subprocess.run([made["findings"]], input=b"".join(frames), capture_output=True)
    *answers, last = ran.stdout.split(b"\xff")
    if ran.returncode or len(answers) != len(asked) or not last.strip().isdigit():
        fail(f"findings, status {ran.returncode}, behind {len(answers)} of {len(asked)} texts: {last.decode()}")
    for (options, text), one, answer in zip(asked, wanted, answers):
        if one != answer:
            fail(f"{options} of {text!r}, in C: {answer.decode()!r}, and not {one.decode()!r}")
    with open(f"{folder}/wanted", "wb") as it:
        it.writelines(frame.replace(b"\n", b" %d\n" % len(one), 1) + one for frame, one in zip(frames, wanted))
    os.environ["FINDINGS"] = f"{folder}/wanted"
    cargo("test", "--test", "findings")
    return int(last) if last.strip().isdigit() else 0


def check_lines(case):
    """What the program `dump_events` prints of a case are its lines."""
    ran = subprocess.run([program("dump_events")], input=case.text.encode(), capture_output=True, close_fds=False)
    lines = "".join(f"{event}\n" for event in case.events).encode()
    fault = f"{case.fault}\n".encode() if case.fault else b""
    if not case.keeps_tags and (ran.stdout, ran.stderr) != (lines, fault):
        fail(f"{case.name}, by dump_events: {ran.stdout!r} {ran.stderr!r}")


def judge_c(case, run):
    """What is wrong with a run of the C program that prints events."""
    return judge_lines(case, "-", run)


def judge_rust(case, run):
    """What is wrong with a run of the Rust example, which ends as Rust programs do where memory runs out."""
    wrong = judge_c(case, run)
    lines = "".join(f"{event}\n" for event in case.events)
    if wrong and run.was_refused and run.status in (-6, 1) and lines.startswith(run.out):
        return None if re.search("memory allocation of|out of memory|can't write", run.err) else wrong
    return wrong


def refuse_each(made, library, case):
    """Refuses each request for memory of a case in turn. How many there were."""
    refused = 0
    for name, judge in (("dump_events", judge_c), ("rust", judge_rust)):
        count, wrong = sweep(library, [made[name]], case.text, lambda run: judge(case, run))
        refused += count
        if wrong:
            fail(f"{case.name}, {name}, {wrong}")
    return refused


def refuse_in_process(made, count, cases):
    """Refuses each request in turn of texts whose events are peeked, with clones, in pieces of so many bytes."""
    ran = subprocess.run([made["refusals"], str(count)], input=b"".join(map(framed, cases)), capture_output=True)
    *wrong, refused = ran.stdout.decode().splitlines() or [""]
    if wrong or ran.returncode or not refused.isdigit():
        fail(f"refusals {count}, status {ran.returncode}: {wrong or refused}")
        return 0
    return int(refused)


def look_for_leaks(made, cases):
    """Runs the programs under valgrind."""
    texts = [case for case in cases if case.name in ("worked 001", "worked 004", "worked 043")]
    runs = [("misuse", b""), *((name, b"".join(map(framed, cases))) for name in ("cases", "pieces", "trees"))]
    runs += [(name, case.text.encode()) for name in ("dump_events", "rust") for case in texts]
    runs.append(("findings", b"".join(findings.Options().framed(text) for text in findings.OTHERS[:9])))
    for name, text in runs:
        ran = subprocess.run([*VALGRIND, made[name]], input=text, capture_output=True)
        if ran.returncode not in (0, 1):
            fail(f"{name} under valgrind: {ran.stderr.decode()}")


def main():
    if sys.argv[1:]:
        print(__doc__)
        return 0 if sys.argv[1:] == ["--help"] else 2
    compiler = shutil.which("cc") or shutil.which("clang")
    lacking = [name for name, found in (("compiler of C", compiler), ("cargo", shutil.which("cargo"))) if not found]
    if lacking:
        return without("faces", lacking)
    resource.setrlimit(resource.RLIMIT_CORE, (0, 0))
    os.environ["RUST_BACKTRACE"] = "0"
    cases = [case for file in sorted(os.listdir(DATA)) for case in cases_of(file)]
    worked = cases_of("worked.txt")
    with tempfile.TemporaryDirectory() as folder, concurrent.futures.ThreadPoolExecutor(os.cpu_count()) as pool:
        made = built(folder, compiler)
        check_lists(made, cases)
        check_trees(made, cases)
        list(pool.map(lambda count: check_pieces(made, count, cases), PIECES))
        list(pool.map(lambda how: check_prompt(made, how, cases), CUTS))
        check_table(made)
        check_anchors(made)
        check_markers(made)
        check_faults(made, cases, worked)
        list(pool.map(check_lines, (case for case in cases if not case.name.startswith("cut "))))
        cargo("test")
        said = subprocess.run([made["misuse"]], capture_output=True).stdout.decode()
        if said:
            fail(said)
        library = refuser(folder)
        swept = [case for case in worked if not case.keeps_tags]
        refused = sum(pool.map(lambda case: refuse_each(made, library, case), swept))
        refused += sum(pool.map(lambda count: refuse_in_process(made, count, worked), REFUSED_PIECES))
        refused += check_findings(made, folder, pool)
        leaks = "no valgrind"
        if shutil.which("valgrind"):
            look_for_leaks(made, worked)
            leaks = "no leak"
    print(f"faces: {len(cases)} texts, {refused} requests refused, {leaks}; {len(FAILED)} answered otherwise")
    return 1 if FAILED else 0


if __name__ == "__main__":
    sys.exit(main())
