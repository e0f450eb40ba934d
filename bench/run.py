#!/usr/bin/env python3
"""Measures `dump_events` beside other programs that print the same lines, or faces and parsers without printing.

    bench/run.py [--size MEGABYTES] [--instructions | --memory] [--parse-only | --pieces BYTES | --lines | --trees]
                 [--shapes | --real] [PEERS] [KIND ..]
    bench/run.py --small [PEERS]

A table of processor time, in the ratio to the first program: above 1 the other takes so many times as long. The least
of nine runs counts, which take turns. With --instructions it is the instructions for each byte, by callgrind, on
smaller files, beyond those of an empty text. With --memory it is the most memory at a time, in bytes for each byte of
the text, beyond that of an empty text. The last lines have the median and the least ratios of each peer. The files are
those that are named, or those of `inputs.py`, or with --shapes those of `shapes.py`, which are small and stress one
thing each, or with --real those of `real.py`, as people write them. With --parse-only the programs count the events, and print nothing of them. So they do
with --pieces, where the C face and libyaml get the text in pieces of so many bytes, and the Rust parsers from an
iterator of characters; and with --lines, where the C face gets it line by line, libyaml the whole, and the Rust parsers
from an iterator that doesn't say that it has more. With --trees they load the documents as trees. --small takes the
instructions for a text of 48 bytes, whose parser is made, read to its end and freed. A `-` says that the peer refuses
the file.

The peers are the faces for C and Rust of this repository, libyaml and libfyaml where their headers are there, with
--crate SOURCES the Rust crate `saphyr-parser`, whose sources are in that folder, and whose dependencies cargo fetches,
and with --peer PROGRAM any program that prints the same lines of a file. Rust is optimized with LTO.
"""
import argparse
import functools
import os
import re
import shutil
import subprocess
import sys
import tempfile

from inputs import KINDS
from real import REAL
from shapes import SHAPES

ROOT = os.path.dirname(os.path.dirname(os.path.abspath(__file__)))
sys.path.insert(0, f"{ROOT}/tests")
from faces import CRATE, libraries  # noqa: E402
from refused_memory import program  # noqa: E402

RUNS = 9
SMALL = "name: value\nlist: [1, 2, three]\nother: 'text x'\n"
MANIFEST = """
[package]
name = "peer"
version = "0.1.0"
edition = "2021"
[dependencies]
saphyr-parser = {{ path = {sources!r} }}
[[bin]]
name = "dumps"
path = "{root}/rust/examples/dump_events.rs"
[[bin]]
name = "counts"
path = "{root}/bench/count_events.rs"
[profile.release]
lto = true
codegen-units = 1
[workspace]
"""


def compiled(folder, name, words):
    made = f"{folder}/{name}"
    command = ["cc", "-std=c11", "-D_GNU_SOURCE", "-O2", f"-I{CRATE}", f"-I{ROOT}/tests/faces", *words, "-o", made]
    return made if subprocess.run(command, capture_output=True).returncode == 0 else None


def over_crate(folder, name, sources):
    """The folder with the Rust programs over the crate in a folder: this repository's, or the Rust crate."""
    os.mkdir(f"{folder}/{name}")
    with open(f"{folder}/{name}/Cargo.toml", "w", encoding="utf-8") as it:
        it.write(MANIFEST.format(sources=os.path.abspath(sources), root=ROOT))
    target = f"{folder}/{name}/target"
    env = {**os.environ, "CARGO_TARGET_DIR": target}
    subprocess.run(["cargo", "build", "--release", "--quiet"], cwd=f"{folder}/{name}", env=env, check=True)
    return f"{target}/release"


# What the programs do: the C face's, libyaml's, libfyaml's if it has one, and the one in Rust if there is one.
PRINT = "tests/faces/dump_events", "libyaml_dump", "libfyaml_dump", "dumps"
COUNT = "bench/count_events", "libyaml_count", None, "counts"
LOAD = "bench/count_trees", "libyaml_trees", "libfyaml_trees", None


def peers(folder, sources, others, what):
    """The programs by their names, the repository's own first."""
    c_face, libyaml, libfyaml, rust = what
    made = {"dump_events": program("dump_events")} if what is PRINT else {}
    made["C face"] = compiled(folder, "c_face", [f"{ROOT}/{c_face}.c", *libraries()])
    made["Rust face"] = rust and f"{over_crate(folder, 'rust', f'{ROOT}/rust')}/{rust}"
    made["libyaml"] = compiled(folder, "libyaml", [f"{ROOT}/bench/{libyaml}.c", "-lyaml"])
    made["libfyaml"] = libfyaml and compiled(folder, "libfyaml", [f"{ROOT}/bench/{libfyaml}.c", "-lfyaml"])
    made["crate"] = f"{over_crate(folder, 'crate', sources)}/{rust}" if sources and rust else None
    made.update((os.path.basename(path)[:11], os.path.abspath(path)) for path in others)
    return {name: path for name, path in made.items() if path}


def seconds(command):
    """The processor time of a run, or None where it fails."""
    child = subprocess.Popen(command, stdout=subprocess.DEVNULL, stderr=subprocess.DEVNULL)
    _, status, used = os.wait4(child.pid, 0)
    child.returncode = os.waitstatus_to_exitcode(status)
    return used.ru_utime + used.ru_stime if child.returncode == 0 else None


def of_nothing(command):
    """The same run of an empty text."""
    return [command[0], os.devnull, *command[2:]]


def instructions(command):
    """How many instructions a run takes beyond those for an empty text, or None where it fails."""
    found, started = (count_instructions(*words) for words in (command, of_nothing(command)))
    return found and found - started


@functools.lru_cache(maxsize=None)
def count_instructions(*command):
    words = ["valgrind", "--tool=callgrind", "--callgrind-out-file=/dev/null", *command]
    ran = subprocess.run(words, stdout=subprocess.DEVNULL, stderr=subprocess.PIPE)
    found = re.search(rb"Collected : (\d+)", ran.stderr)
    return int(found[1]) if found and ran.returncode == 0 else None


def memory(peak, command):
    """The most memory of a run at a time, in bytes, beyond that for an empty text, or None where it fails."""
    found, started = (count_memory([peak, *words]) for words in (command, of_nothing(command)))
    return None if found is None else found - started


def count_memory(command):
    ran = subprocess.run(command, stdout=subprocess.PIPE, stderr=subprocess.DEVNULL)
    return 1024 * int(ran.stdout) if ran.returncode == 0 else None


def least(programs, words, measure, runs):
    """The least of the runs of each program, which take turns."""
    taken = {name: [] for name in programs}
    for _ in range(runs):
        for name, path in programs.items():
            taken[name].append(measure([path, *words]))
    return {name: None if None in them else min(them) for name, them in taken.items()}


def shown(number):
    return f"{number:12.2f}" if number is not None else f"{'-':>12}"


def report(programs, words, kind, measure):
    """The line of a file, the first of the words. Returns how many times as much each peer takes, if it is measured."""
    size = os.path.getsize(words[0])
    found = least(programs, words, measure, RUNS if measure is seconds else 1)
    own, *others = found.values()
    ratios = [it and own and it / own for it in others]
    numbers = [own, *ratios] if measure is seconds else [it if it is None else it / size for it in found.values()]
    print(f"{kind:26}{size / 1e6:8.2f} MB" + "".join(map(shown, numbers)), flush=True)
    return dict(zip(list(programs)[1:], ratios))


def report_least(rows):
    """The least ratios of each peer over all files, and the median."""
    for peer in next(iter(rows.values())):
        known = sorted((ratios[peer], kind) for kind, ratios in rows.items() if ratios[peer])
        print(f"{peer:12} {known[len(known) // 2][0]:6.2f} times as much as the first is the median of {len(known)}")
        for ratio, kind in known[:5]:
            print(f"{peer:12} {ratio:6.2f} times as much on {kind}")


def report_small(programs, file):
    """The table of a small text: that of a hundred more runs in one process, for each of them."""
    with open(file, "w", encoding="utf-8") as it:
        it.write(SMALL)
    for name, path in programs.items():
        few, more = (count_instructions(path, file, times) for times in ("10", "110"))
        print(f"{name:12}{(more - few) / 100:10.0f}")


def main():
    words = argparse.ArgumentParser(description=__doc__, formatter_class=argparse.RawDescriptionHelpFormatter)
    words.add_argument("--size", type=float, metavar="MEGABYTES")
    words.add_argument("--crate", metavar="SOURCES")
    words.add_argument("--peer", metavar="PROGRAM", action="append", default=[])
    words.add_argument("--instructions", action="store_true")
    words.add_argument("--memory", action="store_true")
    words.add_argument("--shapes", action="store_true")
    words.add_argument("--real", action="store_true")
    words.add_argument("--parse-only", action="store_true")
    words.add_argument("--pieces", type=int, metavar="BYTES")
    words.add_argument("--lines", action="store_true")
    words.add_argument("--trees", action="store_true")
    words.add_argument("--small", action="store_true")
    words.add_argument("kinds", nargs="*", metavar="KIND", choices=[[], *KINDS, *SHAPES, *REAL])
    asked = words.parse_args()
    texts = {**KINDS, **SHAPES, **REAL}
    kinds = asked.kinds or (SHAPES if asked.shapes else REAL if asked.real else KINDS)
    what = LOAD if asked.trees else COUNT if asked.parse_only or asked.pieces or asked.lines or asked.small else PRINT
    if (asked.instructions or asked.small) and not shutil.which("valgrind"):
        sys.exit("there is no valgrind")
    few = 0.06 if asked.shapes else 0.1 if asked.instructions else 4
    size = int(1e6 * (asked.size or few))
    unit, measure = "seconds, and how many times as long", seconds
    if asked.instructions:
        unit, measure = "instructions for each byte", instructions
    with tempfile.TemporaryDirectory() as folder:
        if asked.memory:
            peak = compiled(folder, "peak", [f"{ROOT}/bench/peak.c"])
            unit, measure = "bytes for each byte", functools.partial(memory, peak)
        programs = peers(folder, asked.crate, asked.peer, what)
        if asked.small:
            return report_small(programs, f"{folder}/small")
        print(f"{unit:37}" + "".join(f"{name:>12}" for name in programs))
        rows = {}
        for kind in kinds:
            with open(f"{folder}/{kind}", "w", encoding="utf-8", newline="") as it:
                it.write(texts[kind](size))
            pieces = ["1", "lines" if asked.lines else str(asked.pieces)] if asked.lines or asked.pieces else []
            rows[kind] = report(programs, [f"{folder}/{kind}", *pieces], kind, measure)
        report_least(rows)


if __name__ == "__main__":
    main()
