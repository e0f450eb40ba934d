#!/usr/bin/env python3
"""Looks for texts that the C face reads wrong, among random changes of the texts of the cases.

    tests/fuzz.py [--runs N] [--seed S] [--against PROGRAM]

Makes N texts (20,000) from the seed S (1), and reads them by tests/faces/fuzz.c, which says what has to hold. Where
clang has libFuzzer, that tries N texts more, which need not be UTF-8. With PROGRAM, a program over the Rust crate as
`tests/against_crate.py` wants it, the events and places of the N texts are compared with the crate's: each difference has
to be explained by words of `docs/DEPARTURES.md`, as `tests/reasons.py` says. The text that goes wrong is shown.

The library is the one that `rt lib` or `rt ci` left in crates/saphyr_parser_c/out, as for `tests/faces.py`.
"""
import argparse
import collections
import os
import pathlib
import random
import shutil
import subprocess
import sys
import tempfile

import against_crate
import faces
import reasons

SOURCE = f"{faces.ROOT}/tests/faces/fuzz.c"
# What texts are changed by: the words of YAML, and what the standard treats apart.
WORDS = [*"-?:,[]{}#&*!|>'\"%@` \t\n\r\0", "\r\n", "\ufeff", "\x85", "\u2028", "- ", "? ", ": ", "\n  ", "\n- ", " #",
         "---", "\n---\n", "...", "\n...\n", "%YAML 1.2\n", "%TAG !e! tag:e,2000:\n", "!!str ", "!e!x ", "!<a> ", "&a ",
         "*a", "|\n  ", ">-\n ", "|2+\n", "''", "\\\n", "\\u00e9", "\\x", "%C3%A9", "a", "b: c", "[a, b]", "{a: b}", "é"]


def seeds():
    """The texts of the cases that are short enough to be changed."""
    texts = {case.text for file in sorted(os.listdir(faces.DATA)) for case in faces.cases_of(file)}
    return sorted(it for it in texts if len(it) <= 200)


def changed(text, other, numbers):
    """The text with one change: a word put in, a part taken out or said twice, or a part of another text."""
    at = numbers.randint(0, len(text))
    to = min(len(text), at + numbers.randint(1, 8))
    kind = numbers.randrange(4)
    if kind == 0:
        return text[:at] + numbers.choice(WORDS) + text[at:]
    if kind == 1:
        return text[:at] + text[to:]
    if kind == 2:
        return text[:to] + text[at:]
    return text[:at] + other[numbers.randint(0, len(other)):]


def texts_of(count, seed):
    numbers, known = random.Random(seed), seeds()
    for _ in range(count):
        text = numbers.choice(known)
        for _ in range(numbers.randint(1, 4)):
            text = changed(text, numbers.choice(known), numbers)
        yield text


def read_by(program, texts):
    """Whether the program reads these texts as it has to."""
    framed = b"".join(b"%d\n%b" % (len(it), it) for it in (text.encode() for text in texts))
    return subprocess.run([program], input=framed, capture_output=True).returncode == 0


def find_wrong(program, texts):
    """The first text on which the program stops, or None."""
    if read_by(program, texts):
        return None
    if len(texts) == 1:
        return texts[0]
    half = len(texts) // 2
    wrong = find_wrong(program, texts[:half])
    return find_wrong(program, texts[half:]) if wrong is None else wrong


def lists_by(program, texts):
    """The lists of the texts through the C face."""
    framed = b"".join(b"0 %d\n%b" % (len(it), it) for it in (text.encode() for text in texts))
    answers = subprocess.run([program], input=framed, capture_output=True, check=True).stdout.split(b"\xff")[:-1]
    return [answer.decode().split("\n")[:-1] for answer in answers]


def compare(program, peer, texts):
    """Returns the texts that the Rust crate reads otherwise, where no words of the page explain it."""
    explained = reasons.explain(texts, lists_by(program, texts), lambda asked: against_crate.run(peer, asked))
    counts = collections.Counter(it.words[0] if it.words else "without a reason" for it in explained)
    against_crate.print_counts(counts, sum(not it.is_whole for it in explained))
    return [it for it in explained if not it.is_explained]


def run_libfuzzer(folder, library, runs, seed):
    """Lets libFuzzer try texts, from those of the cases on. Whether all went well, or None where there is none."""
    clang = shutil.which("clang")
    words = [clang, "-fsanitize=fuzzer", "-DWITH_LIBFUZZER", *faces.HOW, SOURCE, *library, "-o", f"{folder}/libfuzzer"]
    if not clang or subprocess.run(words, capture_output=True).returncode:
        return None
    corpus = pathlib.Path(folder, "corpus")
    corpus.mkdir()
    for number, text in enumerate(seeds()):
        (corpus / str(number)).write_bytes(text.encode())
    words = [f"{folder}/libfuzzer", f"-runs={runs}", f"-seed={seed}", "-max_len=200", "-verbosity=0", str(corpus)]
    ran = subprocess.run(words, cwd=folder, capture_output=True)
    for crash in sorted(pathlib.Path(folder).glob("crash-*")):
        print(f"by libFuzzer: {crash.read_bytes()!r}")
    if ran.returncode:
        print(ran.stderr.decode(errors="replace")[-2000:])
    return ran.returncode == 0


def main():
    asked = argparse.ArgumentParser(description=__doc__.split("\n", 1)[0])
    asked.add_argument("--runs", type=int, default=20000)
    asked.add_argument("--seed", type=int, default=1)
    asked.add_argument("--against", metavar="PROGRAM")
    given = asked.parse_args()
    compiler, library = shutil.which("cc") or shutil.which("clang"), faces.libraries()
    texts, failed = list(texts_of(given.runs, given.seed)), 0
    with tempfile.TemporaryDirectory() as folder:
        for name in ("fuzz", "cases"):
            words = [compiler, *faces.HOW, f"{faces.ROOT}/tests/faces/{name}.c", *library, "-o", f"{folder}/{name}"]
            faces.call(words, faces.ROOT)
        wrong = find_wrong(f"{folder}/fuzz", texts)
        if wrong is not None:
            failed += 1
            print(f"whole and in pieces: {wrong!r}")
        went_well = run_libfuzzer(folder, library, given.runs, given.seed)
        failed += went_well is False
        unexplained = compare(f"{folder}/cases", given.against, texts) if given.against else []
    for it in unexplained[:20]:
        print(it.shown())
    by = "" if went_well is None else f", as many by libFuzzer"
    print(f"fuzz: {len(texts)} texts{by}; {failed + len(unexplained)} read otherwise")
    return 1 if failed or unexplained else 0


if __name__ == "__main__":
    sys.exit(main())
