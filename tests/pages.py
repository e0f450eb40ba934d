#!/usr/bin/env python3
"""Whether the pages lead somewhere, say each thing in one place, and show what is so.

    tests/pages.py [--printed]

Each link of a page leads to a file, and to a heading of it. Each file that a page names is there, and a script has the
options that a page gives it, and so has `rt`, where the kit is there. TESTS.md lists what the gate runs, in its order.
README has at most 150 lines, and all pages of the repository's top and of docs have at most 36,500 words.
No twelve words in a row, outside of code, stand on two pages. What a page shows of Rattle stands in a source of the
crates; other tests run the rest: own_repository.py the program of COMING_FROM.md with its function `depth`, and
release.py those for C, Rust and Python.

With --printed the built programs print what the pages show: `dump_events` the events of README, and `check_yaml` the
lines of README and of CHECK_YAML.md, of texts that these lines show, the object of JSON, and the table's first lines.
It has the options that CHECK_YAML.md names. The texts of COMING_FROM.md are read or refused as it says, here and by
libyaml where that is there. README's `rt try` prints the events too, with no proof.
"""
import collections
import fnmatch
import json
import os
import re
import shutil
import subprocess
import sys
import tempfile

from refused_memory import ROOT, program
from release_pages import BLOCK, anchors, read

MOST = 11  # words in a row that may stand on two pages
MOST_LINES, MOST_WORDS = 150, 36500
LINK = re.compile(r"\]\(([^)\s]+)\)")
# A file, as code: between backticks, or where a command begins; `NAME` and the like stand for any.
FILE = re.compile(r"`([\w./*-]+\.(?:antt|c|edit|h|in|md|py|rs|rt|sh|txt))`|^    ((?:tests|bench)/[\w./]+)", re.M)
RATTLE = "docs/READING.md", "crates/*/README.md", "README.md"  # in README, what is behind these words
BEHIND = "\nIn Rattle, which is Rust"
RUN = "pub fn depth<"
NEW = "crates/app/"  # the crate that COMING_FROM.md makes
SHOWN = "README.md", "docs/CHECK_YAML.md"
# What `check_yaml` prints of a place, and the line below it.
PLACE = re.compile(r"^(\S+?):(\d+):\d+: (?:error|warning|note): .*\n(?!\S+?:\d+:\d+: )(.*)\n", re.M)
LINES = re.compile(r"(?:^    \S+?:\d+:\d+: (?:error|warning|note): .*\n(?:    .*\n)*)+", re.M)
OPTION = re.compile(r"((?:tests|bench)/\w+\.\w+)((?: +(?!`)[^`\n#]*)?)")
GATE = re.compile(r"^shows (?:'.*?'|\".*?\") (.*)$", re.M)
KIT = re.compile(r"(?:`|^    (?:cd \S+ && )?)rt ([a-z-]+)((?: +(?!-- )[^`\n#]*?)?)(?:`| -- |#|$)", re.M)
# A text, as COMING_FROM.md writes it.
TEXT = r"(?:`[^`\n]+`|LF|TAB|BOM|U\+[0-9A-F]{4})(?: (?:`[^`\n]+`|LF|TAB|BOM|U\+[0-9A-F]{4}))*"
SIGNS = {"LF": "\n", "TAB": "\t", "BOM": "\ufeff"}
FIRST = re.compile(r"^\| `(.*)` \| `(\d+:\d+: \w+: .*)` \|$", re.M)
ESCAPED, NAMED = re.compile(r"\\(.)"), {"n": "\n", "t": "\t", "\\": "\\"}


def files():
    """The files of the repository."""
    return subprocess.run(["git", "ls-files", "-co", "--exclude-standard"], cwd=ROOT, capture_output=True, text=True,
                          check=True).stdout.split("\n")[:-1]


def wrong_links(page, text):
    for target in LINK.findall(text):
        file, _, anchor = target.partition("#")
        there = os.path.join(ROOT, os.path.dirname(page), file) if file else f"{ROOT}/{page}"
        if not target.startswith("http") and (not os.path.exists(there) or anchor and anchor not in anchors(there)):
            yield f"{page} has a link to {target}, which is not there"


def wrong_names(page, text, known):
    """The files that a page names and the repository lacks."""
    for name in {one or other for one, other in FILE.findall(text)}:
        pattern = re.sub(r"\b[A-Z]+\b(?!\.md)", "*", name)
        if not name.startswith(NEW) and not any(fnmatch.fnmatch(f"/{it}", f"*/{pattern}") for it in known):
            yield f"{page} names {name}, which is not there"


def wrong_options(page, text):
    """The options that a script lacks, of those that a page gives it."""
    for script, rest in OPTION.findall(text):
        for option in re.findall(r"--[a-z-]+", rest):
            if os.path.isfile(f"{ROOT}/{script}") and option not in read(f"{ROOT}/{script}"):
                yield f"{page} gives {script} {option}, which it doesn't take"


def wrong_sizes(pages):
    """What is too long to be read."""
    if (lines := pages["README.md"].count("\n")) > MOST_LINES:
        yield f"README.md has {lines} lines"
    count = sum(len(text.split()) for page, text in pages.items() if page.startswith("docs/") or "/" not in page)
    if count > MOST_WORDS:
        yield f"the pages have {count} words"


def wrong_gate():
    """What TESTS.md doesn't list as the gate runs it."""
    listed = read(f"{ROOT}/docs/TESTS.md").partition("\n## What the gate runs\n")[2].partition("\nBy hand run")[0]
    told = re.findall(r"`((?:tests|bench)/[^`\n]+|rt ci)`", listed)
    if told != (runs := GATE.findall(read(f"{ROOT}/.ci/run"))):
        yield f"docs/TESTS.md lists {told}, and the gate runs {runs}"


def wrong_kit(pages):
    """The words and options of `rt` that pages have and the kit lacks."""
    if not (kit := shutil.which("rt")):
        return
    rattle = os.path.join(os.path.dirname(os.path.realpath(kit)), "rattle")
    known = "".join(subprocess.run(it, stdout=subprocess.PIPE, stderr=subprocess.STDOUT, text=True).stdout
                    for it in ([kit, "--help"], [rattle, "check", "--help"]))
    names = {word for them in re.findall(r"\brt ([a-z|-]+)", known) for word in them.split("|")}
    for page, text in pages.items():
        for word, rest in KIT.findall(text):
            yield from (f"{page} has {it} of rt, which lacks it" for it in re.findall(r"--[a-z-]+", rest)
                        if not re.search(rf"{it}\b", known))
            if word not in names:
                yield f"{page} has rt {word}, which the kit lacks"


def words(text):
    """The words of a page, without code in blocks and without the targets of links."""
    return [it.lower() for it in re.findall(r"[\w'+]+", LINK.sub("]", BLOCK.sub("", text)))]


def wrong_runs(pages):
    """What stands on two pages."""
    at = collections.defaultdict(dict)
    for page, text in pages.items():
        run = words(text)
        for first in range(len(run) - MOST):
            at[tuple(run[first : first + MOST + 1])].setdefault(page, first)
    last = {}
    for run, places in at.items():
        if len(places) > 1:
            both = tuple(places)[:2]
            if last.get(both) != places[both[0]] - 1:
                yield f"{both[0]} and {both[1]} both say: {' '.join(run)}"
            last[both] = places[both[0]]


def wrong_blocks(page, text, sources):
    """What a page shows of Rattle and no source has, item for item."""
    for language, code in BLOCK.findall(text.partition(BEHIND)[2] if page == "README.md" else text):
        for item in re.split(r"\n\n(?=\S)", code) if language in ("rust", "antt") else ():
            is_source = any(" ".join(item.split()) in it for it in sources)
            if not is_source and not item.startswith("use ") and RUN not in item:
                yield f"{page} shows what no source has: {item}"


def check_pages():
    """What is wrong with the pages as they stand."""
    known = files()
    pages = {it: read(f"{ROOT}/{it}") for it in known if it.endswith((".md", ".md.in"))}
    sources = [" ".join(read(f"{ROOT}/{it}").split()) for it in known if it.endswith((".rt", "Invariants.antt"))]
    for page, text in pages.items():
        if page.endswith(".md"):
            yield from wrong_links(page, text)
            yield from wrong_names(page, text, known)
            yield from wrong_options(page, text)
        if any(fnmatch.fnmatch(page, it) for it in RATTLE):
            yield from wrong_blocks(page, text, sources)
    yield from wrong_runs(pages)
    yield from wrong_sizes(pages)
    yield from wrong_gate()
    yield from wrong_kit(pages)


def printed(name, text, *options):
    """What `check_yaml` prints of a text in a file of that name."""
    with tempfile.TemporaryDirectory() as folder:
        with open(f"{folder}/{name}", "w", encoding="utf-8", newline="") as it:
            it.write(text)
        words_of_call = [os.path.abspath(program("check_yaml")), *options, name]
        return subprocess.run(words_of_call, cwd=folder, capture_output=True, check=False).stdout.decode()


def text_of(shown):
    """The text whose lines are shown. The others are keys."""
    lines = {int(line): text for _, line, text in PLACE.findall(shown)}
    return "".join(f"{lines.get(at, f'name{at}: x')}\n" for at in range(1, max(lines) + 1))


def wrong_lines(page, text):
    """What `check_yaml` doesn't print of the texts that a page shows, and of those of its table."""
    for block in LINES.findall(text):
        shown = re.sub("^    ", "", block, flags=re.M)
        name = shown.partition(":")[0]
        if (found := printed(name, text_of(shown), "--standard")) != shown:
            yield f"{page} shows {shown!r}, and check_yaml prints {found!r}"
    for written, first in FIRST.findall(text):
        source = ESCAPED.sub(lambda it: NAMED[it[1]], written)
        if (found := printed("it", source).partition("\n")[0]) != f"it:{first}":
            yield f"{page} has {first!r} of {source!r}, and check_yaml prints {found!r}"
    for shown in re.findall(r'^    (\{"file":.*\})$', text, re.M):
        object_ = json.loads(shown)
        if (found := printed(object_["file"], "a: 1\na: 2\n", "--format=json")) != f"{shown}\n":
            yield f"{page} shows {shown}, and check_yaml prints {found}"


def dumped(command, text):
    """The lines and the fault that `dump_events` prints of a text, or another program, and whether it is read."""
    ran = subprocess.run(command, input=text.encode(), capture_output=True, check=False)
    return ran.stdout.decode().split("\n")[:-1], ran.stderr.decode().rpartition(" at byte ")[0], ran.returncode == 0


def documents(lines):
    """The documents whose events are printed, as values of JSON; an alias is its name."""
    open_ = [[]]
    for line in lines:
        if line[0] == "+":
            open_.append([])
        elif line[0] == "=":
            value = re.fullmatch(r"=(?:ALI |VAL(?: &\S+)?(?: <\S*>)? [:'\"|>])(.*)", line)[1]
            open_[-1].append(ESCAPED.sub(lambda it: NAMED.get(it[1], it[1]), value))
        else:
            parts = open_.pop()
            is_list, pairs = line in ("-SEQ", "-STR"), dict(zip(parts[::2], parts[1::2]))
            open_[-1].append(parts if is_list else pairs if line == "-MAP" else parts[0])
    return open_[0][0]


def wrong_reading(command, text, told):
    """Whether a program reads a text otherwise than the words of a page tell: values, a fault, or `refused`."""
    lines, fault, is_read = dumped(command, text)
    codes = re.findall("`([^`]+)`", told)
    if not is_read:
        return codes[0] != fault if codes else told != "refused"
    values = [re.sub(r'"(\*\w+)"', r"\1", json.dumps(it)) for it in documents(lines)]
    return codes[: len(values)] != values


def wrong_texts():
    """What COMING_FROM.md says otherwise of texts than the program, or than libyaml where it is there."""
    page = read(f"{ROOT}/docs/COMING_FROM.md")
    with tempfile.TemporaryDirectory() as folder:
        words = ["-D_GNU_SOURCE", f"-I{ROOT}/crates/saphyr_parser_c", f"-I{ROOT}/tests/faces"]
        words = ["cc", *words, f"{ROOT}/bench/libyaml_dump.c", "-lyaml", "-o", f"{folder}/libyaml"]
        has_libyaml = shutil.which("cc") and subprocess.run(words, capture_output=True).returncode == 0
        if not has_libyaml:
            print("libyaml: not compared, since it is not there")
        for written, theirs, ours in re.findall(rf"^\| ({TEXT}) \| (.*) \| (.*) \|$", page, re.M):
            text = "".join(code or SIGNS.get(sign) or chr(int(sign[2:], 16))
                           for code, sign in re.findall(r"`([^`]+)`|(\S+)", written.replace("\\|", "|")))
            if wrong_reading([program("dump_events")], text, ours):
                yield f"COMING_FROM.md has {ours} of {text!r}, and dump_events another answer"
            if has_libyaml and wrong_reading([f"{folder}/libyaml"], text, theirs):
                yield f"COMING_FROM.md has {theirs} of {text!r}, and libyaml another answer"


def check_printed():
    """What the programs don't print though the pages show it."""
    pages = {it: read(f"{ROOT}/{it}") for it in SHOWN}
    text, events = re.search(r"From `(.*)` come .*\n(?:.*\n)*?\n    (\+STR .*)\n", pages["README.md"]).groups()
    tried = re.search(r"^    (cd crates/dump_events && rt try <) FILE", pages["README.md"], re.M)[1]
    tries = [["sh", "-c", f"cd {ROOT} && {tried} /dev/stdin"]] if shutil.which("rt") else []
    for command in ([program("dump_events")], *tries):
        if " ".join(found := dumped(command, text)[0]) != events:
            yield f"README.md shows {events}, and {command[-1]} prints {found}"
    yield from wrong_texts()
    for option in set(re.findall(r"`(--[a-z][a-z-]*)", pages["docs/CHECK_YAML.md"])):
        if option not in subprocess.run([program("check_yaml"), "--help"], capture_output=True).stdout.decode():
            yield f"CHECK_YAML.md names {option}, which check_yaml lacks"
    for page, text in pages.items():
        yield from wrong_lines(page, text)


def main():
    if sys.argv[1:] not in ([], ["--printed"]):
        print(__doc__)
        return 0 if sys.argv[1:] == ["--help"] else 2
    wrong = list(check_printed() if sys.argv[1:] else check_pages())
    for it in wrong[:40]:
        print(it)
    print(f"pages: {len(wrong)} faults")
    return 1 if wrong else 0


if __name__ == "__main__":
    sys.exit(main())
