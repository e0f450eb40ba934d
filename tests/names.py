#!/usr/bin/env python3
"""What the pages name is there: names of the code, productions, refused texts, reasons, and commands on promises.

    tests/names.py

It fails where

- a name between backticks, as `read_plain` or `IsPlain`, is in no file but pages; pages of `FOREIGN` name what other
  libraries have too, and `OTHERS` are such names elsewhere;
- a command `tests/promises.py` fails that a page shows;
- docs/COMING_FROM.md names a call or a field that the header, the package for Python or the crate in rust/ lacks, or
  one of libyaml or PyYAML, where these are there, that they lack;
- docs/PRODUCTIONS.md lacks one of the 211 productions, or names a definition that is in none of the files that its row
  and its chapter name;
- a definition that docs/PROMISES.md shows stands in no file of definitions;
- a text of which docs/DEPARTURES.md says that it gets a fault is no case of test_cases with that fault, or one of E1 to
  E8 in PRODUCTIONS no case with a fault;
- docs/DEPARTURES.md lacks words by which tests/reasons.py excuses a list that is not the Rust crate's.
"""
import os
import re
import subprocess
import sys

import reasons
from refused_memory import DATA, cases_of

try:
    import yaml
except ImportError:
    yaml = None

TOP = os.path.dirname(os.path.dirname(os.path.abspath(__file__)))
PROMISES, PRODUCTIONS, DEPARTURES = "docs/PROMISES.md", "docs/PRODUCTIONS.md", "docs/DEPARTURES.md"
COMING, LIBYAML = "docs/COMING_FROM.md", "/usr/include/yaml.h"
FOREIGN = {"CHANGELOG.md", "docs/COMING_FROM.md", "docs/DEPARTURES.md", "docs/NOTES.md"}
OTHERS = {"HashMap", "safe_load_all", "start_io", "start_lib"}
# Names of yaml-rust2 and serde_yaml, which are in no file here.
RUST = set("""BadValue Deserializer Error Null Tagged Value Yaml YamlLoader apply_merge as_hash as_i64 as_mapping
as_sequence as_vec from_str load_from_str parse""".split())
CODE, BLOCK = re.compile(r"`([^`\n]+)`"), re.compile(r"^```.*?^```$|^    [^\n]*$", re.M | re.S)
# a name of the code: with a low line inside, or of several words that begin with capitals
NAME = re.compile(r"(?<![\w.!-])([a-z]\w*_\w*[a-z0-9]|[A-Z][a-z]+(?:[A-Z][a-z0-9]*)+)(?![\w-])")
# a text as pages write it, such as `a:` TAB `b`; several of them, and the fault that they get
ONE = r"(?:`[^`]+`|LF|TAB|space)(?: (?:`[^`]+`|LF|TAB|space))*"
GETS = re.compile(rf"({ONE}(?:(?:, and|,| and) {ONE})*) gets? (?:``(.+?)``|`([^`]+)`)")
OF_YAML = re.compile(rf"\bE\d(?: \([^)]*\))?: ({ONE})")
COMMAND = re.compile(r"tests/promises\.py(?: [\w-]+)+")


def tracked():
    """The files that git has, or would have."""
    words = ["git", "ls-files", "--cached", "--others", "--exclude-standard"]
    listed = subprocess.run(words, cwd=TOP, capture_output=True, text=True, check=True).stdout.split("\n")
    return [it for it in dict.fromkeys(listed) if os.path.isfile(os.path.join(TOP, it))]


def read(path):
    with open(os.path.join(TOP, path), encoding="utf-8", errors="replace") as file:
        return file.read()


def wrong_names(page, known):
    codes = CODE.findall(BLOCK.sub("", read(page)))
    named = {name for code in codes for name in NAME.findall(code)}
    return [f"{page}: nothing is called {name}" for name in sorted(named - known - OTHERS)]


def wrong_commands(pages):
    shown = {it for page in pages for it in COMMAND.findall(read(page)) if " NAME" not in it}
    for command in sorted(shown):
        ran = subprocess.run(command.split(), cwd=TOP, capture_output=True, check=False)
        if ran.returncode or not ran.stdout:
            yield f"a page shows {command}, which fails"


def words_of(*paths):
    """The words of files, or None where one is missing."""
    texts = [os.path.isfile(os.path.join(TOP, it)) and read(it) for it in paths]
    return {word for text in texts for word in re.findall(r"\w+", text)} if all(texts) else None


def called(text):
    """The names of calls, types and fields in the codes of a text."""
    return {word for code in CODE.findall(text) for word in re.findall(r"(?<![\w\"])[A-Za-z]\w+", code)}


def wrong_calls():
    """What COMING_FROM.md names of a face or of another library, and that lacks."""
    chapters = dict(re.findall(r"^###? (.*)\n((?:(?!##).*\n)*)", read(COMING), re.M))
    theirs, ours = zip(*re.findall(r"^\| (`.*) \| (.*) \|$", chapters["From libyaml"], re.M))
    python = chapters["From PyYAML, in Python"]
    folder = os.path.dirname(yaml.__file__) if yaml else "none"
    package = ["python/saphyr_parser/__init__.py", "python/saphyr_parser/_saphyr_parser.pyi"]
    crate = words_of(*(it for it in tracked() if it.startswith("rust/src/")))
    for name, names, known in (
        ("libyaml", called(" ".join(theirs)), words_of(LIBYAML)),
        ("the header", called(" ".join(ours)), words_of("crates/saphyr_parser_c/saphyr_parser.h")),
        ("PyYAML", set(re.findall(r"`yaml\.(\w+)", python)), words_of(f"{folder}/__init__.py")),
        ("package or PyYAML", called(re.sub(r"`yaml\..*?`", "", python)), words_of(*package, f"{folder}/error.py")),
        ("the crate", called(chapters["From yaml-rust2 or serde_yaml"]), crate | RUST),
    ):
        yield from (f"{COMING}: {it} is no name of {name}" for it in sorted(names - known)) if known else ()


def wrong_productions():
    files = dict(re.findall(r"^\[(\w+)\]: \.\./(\S+)$", read(PRODUCTIONS), re.M))
    numbers = []
    for chapter in read(PRODUCTIONS).split("\n## ")[1:]:
        own = re.findall(r"The chapter's file is \[(\w+)\]", chapter)
        for line in (line for line in chapter.split("\n") if line.startswith("| [")):
            production, definition = line[2:].split(" | ", 1)
            shown = [int(it) for it in re.findall(r"\[(\d+)\]", production)]
            numbers += range(shown[0], shown[1] + 1) if " to [" in production else shown
            texts = [read(files[it]) for it in [*own, *re.findall(r"\[([A-Z]\w+)\]", definition)]]
            names = {name for code in CODE.findall(definition) for name in NAME.findall(code)}
            yield from (f"{PRODUCTIONS}: no {name} for {production}" for name in sorted(names)
                        if not any(re.search(rf"\b{name}\b", text) for text in texts))
    if numbers != list(range(1, 212)):
        yield f"{PRODUCTIONS}: not 1 to 211, in this order"


def text_of(written):
    named, parts = {"LF": "\n", "TAB": "\t", "space": " "}, re.findall(r"`([^`]+)`|(LF|TAB|space)", written)
    return "".join(named.get(name) or code.replace("\\|", "|") for code, name in parts)


def wrong_faults():
    faults = {case.text: case.fault for file in sorted(os.listdir(DATA)) for case in cases_of(file)}
    for texts, *words in GETS.findall(re.sub(r"\n *", " ", read(DEPARTURES))):
        found = [faults[text] for text in map(text_of, re.findall(ONE, texts)) if text in faults]
        if not found or text_of(re.findall(ONE, texts)[-1]) not in faults:
            yield f"{DEPARTURES}: no case has the text of {texts}"
        yield from (f"{DEPARTURES}: a case of {texts} has {fault}" for fault in found
                    if not (fault or "").startswith(f"{''.join(words)} at "))
    for written in OF_YAML.findall(read(PRODUCTIONS)):
        if not faults.get(text_of(written)):
            yield f"{PRODUCTIONS}: no case with a fault has the text {written}"


def wrong_definitions(files):
    specs = [read(it) for it in files if it.endswith(".antt") and "/specs/" in it]
    shown = re.findall(r"^```antt\n(.*?)^```$", read(PROMISES), re.M | re.S)
    return [f"{PROMISES}: no definition is {it}" for it in shown if not any(it in text for text in specs)]


def lacking_reasons():
    page = " ".join(read(DEPARTURES).split())
    return [f"{DEPARTURES} doesn't say: {words}" for words, _ in reasons.REASONS if words not in page]


def main():
    files = tracked()
    pages = [it for it in files if it.endswith(".md")]
    known = {word for it in files if not it.endswith(".md") for word in re.findall(r"\w+", read(it))}
    wrong = [line for page in pages if page not in FOREIGN for line in wrong_names(page, known)]
    wrong += [*wrong_commands(pages), *wrong_calls(), *wrong_productions(), *wrong_definitions(files)]
    wrong += [*wrong_faults(), *lacking_reasons()]
    print(*wrong, f"names: {len(wrong)} faults", sep="\n")
    return 1 if wrong else 0


if __name__ == "__main__":
    sys.exit(main())
