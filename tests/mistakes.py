#!/usr/bin/env python3
"""What `check_yaml` prints of everyday mistakes, and whether it names the place where a person mends each.

    tests/mistakes.py [--table | --each | --write]

tests/mistakes has a file for each mistake. places.txt has a line for each file, under the kinds of mistakes: where a
person mends it, as line:column or line:first-last column, with commas between places of which each mends it, or `-`
where nothing is to be mended. printed.txt is what `check_yaml` prints of all files. The script compares that, and
counts the files of which the first line with a place, and of which any, names a place where the file is mended. The
table of docs/CHECK_YAML.md has these counts. With --table it prints them for each kind and for other programs, where
they are installed; with --each the files of which `check_yaml` names no such place first, with what it prints; with
--write it writes printed.txt.
The files of the folders later, unseen and fresh, and their places, were written before any program ran on them. Help
was mended with those of later at hand. Don't look at what is printed of those of unseen while you mend it: --each
leaves them out. Those of fresh are of kinds that none of the others has, and are counted by themselves.
The program is the one that `rt ci`, or `rt run` in its folder, left in out/. --table and --each need none.
"""

import collections
import json
import os
import pathlib
import re
import shutil
import subprocess
import sys

ROOT = pathlib.Path(__file__).resolve().parent.parent
CASES = ROOT / "tests/mistakes"
PRINTED = CASES / "printed.txt"
PAGE = ROOT / "docs/CHECK_YAML.md"
PROGRAM = ROOT / "crates/check_yaml/out/check_yaml"
# The numbers of mistakes whose place has to be named first, and at all.
WANTED_FIRST, WANTED, WANTED_FRESH = 254, 255, 27
# The folders of files that were written later, as the table counts them.
FRESH = "*fresh*"
SETS = {"later": "*later*, as mended", "unseen": "*unseen*", "fresh": FRESH}
# What node prints of files: the places of each, as the libraries `yaml` and `js-yaml` tell them.
NODE = """
const fs = require("fs"), yaml = require("yaml"), js = require("js-yaml");
const ofYaml = text => yaml.parseAllDocuments(text).flatMap(it => [...it.errors, ...it.warnings])
  .map(it => it.linePos ? [it.linePos[0].line, it.linePos[0].col] : [0, 0]);
const ofJs = text => {
  try { js.loadAll(text); return []; }
  catch (it) { return [it.mark ? [it.mark.line + 1, it.mark.column + 1] : [0, 0]]; }
};
const texts = process.argv.slice(1).map(it => fs.readFileSync(it, "utf8"));
console.log(JSON.stringify([texts.map(ofYaml), texts.map(ofJs)]));
"""

Mistake = collections.namedtuple("Mistake", "kind name mends what")


def mistakes():
    """Each file, with the lines and columns where it is mended, and what is wrong."""
    kind = None
    for row in (CASES / "places.txt").read_text(encoding="utf-8").splitlines():
        if row.startswith("# "):
            kind = row[2:]
            continue
        name, places, what = row.split(maxsplit=2)
        mends = [[int(it) for it in re.findall(r"\d+", place)] for place in places.split(",")]
        yield Mistake(kind, f"{name}.yaml", [(it[0], it[1], it[-1]) for it in mends if it], what)


def is_named(mistake, places):
    """Whether one of some places is where a file is mended; of a file that is right there is none."""
    if not mistake.mends:
        return not places
    return any(
        line == at and first <= column <= last for at, column in places for line, first, last in mistake.mends
    )


def places_in(pattern, text):
    return [(int(line), int(column)) for line, column in re.findall(pattern, text, re.M)]


def places_of_checker(name):
    """The places in printed.txt."""
    return places_in(rf"^{re.escape(name)}:(\d+):(\d+): (?:error|warning|note): ", PRINTED.read_text(encoding="utf-8"))


def places_of_pyyaml(name, loader="SafeLoader"):
    """The place of an exception's problem, and that of its context."""
    import yaml

    try:
        list(yaml.load_all((CASES / name).read_bytes(), Loader=getattr(yaml, loader)))
    except yaml.MarkedYAMLError as error:
        return [(it.line + 1, it.column + 1) for it in (error.problem_mark, error.context_mark) if it]
    except yaml.YAMLError as error:
        return places_of_index(name, error.position)
    return []


def places_of_index(name, index):
    """The place of a byte."""
    before = (CASES / name).read_bytes()[:index]
    return [(before.count(b"\n") + 1, index - before.rfind(b"\n"))]


def places_of_libyaml(name):
    return places_of_pyyaml(name, "CSafeLoader")


def places_of_yamllint(name):
    """Errors and warnings, but for the warning that it has for each file without `---`."""
    call = ["yamllint", "-f", "parsable", "-d", "{extends: default, rules: {document-start: disable}}", name]
    done = subprocess.run(call, cwd=CASES, capture_output=True, check=False)
    return places_in(r"^[^:\n]+:(\d+):(\d+): \[", done.stdout.decode())


def places_of_fy_tool(name):
    """With -r aliases are looked up."""
    done = subprocess.run(["fy-tool", "--dump", "-r", name], cwd=CASES, capture_output=True, check=False)
    return places_in(r"^[^:\n]+:(\d+):(\d+): error: ", done.stderr.decode(errors="replace"))


def node_libraries():
    """Two functions, or none where node or a library is missing."""
    if not shutil.which("node"):
        return ()
    names = [it.name for it in mistakes()]
    folders = f"{os.environ.get('NODE_PATH', '')}:/usr/share/nodejs"
    call, environment = ["node", "-e", NODE, *names], {**os.environ, "NODE_PATH": folders}
    done = subprocess.run(call, cwd=CASES, env=environment, capture_output=True, check=False)
    return [dict(zip(names, it)).get for it in json.loads(done.stdout)] if done.returncode == 0 else ()


def others():
    """The other programs that are installed."""
    try:
        import yaml

        if yaml.__with_libyaml__:
            yield "libyaml", places_of_libyaml
        yield "PyYAML", places_of_pyyaml
    except ImportError:
        pass
    if shutil.which("yamllint"):
        yield "yamllint", places_of_yamllint
    if shutil.which("fy-tool"):
        yield "fy-tool", places_of_fy_tool
    yield from zip(("node-yaml", "js-yaml"), node_libraries())


def set_of(name):
    return SETS.get(name.partition("/")[0], "*the others*")


def counts(places_of):
    """The mistakes of each kind and of each set, how many are named first, and how many at all."""
    found = collections.defaultdict(lambda: [0, 0, 0])
    for mistake in mistakes():
        places = places_of(mistake.name)
        one = (1, is_named(mistake, places[:1]), is_named(mistake, places))
        of_set = set_of(mistake.name)
        for kind in (mistake.kind, of_set, *(["all"] if of_set != FRESH else [])):
            found[kind] = [count + add for count, add in zip(found[kind], one)]
    return found


def print_table():
    programs = {name: counts(places) for name, places in [("check_yaml", places_of_checker), *others()]}
    print("| mistakes | files | " + " | ".join(programs) + " |")
    print("|---|---|" + "---|" * len(programs))
    kinds = dict.fromkeys(it.kind for it in mistakes())
    for kind in (*kinds, "*the others*", *SETS.values(), "all"):
        print_row(kind, programs["check_yaml"][kind][0], [it[kind] for it in programs.values()])


def print_row(kind, total, found):
    print(f"| {kind} | {total} | " + " | ".join(f"{first}, {named}" for _, first, named in found) + " |")


def print_each():
    """The files of which another place comes first, but for those that no one looks at."""
    for mistake in mistakes():
        if not mistake.name.startswith("unseen/") and not is_named(mistake, places_of_checker(mistake.name)[:1]):
            mends = ", ".join(f"{line}:{first}-{last}" for line, first, last in mistake.mends) or "nowhere"
            print(f"{mistake.name}: {mistake.what}; mended at {mends}")
            for line in re.findall(rf"^{re.escape(mistake.name)}:(.*)", PRINTED.read_text(encoding="utf-8"), re.M):
                print(f"    {line}")


def printed_by_checker(name):
    return subprocess.run([PROGRAM, name], cwd=CASES, capture_output=True, check=False).stdout.decode()


def main():
    if "--table" in sys.argv:
        return print_table()
    if "--each" in sys.argv:
        return print_each()
    printed = "".join(printed_by_checker(it.name) for it in mistakes())
    if "--write" in sys.argv:
        PRINTED.write_text(printed, encoding="utf-8")
    same = printed == PRINTED.read_text(encoding="utf-8")
    found = counts(places_of_checker)
    total, first, named = found["all"]
    fresh = found[FRESH][1]
    page = PAGE.read_text(encoding="utf-8")
    told = f"| `check_yaml` | {first} | {named} |" in page and f"first place of {fresh} is right" in page
    other = "" if same else ", and other lines than in printed.txt"
    other += "" if told else ", and other counts than in CHECK_YAML.md"
    print(f"mistakes: of {total} {first} named first, {named} at all, and {fresh} fresh ones first{other}")
    enough = first >= WANTED_FIRST and named >= WANTED and fresh >= WANTED_FRESH
    sys.exit(0 if same and told and enough else 1)


if __name__ == "__main__":
    main()
