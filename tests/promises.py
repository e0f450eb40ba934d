#!/usr/bin/env python3
"""Which definitions a reader must believe, for each promise of a parser, and what each of them says.

    tests/promises.py [--quiet] [NAME..]
    tests/promises.py --words [NAME..]
    tests/promises.py --whole [NAME..]
    tests/promises.py --proofs NAME..

A promise is a clause of one of `FUNCTIONS`: of `Parser::new` (or of `with_limit` and `new_from_iter`, where they say
more), of the calls of a parser, of those of a `PieceParser`, of `load_documents`, of `load_document`, of `dump`, of
`run_dump` or of `validate`. Each of its names is followed through the `use` lines of its file to the definition in a
crate's `specs`, and so is each name in there. What is reached is printed, by clause: the file, the section of the
standard that its head names, and the definitions. A `NAME` of a clause or a function, as `taken`, prints this alone,
and `--quiet` counts only. A name may also be any other public function's, such as `expanded_nodes` or `saphyr_next`, or
a law's; their clauses may rest on steps.

`--words` prints a page of what is reached, from the characters up: the comment at the head of each file, its headings,
and each definition with the promises that rest on it and the comment above it, or, where there is none, the definition
itself. With `--whole` each has both. `--proofs` prints what proves a function or a law of these names: the file of its
answers, and the files of proofs to which that leads in its crate, each with its head.

No promise quotes a definition of steps, which stands in a file or folder `Steps`: those say what the code does, and not
what the standard asks. So the script fails where one is reached, and prints the names that lead there. But a promise
speaks of what the code computes, and there it stops: at the names of `COMPUTED`, which are the tokens that are scanned,
the events that come and the place in them. What calls do to that place, the files of `CURSOR` say by the machine's own
step, and there it stops too. It also fails where a file that is reached has no comment at its head, and where the
table of README has other counts.

What it doesn't tell: definitions of the kit's library, types that the code declares (`specs.declared`), and what an
input has of its own (`T.rest`). A variable with the name of a definition that its file has or imports counts as this
definition, so that one too many may be listed, and none is missed.
"""
import argparse
import collections
import functools
import glob
import itertools
import os
import re
import sys
import textwrap

TOP = os.path.dirname(os.path.dirname(os.path.abspath(__file__)))
README = os.path.join(TOP, "README.md")
PARSER, LOADER = "crates/saphyr_parser/src/cursor.rt", "crates/yaml_tree/src/loading.rt"
ONE_LOADER = "crates/yaml_tree/src/document_loading.rt"
PIECES = "crates/saphyr_pieces/src/parser.rt"
VALIDATOR = "crates/yaml_standard/src/verdict.rt"
PRINTING, RUNNING = "crates/saphyr_parser/src/printing.rt", "crates/saphyr_parser/src/printing/run.rt"
# each with the name of its promise, where that isn't the clause's own
FUNCTIONS = {
    (PARSER, "new"): None, (PARSER, "with_limit"): None, (PARSER, "new_from_iter"): None,
    (PARSER, "next_event"): "calls", (PARSER, "next_event_into"): "calls", (PARSER, "peek"): "calls",
    (PARSER, "load"): "calls",
    (PARSER, "keep_tags"): "calls", (LOADER, "load_documents"): "trees", (ONE_LOADER, "load_document"): "trees",
    (PIECES, "new"): "pieces", (PIECES, "add"): "pieces", (PIECES, "end"): "pieces", (PIECES, "keep_tags"): "pieces",
    (PIECES, "next_event_into"): "pieces", (PRINTING, "dump"): "lines", (RUNNING, "run_dump"): "lines",
    (VALIDATOR, "validate"): "standard",
}
SAME_AS_NEW = {"with_limit", "new_from_iter"}
# `decided` has no mark: it says that the events are computed, and stops there
MARKS = ["json", "yaml", "closed", "taken", "spans", "calls", "pieces", "trees", "lines", "standard"]
# files of definitions are named by their crate and their path below its `specs`
COMPUTED = {
    (("saphyr_scanner", "Steps.Remaining"), "scan"),
    (("saphyr_machine", "Answer"), "remaining_answer"),
    (("saphyr_machine", "Cursor"), "to_come"),
    (("saphyr_machine", "Cursor"), "EventCursor"),
    (("saphyr_pieces", "Pieces"), "Pieces"),
    (("saphyr_pieces", "Pieces"), "at"),
    (("saphyr_pieces", "Pieces"), "wants_more"),
}
CURSOR = {("saphyr_machine", "Cursor"), ("saphyr_machine", "Calls")}

MODULE = re.compile(r"Rattle\.(\w+)\.specs\.([\w.]+)$")
USE = re.compile(r"\s*(?:ghost )?(?:pub )?use ([^\s{}]+?)(?:\.\{(.*)\}| as (\S+?))?;?$")
BLOCK = re.compile(r"(\w+ )?mutual\b|module ")
HEAD = re.compile(r"((?:(?:abbrev|unfoldable|pub|data|record) )+)([^\s:]+)|([^\s:()]+) : ")
CONSTRUCTOR = re.compile(r"\s+([^\s:]+) :")
SECTION = re.compile(r"\(((?:YAML|RFC)[^)]*)\)")
WORDS = re.compile(r"[^\s(){}\[\];,λ]+")
# a row of README's table: a clause of `new_from_iter`, or a function, and how many definitions it rests on
ROW = re.compile(r"^\| (?:of )?`(\w+)` \| .*? \| (\d+)(?: definitions)? \|", re.M)

Module = collections.namedtuple("Module", "crate name")
Definition = collections.namedtuple("Definition", "module name")


class Scope:
    """What the names of a file mean: by its `use` lines, and by its own definitions."""

    def __init__(self, lines):
        self.imported, self.aliases = {}, {}
        for line in lines:
            found = USE.match(line)
            module = found and module_of(found[1])
            if not module:
                continue
            if found[3]:
                self.aliases[found[3]] = module
            for item in (found[2] or "").split(","):
                name, _, other = item.strip().partition(" as ")
                self.imported[other or name] = module, name
        for name, where in list(self.imported.items()):
            self.imported.update(dict.fromkeys(parts_of(name), where))


class Spec(Scope):
    """A file of definitions: the lines of each, other names that mean it, and the section that the file's head names.

    `texts` are the same lines as they are, `words` the comments above each and inside, `headings` what it is below.
    """

    def __init__(self, path):
        with open(path, encoding="utf-8") as file:
            lines = file.read().split("\n")
        super().__init__(lines)
        self.path = os.path.relpath(path, TOP)
        head = next((n for n, line in enumerate(lines) if not line.startswith("--")), len(lines))
        self.head = said(lines[:head])
        section = SECTION.search(self.head)
        self.section = section[1] if section else ""
        self.definitions, self.other_names = {}, {}
        self.texts, self.words, self.headings = {}, collections.defaultdict(list), {}
        self.read(line for line in lines[head:] if not line.lstrip().startswith(("use ", "pub use ", "pub mod ")))

    def read(self, lines):
        name, is_type, begin, comment, before, heading = None, False, "", [], [], ""
        for line in lines:
            if line.lstrip().startswith("--"):
                comment.append(line)
                continue
            if comment and comment[0].startswith("-- ## "):
                heading, comment = said(comment).lstrip("# "), []
            if comment and not line.strip():
                before, comment = [*before, said(comment)], []
            if BLOCK.match(line):
                name, begin = None, "  "
                continue
            if line[:1].strip():
                begin = ""
            whole, head = line, HEAD.match(line, len(begin)) if line.startswith(begin) else None
            constructor = CONSTRUCTOR.match(line)
            if head:
                name, is_type = head[2] or head[3], head[1] is not None and "data" in head[1]
                self.definitions[name], self.texts[name] = [], []
                self.headings[name] = heading
                self.words[name] += before
                before = []
                self.other_names.update(dict.fromkeys(parts_of(name), name))
            elif is_type and constructor:
                self.other_names.setdefault(constructor[1], name)
                line = line[constructor.end():]
            if name:
                self.definitions[name].append(line)
                self.texts[name].append(whole)
                self.words[name] += [said(comment)] if comment else []
            comment = []

    def owner(self, name):
        return name if name in self.definitions else self.other_names.get(name)


def said(comment):
    """The words of the lines of a comment."""
    return " ".join(re.sub(r"^\s*-- ?", "", line) for line in comment)


def parts_of(name):
    """The words of an operator: `◌∷◌` is written as `∷`."""
    return [part for part in name.split("◌") if part] if "◌" in name else []


def module_of(path):
    found = MODULE.match(path)
    if not found or found[2].startswith("declared.") or not os.path.isdir(os.path.join(TOP, "crates", found[1])):
        return None
    return Module(found[1], found[2])


@functools.lru_cache(None)
def spec_of(module):
    path = os.path.join(TOP, "crates", module.crate, "specs", *module.name.split(".")) + ".antt"
    if os.path.exists(path):
        return Spec(path)
    # a crate passes on what the crates below it have: `saphyr_parser.specs.Events` is that of `saphyr_machine`
    with open(os.path.join(TOP, "crates", module.crate, "specs", "Lib.antt"), encoding="utf-8") as file:
        head, _, rest = module.name.partition(".")
        for line in file:
            found = USE.match(line.rstrip())
            if found and module_of(found[1]) and found[1].endswith("." + head):
                below = module_of(found[1])
                return spec_of(Module(below.crate, below.name + ("." + rest if rest else "")))
    return None


def definition_of(module, name):
    """The definition of this name in a file, or in a file from which that passes it on."""
    spec = spec_of(module)
    if spec is None:
        return None
    if spec.owner(name):
        return Definition(spec_module(spec), spec.owner(name))
    return definition_of(*spec.imported[name]) if name in spec.imported else None


def spec_module(spec):
    parts = spec.path[:-len(".antt")].split("/")
    return Module(parts[1], ".".join(parts[3:]))


def meant(scope, own, word):
    """The definition that a word of a file means, if it means one."""
    head, _, rest = word.partition(".")
    if head in scope.aliases and rest:
        return definition_of(scope.aliases[head], rest.partition(".")[0])
    if own and scope.owner(head):
        return Definition(own, scope.owner(head))
    return definition_of(*scope.imported[head]) if head in scope.imported else None


def named_in(scope, own, text):
    found = (meant(scope, own, word) for word in WORDS.findall(text))
    return list(dict.fromkeys(definition for definition in found if definition))


def clauses_of(path, function):
    """The clauses of a function, each with its name and its text, and the scope of their file."""
    with open(os.path.join(TOP, path), encoding="utf-8") as file:
        source = file.read()
    contract = re.search(rf"pub (?:extern \"C\" )?fn {function}\b.*?\n *\{{\n", source, re.S)[0]
    clauses = []
    for begins in re.finditer(r"ensures\*?(?: (\w+))? \{", contract):
        depth, end = 1, begins.end()
        while depth:
            depth += {"{": 1, "}": -1}.get(contract[end], 0)
            end += 1
        clauses.append((begins[1] or "", contract[begins.end():end - 1]))
    return clauses, Scope(source.split("\n"))


def reached_from(text, scope):
    """All definitions that a clause reaches, each with the one that leads to it."""
    came = {definition: None for definition in named_in(scope, None, text)}
    waiting = list(came)
    while waiting:
        definition = waiting.pop()
        if definition in COMPUTED or is_step(definition):
            continue
        spec = spec_of(definition.module)
        for other in named_in(spec, definition.module, "\n".join(spec.definitions[definition.name])):
            if other not in came and not (is_step(other) and definition.module in CURSOR):
                came[other] = definition
                waiting.append(other)
    return came


def is_step(definition):
    return "Steps" in definition.module.name.split(".")


def path_to(definition, came):
    names = []
    while definition:
        names.append(definition.name)
        definition = came[definition]
    return " > ".join(reversed(names))


def show(came):
    files = collections.defaultdict(list)
    for definition in came:
        files[definition.module].append(definition.name)
    for module in sorted(files):
        spec = spec_of(module)
        section = f" ({spec.section})" if spec.section else ""
        print(f"  {spec.path}{section}: {', '.join(sorted(files[module]))}")


def look(path, function, asked, reached, by_clause, is_quiet):
    """Prints what the clauses of a function reach, and gathers it; gives the lines on steps among it."""
    wrong = []
    clauses, scope = clauses_of(path, function)
    for clause, text in clauses:
        if asked and not asked.intersection((clause, function)):
            continue
        name = f"`{function}`" + (f", clause `{clause}`" if clause else "")
        came = by_clause[function, clause] = reached_from(text, scope)
        more = [definition for definition in came if function not in SAME_AS_NEW or definition not in reached]
        if not is_quiet:
            print(f"{name}: {len(came)} definitions"
                  + (f", of which {len(more)} not by `new`" if function in SAME_AS_NEW else ""))
            show(more)
        if (path, function) in FUNCTIONS:
            wrong += [f"a promise reaches a step: {name}: {path_to(step, came)}, of {spec_of(step.module).path}"
                      for step in more if is_step(step) and step not in COMPUTED]
        for definition in came:
            reached.setdefault(definition, set()).add(FUNCTIONS.get((path, function)) or clause)
    return wrong


def functions_called(name):
    """The public functions of a name: the file of each, and the name."""
    for path in sorted(glob.glob(f"{TOP}/crates/*/src/**/*.rt", recursive=True)):
        with open(path, encoding="utf-8") as file:
            if re.search(rf"pub (?:extern \"C\" )?fn {re.escape(name)}\b", file.read()):
                yield os.path.relpath(path, TOP), name


def marks_of(marks):
    """The promises that rest on a definition. What rests on `yaml` has no mark for `closed`, nor for `standard`."""
    marks = marks - {"closed", "standard"} if "yaml" in marks else marks
    found = [mark for mark in MARKS if mark in marks]
    return "all" if len(found) == len(MARKS) - 2 and "yaml" in found else ", ".join(found)


@functools.lru_cache(None)
def used_by(crate):
    """The crates of crates.txt below one."""
    with open(os.path.join(TOP, "crates.txt"), encoding="utf-8") as file:
        lines = dict(line.split(":", 1) for line in file if ":" in line and not line.startswith("#"))
    names = {name.split()[0]: below.split() for name, below in lines.items()}
    return {crate}.union(*(used_by(below) for below in names.get(crate, ())))


def wrapped(text):
    return textwrap.fill(text, 120, subsequent_indent="  " * text.startswith("- "), break_on_hyphens=False)


def show_definition(spec, name, marks, is_whole):
    """Prints what the comments say of a definition, and itself if it is asked for, or a number, or has no comment."""
    words, lines = " / ".join(spec.words[name]), [line for line in spec.texts[name] if line.strip()]
    value = f"`{lines[-1].strip()}`" if re.fullmatch(rf" *{re.escape(name)} = [0-9a-fA-Fx]+", lines[-1]) else ""
    told = f"{words}{'; ' * bool(words and value)}{value}"
    print(wrapped(f"- **{name}**" + f" (*{marks}*)" * bool(marks) + f": {told}" * bool(told)))
    if is_whole or not words and not value:
        print("\n" + textwrap.indent(textwrap.dedent("\n".join(lines)), " " * 6) + "\n")


def show_words(reached, is_whole):
    """Prints the page: the words of each file, and of each definition that is reached, with all that rests on it."""
    marks = {}
    for path, function in FUNCTIONS:
        look(path, function, set(), marks, {}, True)
    modules = {definition.module for definition in reached}
    for module in sorted(modules, key=lambda it: (len(used_by(it.crate)), it.crate, it.name)):
        spec, last = spec_of(module), ""
        print(f"\n## {spec.path}\n\n{wrapped(spec.head)}\n")
        for name in spec.definitions:
            if Definition(module, name) in reached:
                if spec.headings[name] != last:
                    last = spec.headings[name]
                    print(f"\n### {last}\n")
                show_definition(spec, name, marks_of(marks.get(Definition(module, name), set())), is_whole)


def proof_at(path):
    """The words at the head of a file of proofs, and the files of proofs that it uses, but for those of common words."""
    with open(path, encoding="utf-8") as file:
        lines = file.read().split("\n")
    head = said(itertools.takewhile(lambda line: line.startswith("--"), lines))
    used = (re.match(r"(?:pub )?use Rattle\.(\w+)\.proofs\.([\w.]+?)(?:\.\{| as |$)", line) for line in lines)
    files = (os.path.join(TOP, "crates", it[1], "proofs", *it[2].split(".")) + ".antt" for it in used if it)
    return head, [it for it in files if os.path.exists(it) and os.path.basename(it) != "Common.antt"]


def show_proofs(name):
    """Prints what proves a function or a law; gives whether there is a file of its answers."""
    answers = sorted(glob.glob(f"{TOP}/crates/*/proofs/**/{glob.escape(name)}/Answers.antt", recursive=True))
    for path in answers:
        print(f"\n## {os.path.relpath(path, TOP)}\n")
        crate = os.path.join(TOP, *os.path.relpath(path, TOP).split("/")[:2], "")
        seen, waiting = {path}, collections.deque([path])
        while waiting:
            at = waiting.popleft()
            head, used = proof_at(at)
            if at != path:
                print(wrapped(f"- {os.path.relpath(at, TOP)}: {head}"))
            # the proofs of other crates are named, and not followed
            more = [it for it in dict.fromkeys(used) if it not in seen] if at.startswith(crate) else []
            seen.update(more)
            waiting.extend(more)
    return bool(answers)


def other_counts(came):
    """The rows of README's table that have another count than what a clause reaches."""
    with open(README, encoding="utf-8") as file:
        rows = dict(ROW.findall(file.read()))
    counts = {clause or function: len(found) for (function, clause), found in came.items()
              if function in ("new_from_iter", "validate") and clause != "decided"}
    return [f"README.md has {rows.get(name)} definitions for {name} in place of {count}"
            for name, count in counts.items() if rows.get(name) != str(count)]


def main():
    arguments = argparse.ArgumentParser(description=__doc__.split("\n", 1)[0])
    arguments.add_argument("--quiet", action="store_true", help="count the definitions only")
    arguments.add_argument("--words", action="store_true", help="print what each definition says")
    arguments.add_argument("--whole", action="store_true", help="print these words and the definitions")
    arguments.add_argument("--proofs", action="store_true", help="print what proves functions and laws")
    arguments.add_argument("names", nargs="*", metavar="NAME", help="the clauses or functions to look at, else all")
    given = arguments.parse_args()
    if given.proofs:
        sys.exit(0 if all([show_proofs(name) for name in given.names]) else "there are no answers of such a name")
    names = {name for path, function in FUNCTIONS for name in (function, *dict(clauses_of(path, function)[0]))}
    others = [it for name in given.names if name not in names for it in functions_called(name)]
    if not names.union(name for _, name in others).issuperset(given.names):
        arguments.error(f"there is no such function, and the clauses are {', '.join(sorted(filter(None, names)))}")
    reached, came, wrong = {}, {}, []
    for path, function in [*FUNCTIONS, *others]:
        wrong += look(path, function, set(given.names), reached, came, given.quiet or given.words or given.whole)
    if given.words or given.whole:
        show_words(reached, given.whole)
    modules = {definition.module for definition in reached}
    wrong += [f"{spec_of(module).path} has no words at its head" for module in modules if not spec_of(module).head]
    wrong += [] if given.names else other_counts(came)
    print(*wrong, sep="\n", end="\n" * bool(wrong), file=sys.stderr)
    steps = sum(is_step(definition) and definition not in COMPUTED for definition in reached)
    print(f"{len(reached)} definitions of {len(modules)} files must be believed, and {steps} of them are steps")
    sys.exit(1 if wrong else 0)


if __name__ == "__main__":
    main()
