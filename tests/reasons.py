"""Why a list of a text is another than the Rust crate's: for what words of `docs/DEPARTURES.md`.

A reason is taken out of the text, and the crate's list of what is left has to be ours: a tab becomes a space, an escape
of a tag becomes letters, which become the escaped characters in the list, and so on. No place moves by that. Where a
reason can't be taken out, it says which lines may differ, and how. So no text is excused because of its shape.

One reason leaves lines uncompared: where the crate doesn't read a pair with `?` in a flow sequence, and it is no pair
without the `?`, the list is compared up to there.
"""

import re

BREAK = "[\r\n]"
# No escapes begin a line: that is a directive.
ESCAPES = re.compile(r"(?<=[^\r\n\ufeff])(?:%[0-9a-fA-F]{2})+")
PROPERTIES = re.compile(r"(?:[&!]\S*(?:\s+#[^\r\n]*)*\s+)*")
HEADER = re.compile(r"[|>][^\r\n]*(\r\n|\r|\n)")
PAIR = re.compile(r"[\[,]\s*(?:#[^\r\n]*\s*)*\?(?=\s|$)")
LEFT_OUT = r"=VAL( &\d+)?( <.*>)? :$"
FAULT = re.compile(r"^! (.*) at byte (\d+) line \d+ column (\d+)$", re.S)
EVENT = re.compile(r"^> (.*) @ (\d+),(\d+),(\d+) (\d+),(\d+),(\d+)$", re.S)
MOST_ROUNDS = 40


def words_of(line):
    """What a line tells, without its places."""
    found = EVENT.match(line) or FAULT.match(line)
    return found[1] if found else line


def place_of(line):
    """The index at which an event begins, or that of a fault."""
    found = EVENT.match(line) or FAULT.match(line)
    return int(found[2]) if found else 0


def replaced(text, start, end, by):
    return text[:start] + by * (end - start) + text[end:]


class Difference:
    """A text with two lists, what was done to it so far, and for what words."""

    def __init__(self, number, text, theirs, ours):
        self.number, self.text, self.theirs, self.ours = number, text, theirs, ours
        self.changed, self.mends, self.words = text, [], []
        # The text before pairs lost their `?`, and whether all lines are compared.
        self.with_pairs, self.is_whole = None, True

    @property
    def is_explained(self):
        return self.theirs == self.ours

    @property
    def first(self):
        """The number of the first line that differs."""
        pairs = enumerate(zip(self.theirs, self.ours))
        return next((at for at, (one, other) in pairs if one != other), min(len(self.theirs), len(self.ours)))

    def lines(self):
        """The lines that differ first, or nothing where a list ends."""
        return [it[self.first] if self.first < len(it) else "" for it in (self.theirs, self.ours)]

    def take(self, theirs):
        """Takes the crate's list of the changed text."""
        for mend in self.mends:
            theirs = mend(theirs)
        self.theirs = theirs

    def shown(self):
        return f"{self.text!r}\n  changed to: {self.changed!r}\n  the crate:  {self.theirs}\n  here:       {self.ours}"


# Each reason takes a difference, and returns None where it is not that. Else it returns the text without the reason,
# and what is to be done to the crate's list of it, or None if that is all.


def unknown_anchor(it):
    """Here the alias has no anchor: it gets a name that no anchor has."""
    ours, found = it.ours[-1], re.compile(r"\*[^\s,\[\]{}]+")
    at = place_of(ours)
    name = found.match(it.changed, at)
    if "unknown anchor" not in ours or not name or not it.lines()[0].startswith("> =ALI"):
        return None
    unknown = next(c for c in "ABCDEFGHIJKLMNOPQRSTUVWXYZ" if f"&{c}" not in it.changed)
    return replaced(it.changed, at + 1, name.end(), unknown), None


def letters_of(run, number):
    """As many letters as a run of escapes has characters, which no other text has."""
    return f"q{number}{'q' * len(run)}"[: len(run) - 1] + "q"


def escaped_tag(it):
    """Escapes become letters in the text, and then their characters in the crate's list."""
    lines = it.lines()
    runs = [run for run in ESCAPES.findall(it.changed) if re.search("%[89a-fA-F]", run)]
    if not runs or not any(re.search("<|^! while parsing a (tag|directive)|^! while scanning", line) for line in lines):
        return None
    text, letters = it.changed, {}
    for number, run in enumerate(dict.fromkeys(sorted(runs, key=len, reverse=True))):
        letters[letters_of(run, number)] = run
        text = text.replace(run, letters_of(run, number))

    def mend(theirs):
        for mark, run in letters.items():
            try:
                decoded = bytes.fromhex(run.replace("%", "")).decode()
                theirs = [re.sub(r"<[^ >]*>", lambda tag: tag[0].replace(mark, decoded), line) for line in theirs]
            except UnicodeDecodeError:
                theirs = with_fault_of(run, it, theirs)
            theirs = [line.replace(mark, run) for line in theirs]
        return theirs

    return text, mend


def with_fault_of(run, it, theirs):
    """Escapes that stand for no characters are refused here, at their tag."""
    is_fault = words_of(it.ours[-1]) == "while parsing a tag, found an invalid UTF-8 codepoint"
    if is_fault and len(it.ours) > 1 and re.match(rf"\S*{run}", it.text[place_of(it.ours[-1]) :]):
        return [*theirs[: len(it.ours) - 1], it.ours[-1]]
    return theirs


def tab_behind_colon(it):
    """The tab becomes a space."""
    fault = it.theirs[-1]
    if "':' must be followed" not in fault:
        return None
    end = place_of(fault)
    start = len(it.changed[:end].rstrip(" \t"))
    return (replaced(it.changed, start, end, " "), None) if "\t" in it.changed[start:end] else None


def tab_before_comment(it):
    """The tab becomes a space. Where the text may not go on behind the comment, it is refused here at the comment."""
    start = min(place_of(line) for line in it.lines() if line)
    tabs = list(re.finditer(r"[ \t]*\t[ \t]*(?=#)", it.changed))
    found = next((tab for tab in tabs if tab.end() >= start), tabs[-1] if tabs else None)
    if not found:
        return None

    def mend(theirs):
        fault = FAULT.match(it.ours[-1])
        is_there = fault and fault[1].startswith("comment intercepting") and int(fault[2]) == found.end()
        is_refused = theirs[: len(it.ours) - 1] == it.ours[:-1] and theirs[-1].startswith("! ")
        return it.ours if is_there and is_refused else theirs

    return replaced(it.changed, found.start(), found.end(), " "), mend


def indented_marker(it):
    """The word becomes letters."""
    fault = FAULT.match(it.theirs[-1])
    if not fault or int(fault[3]) < 2 or it.changed[int(fault[2]) :][:3] not in ("---", "..."):
        return None
    return replaced(it.changed, int(fault[2]), int(fault[2]) + 3, "a"), None


def wide_directive(it):
    """Characters of more than a byte become letters in the lines of directives."""
    changed = re.sub(
        rf"(?:^|(?<=[\r\n\ufeff]))%[^\r\n]*", lambda line: re.sub(r"[^\0-\x7f\ufeff]", "a", line[0]), it.changed
    )
    return (changed, None) if changed != it.changed and words_of(it.lines()[0]) == words_of(it.lines()[1]) else None


def clip(it):
    """The scalar has a break less where the text ends in a line of spaces."""
    theirs, ours = it.lines()
    fewer = re.sub(r"\\n(?= @ )", "", theirs, count=1)
    ends_in_spaces = re.search(rf"{BREAK} *(\0.*)?$", it.changed, re.S)
    if fewer != ours or not re.search(r"^> =VAL .*[|>]", ours) or not ends_in_spaces:
        return None
    return it.changed, lambda lines: [ours if line == theirs else line for line in lines]


def block_at_0(it):
    """The block scalar becomes a plain one. Its line is taken from ours, or that of the end at which it stands."""
    at = it.first + it.lines()[1].startswith("> +DOC")
    if at >= len(it.ours) or at >= len(it.theirs):
        return None
    one, other = EVENT.match(it.theirs[at]), EVENT.match(it.ours[at])
    if not one or not other or one[2] != other[2] or not one[1].startswith(re.sub(r"(\\n)*$", "", other[1])):
        return None
    start, end, text = int(other[2]), int(other[5]), it.changed
    # A scalar with properties begins at these, another one behind its header.
    header = next((it for it in HEADER.finditer(text, 0, start) if not text[it.end() : start].strip()), None)
    if not header or re.match("=VAL [&<]", other[1]):
        header = HEADER.match(text, PROPERTIES.match(text, start).end())
    if text[end:][:3] not in ("---", "...") or not header:
        return None
    if other[1] == "-DOC":
        return text, lambda theirs: [*theirs[:at], it.ours[at], *theirs[at + 1 :]]
    behind = header.start(1)
    front = text[: header.start()] + "a" + " " * (behind - header.start() - 1)
    text = front + re.sub(r"[^\s]", "a", text[behind:end]) + text[end:]

    def mend(theirs):
        first = at - 1 if it.ours[at - 1].startswith("> +DOC @") else at
        return theirs[:first] + it.ours[first : at + 1] + theirs[at + 1 :]

    return text, mend


def with_our_ends(ours, marks):
    """Takes the places of these marks and of values that are left out from ours, where all lines tell the same."""
    may = re.compile(rf"{marks}$|{LEFT_OUT}")

    def mend(theirs):
        if [words_of(it) for it in theirs] != [words_of(it) for it in ours]:
            return theirs
        return [other if may.match(words_of(other)) else one for one, other in zip(theirs, ours)]

    return mend


def marked_pair(it):
    """The pair loses its `?`. If it means something else then, the lists are compared up to the pair."""
    pair = PAIR.search(it.changed)
    if pair and not it.with_pairs and max(place_of(line) for line in it.lines() if line) >= pair.start():
        it.with_pairs = it.changed
        if [words_of(line) for line in it.theirs] == [words_of(line) for line in it.ours]:
            return it.changed, with_our_ends(it.ours, "-MAP")
        return PAIR.sub(lambda found: f"{found[0][:-1]} ", it.changed), with_our_ends(it.ours, "[+-]MAP")
    if not it.with_pairs or not it.is_whole:
        return None
    it.is_whole = False
    return it.with_pairs, lambda theirs: it.ours


REASONS = [
    ("Anchors are forgotten at each document's start, also in iteration.", unknown_anchor),
    ("Percent escapes in tags stand for the characters whose UTF-8 they are", escaped_tag),
    ("Inside flow a tab may stand between a colon and its value.", tab_behind_colon),
    ("`fetch_while_is_yaml_non_space` counts characters in every input, not bytes.", wide_directive),
    ("Clip keeps one break where the text ends in a line of spaces", clip),
    ("A block scalar at indentation 0 ends at `---` too", block_at_0),
    ("An indented `---` is a word of a plain scalar.", indented_marker),
    ("After a tab too, a comment ends a plain scalar.", tab_before_comment),
    ("In a flow sequence, after a pair with `?`, a pair without `?` has the spans of such pairs", marked_pair),
]


def explain(texts, lists, ask):
    """The texts whose list is not the crate's, each with the words that explain it. `ask` gives the crate's lists."""
    both = zip(texts, ask(texts), lists)
    differing = [Difference(at, *it) for at, it in enumerate(both) if it[1] != it[2]]
    pending = differing
    for _ in range(MOST_ROUNDS):
        found = []
        for it in pending:
            reason = next(((words, made) for words, by in REASONS if (made := by(it))), None)
            if reason and (reason[1][0] != it.changed or reason[1][1]):
                words, (it.changed, mend) = reason
                it.words.append(words)
                it.mends += [mend] if mend else []
                found.append(it)
        for it, theirs in zip(found, ask([it.changed for it in found]) if found else []):
            it.take(theirs)
        pending = [it for it in found if not it.is_explained]
    return differing
