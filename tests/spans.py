#!/usr/bin/env python3
"""Holds the tables of docs/SPANS.md against the spans that the parser gives.

    tests/spans.py [PROGRAM]

An example is a row's text and span: PROGRAM gives the events of the text, and one of the row's kind has that span.
PROGRAM reads and prints as tests/faces/cases.c does. Without one that file is compiled, with the library that
tests/faces.py takes.

What a row says is a rule: a `Reader` finds the row of each event of a text, and the span that the row means, with its
lines and columns. So it does for the examples, and for the cases of crates/test_cases/data that are not refused and
have no byte order mark: each of their events has to have that span. The order of spans that the page tells is looked at
too. A row of the page that the script doesn't know fails it, and so do words that the page lacks, and a row that no
event of a case has.
"""
import collections
import re
import shutil
import subprocess
import sys
import tempfile

import faces
from against_crate import DATA, ROOT, cases

PAGE = ROOT / "docs/SPANS.md"
BLANK, BREAK, MARK = " \t", "\r\n", "\ufeff"
EVENT = re.compile(r"([+=-][A-Z]{3})( ---)?( &\d+)?( <.*?>)?(?: ([:'\"|>])(.*)| \*\d+)?", re.S)
EXAMPLE = re.compile(r"`([^`]*)`: `(\d+)\.\.(\d+)`(?:, line (\d+))?")
LINE_BREAK = re.compile("\r\n|\r|\n")
ESCAPED, NAMED = re.compile(r"\\(.)"), {"n": "\n", "r": "\r", "t": "\t", "b": "\b", "\\": "\\"}
NOTHING = "nothing, at the next token"
COMMA = "the comma or the bracket after it, and its tail"
DOCUMENT_END = "`DocumentEnd`", "the `...`, else the next `---`, else nothing, at the end of the text"
LINES = "`Scalar`, literal or folded", "its first content to the next other line, after empty lines and that line's spaces"
WITH_PROPERTIES = "a scalar with properties", "the first property to the end of the scalar, or of the last"
BRACKET = "a flow collection's start or end", "the bracket and its tail"
AT_COLON, NO_KEY = ("a key before `:`, a value after it", "nothing, at the colon"), "a key after `?`, a whole document"

# The rows of the page: the first column, or that of the row above where it is empty, and the second.
ROWS = {
    "stream start": ("`StreamStart`", "nothing, at the start of the text"),
    "stream end": ("`StreamEnd`", "nothing, at the start of a line after the text"),
    "explicit": ("`DocumentStart(true)`", "the `---`"),
    "implicit": ("`DocumentStart(false)`", "what the document's first token covers"),
    "before a block": ("`DocumentStart(false)`", "nothing, if a block collection comes first"),
    "dots": DOCUMENT_END,
    "dashes": DOCUMENT_END,
    "end": DOCUMENT_END,
    "alias": ("`Alias`", "the `*` and the name"),
    "plain": ("`Scalar`, plain", "its first character to its last"),
    "quoted": ("`Scalar`, quoted", "both quotes and their tail"),
    "lines": LINES,
    "empty lines": LINES,
    "no lines": (LINES[0], "without content: nothing, after the spaces of the line after it"),
    "header": (LINES[0], "without content, at the end of the text: all from the header on"),
    "with properties": WITH_PROPERTIES,
    "properties": WITH_PROPERTIES,
    "[": BRACKET,
    "{": BRACKET,
    "]": BRACKET,
    "}": BRACKET,
    ",}": ("`MappingEnd`, after a comma", "that comma and its tail"),
    "sequence": ("`SequenceStart`, block", "nothing, at the first `-`"),
    "at its key": (
        "`SequenceStart`, block",
        "if that is at its key's column: nothing, after it and its tail",
    ),
    "mapping": ("`MappingStart`, block", "nothing, at the first key or its first property"),
    "collection": ("a collection with properties", "the first property to the end of what its start covers"),
    "block end": ("`SequenceEnd`, `MappingEnd`, block", f"{NOTHING} or at the end of the text"),
    "mark behind": (
        "`SequenceEnd`, `MappingEnd`, block",
        "of a sequence at its key's column, before a `?`: what that covers",
    ),
    "pair": ("`MappingStart` of a pair in `[]`", "nothing, at its first key"),
    "? pair": ("`MappingStart` of a pair in `[]`", "the `?`, and blanks, breaks and comments after it"),
    "pair end": ("`MappingEnd` of such a pair", NOTHING),
    "? pair end": (
        "`MappingEnd` of such a pair",
        "with a `?`: nothing, where the value's first token ends, or the token in its place",
    ),
    "entry": ("an entry after `-`", "nothing, after the dash and its tail"),
    "value": AT_COLON,
    "? pair value": (AT_COLON[0], f"the value in a pair in `[]` with a `?`: {COMMA}"),
    "no value": ("a value without `:`, in block", NOTHING),
    "no value before a mark": ("a value without `:`, in block", "before a `?`: what that covers"),
    "no value in flow": ("a value without `:`, in flow", COMMA),
    "key": AT_COLON,
    "? key": (NO_KEY, "what the next token covers"),
    "document": (NO_KEY, "what the next token covers"),
}


# The rows whose span is nothing, at the start of a line after the text, where nothing is left of it.
AFTER_TEXT = {"stream end", "end", "block end", "no value", "? key", "document"}

# Texts with their events, one of which has a wrong span: that of a bracket begins behind it, that of an alias ends
# before its name does, and that of a stream's end is behind the text; that of a sequence is on another line, that of a
# bracket in another column, that of a document's end on the line of the text, and that of a scalar ends on the next.
WRONG = {
    "[[]]": "> +STR @ 0,1,0 0,1,0 / > +DOC @ 0,1,0 1,1,1 / > +SEQ @ 0,1,0 1,1,1 / > +SEQ @ 2,1,2 2,1,2 / "
            "> -SEQ @ 2,1,2 3,1,3 / > -SEQ @ 3,1,3 4,1,4 / > -DOC @ 4,2,0 4,2,0 / > -STR @ 4,2,0 4,2,0",
    "- &a b\n- *a": "> +STR @ 0,1,0 0,1,0 / > +DOC @ 0,1,0 0,1,0 / > +SEQ @ 0,1,0 0,1,0 / > =VAL &1 :b @ 2,1,2 6,1,6 / "
                    "> =ALI *1 @ 9,2,2 10,2,3 / > -SEQ @ 11,3,0 11,3,0 / > -DOC @ 11,3,0 11,3,0 / "
                    "> -STR @ 11,3,0 11,3,0",
    "a": "> +STR @ 0,1,0 0,1,0 / > +DOC @ 0,1,0 1,1,1 / > =VAL :a @ 0,1,0 1,1,1 / > -DOC @ 1,2,0 1,2,0 / "
         "> -STR @ 2,2,0 2,2,0",
    "a:\r\n- b": "> +STR @ 0,1,0 0,1,0 / > +DOC @ 0,1,0 0,1,0 / > +MAP @ 0,1,0 0,1,0 / > =VAL :a @ 0,1,0 1,1,1 / "
                 "> +SEQ @ 6,3,2 6,3,2 / > =VAL :b @ 6,2,2 7,2,3 / > -SEQ @ 7,3,0 7,3,0 / > -MAP @ 7,3,0 7,3,0 / "
                 "> -DOC @ 7,3,0 7,3,0 / > -STR @ 7,3,0 7,3,0",
    "[é]": "> +STR @ 0,1,0 0,1,0 / > +DOC @ 0,1,0 1,1,1 / > +SEQ @ 0,1,0 1,1,1 / > =VAL :é @ 1,1,1 2,1,2 / "
           "> -SEQ @ 2,1,3 3,1,4 / > -DOC @ 3,2,0 3,2,0 / > -STR @ 3,2,0 3,2,0",
    "'a'": "> +STR @ 0,1,0 0,1,0 / > +DOC @ 0,1,0 3,1,3 / > =VAL 'a @ 0,1,0 3,1,3 / > -DOC @ 3,1,3 3,1,3 / "
           "> -STR @ 3,2,0 3,2,0",
    "b": "> +STR @ 0,1,0 0,1,0 / > +DOC @ 0,1,0 1,1,1 / > =VAL :b @ 0,1,0 1,2,0 / > -DOC @ 1,2,0 1,2,0 / "
         "> -STR @ 1,2,0 1,2,0",
}


class Event:
    """An event as a case has it, with its span as places, and as indices."""

    def __init__(self, line):
        words, _, span = line[2:].rpartition(" @ ")
        found = EVENT.fullmatch(words)
        self.kind, self.explicit, *properties, self.style, value = found.groups()
        self.value = value and unescaped(value)
        self.properties = sum(map(bool, properties))
        self.places = tuple(tuple(map(int, place.split(","))) for place in span.split(" "))
        self.span = tuple(index for index, _, _ in self.places)
        self.is_left_out = self.kind == "=VAL" and (self.style, self.value, self.properties) == (":", "", 0)


class Collection:
    def __init__(self, kind, is_flow, column=None):
        self.kind, self.is_flow, self.column = kind, is_flow, column
        self.is_pair = self.is_marked = self.is_at_key = self.has_entry = self.has_question = False
        self.parts, self.first_end = 0, None


class Reader:
    """Goes through a text with its events. `at` is behind the last token that was passed."""

    def __init__(self, text, events):
        self.text, self.events, self.at, self.open = text, events, 0, []

    # ## Places of the text

    def c(self, i):
        return self.text[i : i + 1]

    def line_end(self, i):
        while self.c(i) and self.c(i) not in BREAK:
            i += 1
        return i

    def blanks_end(self, i):
        while self.c(i) and self.c(i) in BLANK:
            i += 1
        return i

    def tail(self, i):
        """The end of the blanks and the comment from here on."""
        i = self.blanks_end(i)
        return self.line_end(i) if self.c(i) == "#" else i

    def token(self, i):
        """Where the next token begins."""
        while self.c(i) and self.c(i) in BLANK + BREAK + "#":
            i = self.line_end(i) if self.c(i) == "#" else i + 1
        return i

    def column(self, i):
        return i - max(self.text.rfind(c, 0, i) for c in BREAK) - 1

    def places(self, span, row, column):
        """The places of a row's span in a collection at a column, each with its index, line and column. An index may be
        None. What is left of a block collection on the last line ends it there."""
        end = len(self.text)
        is_behind = row in AFTER_TEXT and span == (end, end) and self.column(end) >= column
        return tuple(i if i is None else self.place(i, is_behind) for i in span)

    def place(self, i, is_behind):
        line, column = len(LINE_BREAK.findall(self.text[:i])) + 1, self.column(i)
        return (i, line + 1, 0) if is_behind and column else (i, line, column)

    def is_mark(self, i, mark):
        """Whether `?`, `:` or `-` is an indicator here."""
        is_in_flow = mark == ":" and bool(self.open) and self.open[-1].is_flow
        return self.c(i) == mark and self.c(i + 1) in BLANK + BREAK + ",[]{}" * is_in_flow

    def is_marker(self, i):
        is_first = i == 0 or self.c(i - 1) in BREAK
        return is_first and self.text[i : i + 3] in ("---", "...") and self.c(i + 3) in BLANK + BREAK

    def begins_entry(self, i):
        """Whether the `?` of the innermost collection's next entry is here."""
        inside = self.open[-1]
        return self.is_mark(i, "?") and (inside.is_flow or inside.column == self.column(i))

    def covered(self, i):
        """What the token covers that stands in a node's place."""
        if not self.open:
            return (i, i + 3) if self.is_marker(i) else (i, i)
        if self.open[-1].is_flow and self.c(i) in ",]}":
            return i, self.tail(i + 1)
        return (i, self.token(i + 1)) if self.begins_entry(i) else (i, i)

    def name_end(self, i):
        if self.text.startswith("!<", i):
            return self.text.index(">", i) + 1
        while self.c(i) and self.c(i) not in BLANK + BREAK + ",[]{}":
            i += 1
        return i

    def behind_properties(self, i, count):
        """Where a node's properties end, and where what is behind them begins."""
        end = i
        for _ in range(count):
            end = self.name_end(i)
            i = self.token(end)
        return end, i

    # ## Nodes

    def before_node(self):
        """Passes what is before a node. The indicator right before it, its place, and where the node begins."""
        inside, i = self.open[-1] if self.open else None, self.token(self.at)
        if inside is None or (inside.is_pair and inside.parts == 0):
            return "", i, i
        is_value = inside.kind == "MAP" and inside.parts % 2 == 1
        if inside.is_flow and self.c(i) == "," and not is_value:
            self.at = i = self.token(i + 1)
        mark = ":" if is_value else "?" if inside.kind == "MAP" else "" if inside.is_flow else "-"
        if not inside.has_entry and not (mark and self.is_before(inside, i, mark)):
            inside.has_question = False
            return "", i, i
        if not inside.has_entry:
            self.at = self.tail(i + 1) if mark == "-" else i + 1
        inside.has_entry, inside.has_question = False, mark == "?"
        return mark, i, self.token(self.at)

    def is_before(self, inside, i, mark):
        """Whether the indicator that a node of this collection may have before it is here."""
        if inside.is_flow:
            return self.c(i) == ":" if mark == ":" else self.is_mark(i, mark)
        return self.is_mark(i, mark) and (self.column(i) == inside.column or (mark == ":" and not inside.has_question))

    def node(self, event):
        """The row of a scalar, an alias or a collection's start, and its span."""
        inside = self.open[-1] if self.open else None
        mark, indicator, place = self.before_node()
        if event.is_left_out:
            row, span = self.left_out(mark, indicator, place)
            first = span[1]
        else:
            end, own = self.behind_properties(place, event.properties)
            row, span = self.written(event, place, end, own)
            first = self.name_end(place) if event.properties else span[1]
            self.at = max(self.at, event.span[1])
        if inside:
            inside.parts += 1
            inside.first_end = first
        return row, span

    def left_out(self, mark, indicator, place):
        inside = self.open[-1] if self.open else None
        if inside is None:
            return "document", self.covered(place)
        if mark == "-":
            return "entry", (self.at, self.at)
        is_first_of_marked = inside.is_marked and inside.parts == 0
        if inside.parts % 2 == 0:
            return ("? key", self.covered(place)) if mark == "?" or is_first_of_marked else ("key", (place, place))
        if mark == ":":
            return ("? pair value", self.covered(place)) if inside.is_marked else ("value", (indicator, indicator))
        if inside.is_flow:
            return "no value in flow", self.covered(place)
        return "no value before a mark" if self.begins_entry(place) else "no value", self.covered(place)

    def written(self, event, place, end, own):
        if event.kind == "=ALI":
            return "alias", (place, self.name_end(place))
        if event.kind[0] == "+":
            return self.collection(event, place, own)
        if event.style == ":" and not event.value:
            return "properties", (place, end)
        row, span = self.scalar(event, own)
        return ("with properties", (place, span[1])) if event.properties else (row, span)

    def scalar(self, event, own):
        if event.style in "'\"":
            body = r"'(?:[^']|'')*'" if event.style == "'" else r'"(?:[^"\\]|\\.)*"'
            return "quoted", (own, self.tail(re.compile(body, re.S).match(self.text, own).end()))
        if event.style == ":":
            text = self.text[own : event.span[1]]
            return "plain", (own, event.span[1] if folded(text) == event.value else None)
        return self.block_scalar(event, own)

    def block_scalar(self, event, own):
        """Which lines it has is for its indentation to say. So its first line has to begin its value, and its span has
        to end at the text's end or after the spaces of a line that goes on."""
        start, end = event.span
        is_line = not self.text[end - self.column(end) : end].strip(" ") and self.c(end) not in " " + BREAK
        closes = end if is_line or not self.c(end) else None
        if not event.value.strip("\n"):
            return ("no lines", (closes, closes)) if self.c(end) else ("header", (own, end))
        line = self.text[start : self.line_end(start)]
        begins = event.properties or event.value.lstrip("\n").startswith(line)
        lines = self.text[self.line_end(own) : end]
        breaks = re.findall("\r\n|\r|\n", lines[len(lines.rstrip(BLANK + BREAK)) :])
        return "empty lines" if len(breaks) > 1 else "lines", (start if begins else None, closes)

    # ## Collections

    def collection(self, event, place, own):
        kind, bracket = event.kind[1:], "[" if event.kind == "+SEQ" else "{"
        parent = self.open[-1] if self.open else None
        if self.c(own) == bracket and event.span[1] > own:
            self.open.append(Collection(kind, True))
            row, span = bracket, (place, self.tail(own + 1))
        elif parent and parent.is_flow and kind == "MAP":
            made = Collection(kind, True)
            made.is_pair, made.is_marked = True, self.is_mark(own, "?")
            self.open.append(made)
            return ("? pair", self.covered(own)) if made.is_marked else ("pair", (own, own))
        else:
            row, span = self.block(kind, parent, place, own)
        return ("collection", span) if event.properties else (row, span)

    def block(self, kind, parent, place, own):
        made = Collection(kind, False, self.column(own))
        made.is_at_key = kind == "SEQ" and parent is not None and parent.kind == "MAP" and made.column == parent.column
        made.has_entry = made.is_at_key
        self.open.append(made)
        if made.is_at_key:
            return "at its key", (place if place < own else self.tail(own + 1), self.tail(own + 1))
        return "sequence" if kind == "SEQ" else "mapping", (place, own)

    def collection_end(self):
        ended, i = self.open.pop(), self.token(self.at)
        if ended.is_pair:
            return ("? pair end", (ended.first_end,) * 2) if ended.is_marked else ("pair end", (i, i))
        if not ended.is_flow:
            if ended.is_at_key and self.begins_entry(i):
                return "mark behind", self.covered(i)
            return "block end", (i, i)
        comma = i
        if self.c(i) == ",":
            i = self.token(i + 1)
        self.at = self.tail(i + 1)
        if ended.kind == "MAP" and comma != i:
            return ",}", (comma, self.tail(comma + 1))
        return self.c(i), (i, self.at)

    # ## Documents

    def document_start(self, event, following):
        i = self.token(self.at)
        while self.c(i) == "%" or (self.is_marker(i) and self.c(i) == "."):
            i = self.token(self.line_end(i) if self.c(i) == "%" else i + 3)
        self.at = i
        if event.explicit:
            self.at = i + 3
            return "explicit", (i, i + 3)
        if following.properties and following.span[0] != following.span[1]:
            return "implicit", (i, self.name_end(i))
        is_block = following.kind[0] == "+" and following.span[0] == following.span[1]
        return "before a block" if is_block else "implicit", following.span

    def document_end(self):
        i = self.token(self.at)
        if not self.is_marker(i):
            return "end", (i, i)
        if self.c(i) == ".":
            self.at = i + 3
        return "dots" if self.c(i) == "." else "dashes", (i, i + 3)

    def rows(self):
        """Each event with its row and the places of the span that the row means."""
        for number, event in enumerate(self.events):
            column = self.open[-1].column or 0 if self.open else 0
            if event.kind == "+STR":
                row, span = "stream start", (0, 0)
            elif event.kind == "-STR":
                row, span = "stream end", (len(self.text),) * 2
            elif event.kind == "+DOC":
                row, span = self.document_start(event, self.events[number + 1])
            elif event.kind == "-DOC":
                row, span = self.document_end()
            elif event.kind in ("-SEQ", "-MAP"):
                row, span = self.collection_end()
            else:
                row, span = self.node(event)
            yield event, row, self.places(span, row, column)


def folded(text):
    """The value of a plain scalar's text."""
    breaks = re.compile(r"[ \t]*(?:\r\n|\r|\n)[ \t\r\n]*")
    return breaks.sub(lambda it: "\n" * (len(re.findall("\r\n|\r|\n", it[0])) - 1) or " ", text)


def read(text, lines):
    """The events of a text with their rows and spans: of one that is not refused and has no byte order mark."""
    if MARK in text or lines[-1][0] == "!":
        return []
    return list(Reader(text, [Event(line) for line in lines]).rows())


# ## The page


def page_rows():
    """The rows of both tables: the first two cells, a text, the span there, and the line where it begins or None."""
    first = words = ""
    for line in PAGE.read_text(encoding="utf-8").split("\n"):
        cells = [cell.strip() for cell in re.split(r"(?<!\\)\|", line)]
        if len(cells) == 5:
            first, words = cells[1] or first, cells[2] or words
            for text, start, end, line in EXAMPLE.findall(cells[3]):
                yield first, words, unescaped(text.replace("\\|", "|")), (int(start), int(end)), line and int(line)


def unescaped(text):
    return ESCAPED.sub(lambda it: NAMED[it[1]], text)


def given(program, texts, *words):
    """The lines of each text, by a program as tests/faces/cases.c is, with such arguments."""
    framed = b"".join(b"0 %d\n" % len(it.encode()) + it.encode() for it in texts)
    said = subprocess.run([program, *words], input=framed, capture_output=True, check=True).stdout
    return [it.decode().rstrip("\n").split("\n") for it in said.split(b"\xff")[:-1]]


def check_page(program):
    """What is wrong with the page's examples, and which rows it has and should not have, or lacks."""
    rows = list(page_rows())
    stated = {(first, words) for first, words, *_ in rows}
    wrong = [f"no rule for this row: {it}" for it in stated - set(ROWS.values())]
    wrong += [f"the page lacks this row: {it}" for it in set(ROWS.values()) - stated]
    answers = given(program, [it[2] for it in rows]) if program else []
    for (first, words, text, span, line), lines in zip(rows, answers):
        events = read(text, lines)
        found = [event for event, row, _ in events if ROWS[row] == (first, words)]
        if not any(it.span == span and line in ("", it.places[0][1]) for it in found):
            wrong.append(f"{text!r}: {first}, {words}: {span} isn't in {[it.places for it in found]}")
        wrong += [f"{text!r}: {it}" for it in wrong_spans(events)]
    return wrong


def wrong_spans(events):
    """What is wrong with the spans of events, and with their order."""
    yield from (f"{row}: {event.kind} {event.places}, and by the page {places}"
                for event, row, places in events if event.places != places)
    yield from check_order(events)


def check_order(events):
    """What is wrong with the order of spans. Only a pair with a `?` in `[]` ends before its parts do."""
    start, known, ends = 0, "", [[]]
    for event, row, _ in events:
        if event.span[0] < start and "? pair end" not in (row, known):
            yield f"{row}: {event.kind} {event.span} begins before {start}"
        start, known = event.span[0], row
        if event.kind in ("+SEQ", "+MAP"):
            ends.append([])
        if event.kind in ("-SEQ", "-MAP"):
            furthest = max(ends.pop(), default=0)
            if furthest > event.span[1] and row != "? pair end":
                yield f"{row}: {event.kind} {event.span} ends before {furthest}"
        ends[-1].append(event.span[1])


def check_cases():
    """What is wrong with the spans of all cases, and how many events each row has."""
    wrong, counts = [], collections.Counter()
    for path in sorted(DATA.glob("*.txt")):
        for name, text, _, lines in cases(path):
            events = read(text, lines)
            counts.update(row for _, row, _ in events)
            wrong += [f"{name}, {text!r}: {it}" for it in wrong_spans(events)]
    return wrong + [f"no case has this row: {ROWS[row]}" for row in ROWS if not counts[row]], counts


def check_wrong():
    """Which of the wrong lists have no span that is found to be wrong."""
    return [f"{text!r}: no wrong span is found" for text, lines in WRONG.items()
            if all(event.places == places for event, _, places in read(text, lines.split(" / ")))]


def compiled(folder, name="cases"):
    """A program of tests/faces over the C face, or None where there is no compiler of C."""
    made, compiler = f"{folder}/{name}", shutil.which("cc") or shutil.which("clang")
    if compiler:
        faces.call([compiler, *faces.HOW, f"{ROOT}/tests/faces/{name}.c", *faces.libraries(), "-o", made], ROOT)
    return made if compiler else None


def main(words):
    with tempfile.TemporaryDirectory() as folder:
        program = words[0] if words else compiled(folder)
        skipped = 0 if program else faces.without("the examples of spans", ["compiler of C"])
        wrong = check_page(program)
    of_cases, counts = check_cases()
    wrong += of_cases + check_wrong()
    for it in wrong[:20]:
        print(it)
    print(f"spans: {counts.total()} events of cases, each by its row of the page; {len(wrong)} wrong")
    return 1 if wrong else skipped


if __name__ == "__main__":
    sys.exit(main(sys.argv[1:]))
