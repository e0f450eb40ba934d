#!/usr/bin/env python3
"""How many answers a text has: all lists of events without a fault that are taken from it and are not the parser's.

    tests/answers.py [--length N] [--random COUNT] [--longest N] [--seed SEED] [--alphabet CHARACTERS]
    tests/answers.py --tokens [--length N]
    tests/answers.py --small
    tests/answers.py TEXT..
    tests/answers.py --cases [--longest N] [FILE..]

The definitions say when a list of events is taken from a text (`AreTaken`), and many lists may be. This searches them
all, for each TEXT; or for all texts of up to N characters (3) of an alphabet and COUNT random ones (0) of up to
`--longest` (12); or for all texts of up to N tokens (7) of each alphabet of `TOKENS`. `--small` has a few thousand of
both. Texts that the parser refuses count too: a parser that gave such a list for one would meet the definitions.

What the parser answers is what the program prints, as `rt ci` or `rt run` in crates/dump_events left it in out/, or
another that `--program` names. `--against PROGRAM` names a program over the Rust crate (see tests/against_crate.py),
which is asked in its place, many texts at once; of what is found the program is asked again. `--jobs N` has N
processors.

A method of `Search` is a definition: given a place, it yields each way in which tokens from there on meet it, with what
they tell and the place behind them. `OPEN` names what the parser asks and no definition does: the search keeps to these
conditions too, and an answer that is taken for the want of one is counted under its name. `-` stands for an answer that
keeps to all: a class without a name, which wants a condition. A definition that comes to ask a condition takes its name
out of `OPEN`. A list of a refused text that the grammar of YAML has without E1 to E8 is the right one; such lists are
counted under `of YAML`. The script fails if a text that is read has a second list, by whatever name, or if one has no
name.

A list that a fault ends may end anywhere, and differ from the parser's before. What matters most is counted: whole
documents, from the text's start, that are given before a fault, and that the parser doesn't give. The definitions take
some of them: the ends of its collections are in the text, and a token behind it, but it may be a word of a longer plain
scalar, or empty before a token that begins no node.

With `--cases` what the files of test_cases store, or FILEs like them, is held against the definitions, for texts of up
to 700 characters: each answer without a fault has to be taken from its text. One that a fault ends has to begin so, but
for `WAIVED`: the parser may tell a value before it finds that a key's colon is missing, and end a single pair by a
brace before a bracket is one too many. (An alias may name any anchor there, and a tag is compared up to its prefix.)

What it doesn't tell: spans, of which each list has many; and answers with more than `--bare` (2) starts and keys
without a text at one place, of which the definitions take two at most.
"""
import argparse
import collections
import functools
import itertools
import multiprocessing
import os
import random
import re
import subprocess
import sys
import tempfile
import threading

from recognizer import Grammar, printed as printed_forest

TOP = os.path.dirname(os.path.dirname(os.path.abspath(__file__)))
PROGRAM, DATA = TOP + "/crates/dump_events/out/dump_events", TOP + "/crates/test_cases/data/"
PAGE = TOP + "/docs/PROMISES.md"
ALPHABET = "a:-?#[]{},&!*|>\"'. \n"
PIECES = ["a", "a ", "a: ", ": ", ":\n", "- ", "-\n", "? ", "\n ", "\n  ", "\n- ", "\n: ", "\n? ", "\na: ", "&a ",
          "&a\n", "!a ", "*a ", "|\n", ">\n", "--- ", "\n...\n", " #", "[a", "{a", ", ", "a\n", '"a"', "'a'", "%TAG ",
          "%a\n"]
# alphabets of tokens
TOKENS = [
    ["- ", "a", "\n", " "], ["? ", ": ", "a", "\n"], [": ", "a", "\n", " "], ["[", "]", "a", "\n"],
    ["[", ", ", ": ", "]"], ["{", "}", "a", ": "], ["[", "? ", ": ", "a"], ["|", "\n", " ", "a"],
    ["#", " ", "\n", "a"], ['"', "\n", " ", "a"], ["&a ", "a", "\n", ": "], ["- ", "? ", ": ", "\n"],
    ["---", "\n", "a", " "], ["- ", "&a\n", ": ", "a"], ["!a ", "*a", "&a ", "\n"], ["- ", "[", "]", "\n"],
    ["...", "\n", "a", " "], ["[", "! ", ": ", "]"],
]
END, MARK, BLANK, BREAK, FLOW = "\0", "\ufeff", " \t", "\n\r", ",[]{}"
WHITE, BREAKZ, BLANK_OR_BREAKZ = BLANK + BREAK, BREAK + END, BLANK + BREAK + END
WORD = "0123456789abcdefghijklmnopqrstuvwxyzABCDEFGHIJKLMNOPQRSTUVWXYZ-"
URI = WORD + "#;/?:@&=+$,_.!~*'()[]%"
SUFFIX, HEX = "".join(c for c in URI if c not in FLOW + "!"), "0123456789abcdefABCDEF"
ESCAPES = dict(zip('0abt\tnvfre "/\\N_LP', "\0\a\b\t\t\n\v\f\r\x1b \"/\\\x85\xa0\u2028\u2029"))
DIGITS = {"x": 2, "u": 4, "U": 8}
SHOWN = {"\\": "\\\\", "\n": "\\n", "\r": "\\r", "\b": "\\b", "\t": "\\t"}
STYLES = {"plain": ":", "'": "'", '"': '"', "|": "|", ">": ">"}
IN_FLOW, IN_BLOCK, IN_BLOCK_MAPPING, AS_BLOCK_KEY = "in flow", "in block", "in a block mapping", "as a block key"
ROOT = -1

# What stands at a place: white space and comments, a name, percent escapes, a handle, the parts of directives, and of a
# block scalar its header and the lines of spaces before its content.
APART = re.compile(r"(?:[ \t\n\r]|#[^\0\n\r\ufeff]*)*")
TIGHT = re.compile(r"(?<![ \t\n\r:\ufeff])(?!\A)#")
BEFORE_BLOCK = re.compile(r"(?:[ \t\ufeff]|[-?:](?=[ \t]))*")
NAME = re.compile(r"[^\0 \t\n\r\ufeff,\[\]{}]+")
BYTES = re.compile("(?:%[0-9a-fA-F]{2})+")
NAMED_HANDLE = re.compile("![0-9A-Za-z_-]*!")
SPACES = re.compile(" *")
BLANKS = re.compile(r"[ \t]*")
WHITE_SPACE = re.compile(r"[ \t\n\r]*")
LONE_TABS = re.compile(r"\t+[0-9A-Za-z_-]")
TAB_BETWEEN = re.compile(r"[ \t]*\t[ \t]*-(?=[\0 \t\n\r]|\Z)")
BEHIND_QUESTION = re.compile(r"(?:[ \n\r]|#[^\0\n\r\ufeff]*)*")
LAST_DASH = re.compile(r"(?:\A|[ \t\n\r])-\Z")
LINE_TAIL = re.compile(r"[ \t]*(?:(?<=[ \t])#[^\0\n\r\ufeff]*)?(?=[\0\n\r]|\Z)")
VERSION = re.compile(r"%YAML[ \t]+[0-9]{1,9}\.[0-9]{1,9}")
TAG = re.compile(r"%TAG[ \t]+")
RESERVED = re.compile(r"%([^\0 \t\n\r\ufeff]+)(?:[ \t][^\0\n\r\ufeff]*)?")
HEADER = re.compile(r"[|>]([1-9]?)([-+]?)([1-9]?)[ \t]*(?:(?<=[ \t])#[^\0\n\r\ufeff]*)?(\r\n|\r|\n)?")
LEADING = re.compile(r"[ \n\r]*")

# What the parser asks and no definition does, by a name: a smallest text, an answer of it that is taken for the want of
# this alone, and a pattern that each text has where it may be wanted.
OPEN = {
    # 6.6: it is asked of what is inside a token's span alone
    "a blank before a comment": ("[]#", "+SEQ / -SEQ", r"\S#"),
    # [126], of `-` alone; E4 behind another word
    "no indicator behind a dash": ("[-]", "+SEQ / =VAL :- / -SEQ", r"-[,\[\]{}]"),
    # E8: of YAML, unless the mapping is on the line of a colon
    "something behind a question mark": ("?", "+MAP / =VAL : / =VAL : / -MAP", r"\?\Z"),
    # 8.1: right of its collection's column, as other nodes
    "a block scalar's column": ("-\n|", "+SEQ / =VAL | / -SEQ", r"[\n\r][ \t]*[|>&!]"),
    # [183], [187]: it begins on a line of its own, or behind `-`, `?` or the colon of no key
    "the line of a block collection": ("a: -", "+MAP / =VAL :a / +SEQ / =VAL : / -SEQ / -MAP", r"\S[ \t]+[^\s#]"),
    # [185]: spaces alone are between the dashes of a compact sequence
    "no tab between dashes": ("-\t-", "+SEQ / +SEQ / =VAL : / -SEQ / -SEQ", r"-[ \t]*\t[ \t]*-"),
    # 6.1: in front of content no tab is left of where that may begin
    "no tab as indentation": (":\n\ta", "+MAP / =VAL : / =VAL :a / -MAP", r"(?:\A|[\n\r]) *\t"),
    # E1: of YAML, unless another rule is broken too
    "no tab behind a colon": (":\ta", "+MAP / =VAL : / =VAL :a / -MAP", r":\t"),
    # E2: of YAML, unless another rule is broken too
    "no tab behind a question mark": ("?\t", "+MAP / =VAL : / =VAL : / -MAP", r"(?s)\?.*\t"),
    # 7.4: up to the first plain scalar they are right of their collection's column, and then not left of it
    "the column of a line in brackets": ("- [\n]", "+SEQ / +SEQ / -SEQ / -SEQ", r"(?s)[\[{].*[\n\r]"),
    # 7.3: behind a colon, and where other content has to, it is right of its collection's column
    "the column of a line in quotes": (': "\n"', '+MAP / =VAL : / =VAL "  / -MAP', r"(?s)[\"'].*[\n\r]"),
    # 7.4.2: what ends like JSON is before it
    "no bracket behind a colon": ("[:[]]", "+SEQ / +MAP / =VAL : / +SEQ / -SEQ / -MAP / -SEQ", r":[\[{]"),
    # E3: of YAML, unless another rule is broken too
    "a colon on the line of a bracket": ("{[]\n:a}", "+MAP / +SEQ / -SEQ / =VAL :a / -MAP", r"(?s)[\]}].*[\n\r].*:"),
}
WAIVED = "key with a colon", "own braces"
ASKED, REFUSED = 0, 1

# A place: its index and column; how the last token that has a text ends like JSON, if so; how many starts and keys
# without a text stand there; how many events were told before, where they are known (`Search.known`); whether content
# has to be right of the innermost block collection's column; and whether the last token is a plain scalar, in a text
# with a tab.
Place = collections.namedtuple("Place", "index col ends_json bare emitted is_deeper is_behind_plain")
NOT_JSON, QUOTED, BRACKET = "", "quoted", "bracket"
START = Place(0, 0, NOT_JSON, 0, 0, False, False)
Leaf = collections.namedtuple("Leaf", "name anchor tag style value")
Opening = collections.namedtuple("Opening", "name anchor tag")
Reference = collections.namedtuple("Reference", "name anchor_name")
Document = collections.namedtuple("Document", "name explicit prefixes")
Bracket = collections.namedtuple("Bracket", "name")


def way(yields):
    """A definition whose ways are found once for each place."""
    @functools.wraps(yields)
    def found(self, *given):
        key = yields, given
        if key not in self.known_ways:
            ways = dict.fromkeys(it[:2] for it in yields(self, *given) if self.may(it[2]))
            self.known_ways[key] = [(*it, ASKED) for it in ways]
        return self.known_ways[key]
    return found


# ## saphyr_scalar, Values: Folding.antt, Flow.antt, Lines.antt and Block.antt
def folded(items):
    """Items are pairs of a kind ("blank", "raw", "escaped", "break" or "escaped break") and a character."""
    text, at_start = "", False
    for number, (kind, c) in enumerate(items):
        run = itertools.takewhile(lambda it: it[0] in ("blank", "break"), items[number + 1:])
        empty_lines = sum(it[0] == "break" for it in run)
        if kind == "blank":
            text += "" if at_start or empty_lines else c
        elif kind == "break":
            text += "" if at_start else "\n" * empty_lines or " "
        else:
            text += "\n" * empty_lines if kind == "escaped break" else c
        at_start = kind in ("break", "escaped break") or at_start and kind == "blank"
    return text


def raw_item(c):
    return ("break" if c == "\n" else "blank" if c in BLANK else "raw"), c


def plain_value(text):
    return folded([raw_item(c) for c in text])


def normalized(text):
    return text.replace("\r\n", "\n").replace("\r", "\n")


def is_empty_line(indentation, line):
    return len(line) <= indentation and not line.strip(" ")


def is_read_line(indentation, line):
    """An empty line, or content behind the indentation (IsReadLine)."""
    return is_empty_line(indentation, line) or len(line) - len(line.lstrip(" ")) >= indentation


def line_of(indentation, line):
    """The content of a line, or None of an empty one."""
    return None if is_empty_line(indentation, line) else line[indentation:]


def contents(style, lines):
    text, above, empty_lines = "", None, 0
    for line in lines:
        if line is None:
            empty_lines += 1
            continue
        folds = style == ">" and above and above[:1] not in BLANK and line[:1] not in BLANK
        between = "\n" * empty_lines or " " if folds else "\n" * (empty_lines + 1)
        text += "\n" * empty_lines if above is None else between
        text, above, empty_lines = text + line, line, 0
    return text, empty_lines


def lines_value(style, chomping, is_broken, lines):
    if not any(line is not None for line in lines):
        return "\n" * len(lines) if chomping == "+" else ""
    text, empty_lines = contents(style, lines)
    return text + "\n" * (is_broken and chomping != "-") + "\n" * (empty_lines if chomping == "+" else 0)


def block_value(style, chomping, indentation, text, is_at_end):
    *ended, last = text.split("\n")
    lines, counts = [line_of(indentation, line) for line in ended], True
    if is_empty_line(indentation, last):
        has_content = any(line is not None for line in lines)
        counts = is_at_end and last != "" and (len(last) == indentation if has_content else not lines)
    is_broken = is_empty_line(indentation, last) or is_at_end
    return lines_value(style, chomping, is_broken, lines + [line_of(indentation, last)] * counts)


class Search:
    """The answers of a text, or with the events `known`, whether these are one. What is waived isn't asked."""

    def __init__(self, text, bare, waived=(), known=None):
        self.text, self.most_bare, self.waived, self.known = text, bare, waived, known
        self.known_ways, self.furthest, self.has_tab = {}, 0, "\t" in text
        self.line_starts, self.behind_white = [0], []
        for index in range(len(text)):
            self.line_starts.append(index + 1 if self.ends_line(index) else self.line_starts[-1])
        for index in range(len(text) + 1):
            is_tight = TIGHT.match(text, index) and "a blank before a comment" not in waived
            self.behind_white.append(index if is_tight else APART.match(text, index).end())

    def at(self, index):
        return self.text[index] if index < len(self.text) else END

    def unless(self, name, holds):
        """What a way breaks that should meet a condition."""
        return ASKED if holds or name in self.waived else REFUSED

    def emit(self, place, part):
        """The part as what is told, if it may be told at a place."""
        if self.known is None:
            return [((part,), place)]
        if place.emitted == len(self.known) or not is_line_of(self.known[place.emitted], part):
            return []
        self.furthest = max(self.furthest, place.emitted + 1)
        return [((), place._replace(emitted=place.emitted + 1))]

    def may(self, broken):
        """Whether a way breaks nothing."""
        return not broken

    # ## saphyr_input: Places.antt, and saphyr_scalar: Spelling/LineBreaks.antt, Passing.antt
    def is_document_indicator(self, index):
        return self.text[index:index + 3] in ("---", "...") and self.at(index + 3) in BLANK_OR_BREAKZ

    def ends_line(self, index):
        return self.at(index) in BREAK and self.text[index:index + 2] != "\r\n"

    def passed(self, place, index):
        """The place at an index behind (IsPassed, end_of_text)."""
        start = self.line_starts[index]
        col = index - start if start > place.index else place.col + index - place.index
        return Place(index, col, place.ends_json, place.bare, place.emitted, place.is_deeper, place.is_behind_plain)

    def along(self, place, count, ends_json=NOT_JSON):
        """The place behind so many characters of a token on its line."""
        return Place(place.index + count, place.col + count, ends_json, 0, place.emitted, place.is_deeper, False)

    def behind(self, place, index, ends_json=NOT_JSON):
        """The place behind a token that may go over several lines."""
        place = self.passed(place, index)
        return Place(index, place.col, ends_json, 0, place.emitted, place.is_deeper, False)

    def has_break(self, place, other):
        return any(c in BREAK for c in self.text[place.index:other.index])

    # ## TokensTaken.antt. Each token stands where the next text does: those that have none may as well stand there, and
    # the white space that a plain scalar's reading takes may as well be passed here.
    def apart(self, place):
        """The place behind blanks, breaks and comments (AreApart)."""
        return self.passed(place, self.behind_white[place.index])

    def arrive(self, place, context, column):
        """The place of the next token, or None if none may begin there."""
        here = self.apart(place)
        is_left = context == IN_FLOW and here.col < column + place.is_deeper
        broken = self.unless("the column of a line in brackets", not is_left)
        broken |= self.unless("no tab as indentation", not self.has_tab or not self.is_behind_tab(place, here, column))
        return here if self.may(broken) else None

    def is_behind_tab(self, place, here, column):
        """Whether a tab is left of where content may begin, and content behind it."""
        front = self.text[self.line_starts[here.index]:here.index]
        if here.index in (place.index, len(self.text)) or front.strip(BLANK) or "\t" not in front:
            return False
        is_right = place.is_deeper or place.is_behind_plain and "#" not in self.text[place.index:here.index]
        return front.index("\t") < column + is_right

    def without_text(self, place):
        """The same place behind a start or a key that has no text (HasNoText, IsBlockStart)."""
        return [place._replace(bare=place.bare + 1)] if place.bare < self.most_bare else []

    def stands(self, place, c):
        """The place behind a character that stands at a place, if there is one (TakesCharacter)."""
        if place is None or self.at(place.index) != c:
            return []
        return [self.along(place, 1, BRACKET if c in "]}" else NOT_JSON)]

    def marker(self, place, text):
        is_marker = self.text.startswith(text, place.index) and self.is_document_indicator(place.index)
        ends = text == "---" or self.ends_line_behind(place.index + 3)
        return [self.along(place, 3)] if place.col == 0 and is_marker and ends else []

    def name_tokens(self, place, indicator):
        name = NAME.match(self.text, place.index + 1)
        if self.at(place.index) == indicator and name:
            yield name[0], self.along(place, 1 + len(name[0]))

    def is_dash(self, place):
        return self.at(place.index) == "-" and self.at(place.index + 1) in BLANK_OR_BREAKZ

    def key_tokens(self, place, context, column):
        """Whether a `?` begins a key, and the place behind that (IsQuestionMark, IsKeyStart)."""
        if context != IN_FLOW and place.col != column:
            return
        is_mark = self.at(place.index) == "?" and self.at(place.index + 1) in BLANK_OR_BREAKZ
        broken = self.unless("something behind a question mark", place.index + 1 < len(self.text))
        follows = BEHIND_QUESTION.match(self.text, place.index + 1) if is_mark else None
        broken |= self.unless("no tab behind a question mark", not follows or self.at(follows.end()) != "\t")
        if is_mark and self.may(broken):
            yield True, self.along(place, 1)._replace(is_deeper=context == IN_FLOW and place.is_deeper)
        yield from ((False, t) for t in self.without_text(place))

    def value_tokens(self, place, context, column):
        """The place behind a colon that comes next (IsColon). Content is right of the column of a block mapping."""
        here, in_flow = self.arrive(place, context, column), context == IN_FLOW
        for t in self.stands(here, ":"):
            following = self.at(t.index)
            if following in BLANK_OR_BREAKZ or in_flow and (following in FLOW or here.ends_json):
                broken = self.colon_breaks(place, here, following) if in_flow else self.tab_breaks(t)
                yield t._replace(is_deeper=not in_flow or t.is_deeper), broken

    def colon_breaks(self, place, here, following):
        """What a colon in brackets breaks, behind a token that ends at a place."""
        is_far = place.ends_json == BRACKET and self.has_break(place, here)
        is_beside = following not in BLANK_OR_BREAKZ + ",]}"
        broken = self.unless("a colon on the line of a bracket", not (is_far and is_beside))
        return broken | self.unless("no bracket behind a colon", here.ends_json or following not in "[{")

    def tab_breaks(self, place):
        """What is broken behind a colon outside brackets."""
        return self.unless("no tab behind a colon", not LONE_TABS.match(self.text, place.index))

    # ## Spelling/Tag.antt
    def decoded(self, index, among):
        """Each beginning of a text of characters and percent escapes, and the index behind it (IsDecoded)."""
        value = ""
        yield value, index
        while True:
            escapes = BYTES.match(self.text, index)
            if escapes:
                read = bytes.fromhex(escapes[0].replace("%", ""))
                count = 1 + (read[0] >= 0xc0) + (read[0] >= 0xe0) + (read[0] >= 0xf0)
                try:
                    value += read[:count].decode()
                except UnicodeDecodeError:
                    return
                index += 3 * count
            elif self.at(index) in among.replace("%", ""):
                value += self.at(index)
                index += 1
            else:
                return
            yield value, index

    def handles(self, index):
        """Each handle at an index (IsHandleText)."""
        named = NAMED_HANDLE.match(self.text, index)
        return (["!"] if self.at(index) == "!" else []) + ([named[0]] if named else [])

    def tag_texts(self, index):
        """Each tag at an index: its handle, its suffix and the index behind it (IsTagText)."""
        if self.at(index) == "!":
            yield "", "!", index + 1
        if self.text.startswith("!<", index):
            yield from (("", uri, end + 1) for uri, end in self.decoded(index + 2, URI) if self.at(end) == ">")
        for handle in self.handles(index):
            suffixes = self.decoded(index + len(handle), SUFFIX)
            yield from ((handle, suffix, end) for suffix, end in suffixes if suffix)

    def tag_tokens(self, place, context):
        for handle, suffix, end in self.tag_texts(place.index):
            if self.at(end) in BLANK_OR_BREAKZ or context == IN_FLOW and self.at(end) in FLOW:
                yield (handle, suffix), self.along(place, end - place.index)

    # ## Spelling/Directive.antt
    def ends_line_behind(self, index):
        """Whether only a line's tail stands behind a directive or `...` (EndsLine)."""
        return bool(LINE_TAIL.match(self.text, index))

    def directive_texts(self, index):
        """Each directive at an index (IsReadDirective): what it is, its prefix, the index behind it."""
        version = VERSION.match(self.text, index)
        if version:
            yield "version", "", version.end()
        front = TAG.match(self.text, index)
        for handle in self.handles(front.end()) if front else []:
            follows = self.at(front.end() + len(handle))
            if handle == "!" and follows in WORD + "_!":
                continue
            blanks = BLANKS.match(self.text, front.end() + len(handle))
            starts = [it for it in self.decoded(blanks.end(), SUFFIX + "!") if len(it[0]) == 1]
            for first, middle in starts:
                for others, end in self.decoded(middle, URI):
                    yield handle, first + others, end
        reserved = RESERVED.match(self.text, index)
        if reserved and reserved[1] not in ("YAML", "TAG"):
            yield "reserved", "", reserved.end()

    def directive_tokens(self, place):
        if place.col == 0 and self.at(place.index) == "%":
            for handle, prefix, end in self.directive_texts(place.index):
                if self.ends_line_behind(end):
                    yield (handle, prefix), self.along(place, end - place.index), 0

    # ## Spelling/LaterLines.antt. `least` there is `column` + 1 for plain scalars, and `column` for quoted ones.
    def indentation_at(self, index):
        """How many spaces a line begins with, and the character behind them."""
        spaces = SPACES.match(self.text, index).end() - index
        return spaces, self.at(index + spaces)

    def is_plain_line(self, index, context, column):
        spaces, behind = self.indentation_at(index)
        is_blank_line = self.at(BLANKS.match(self.text, index).end()) in BREAK
        return spaces > column or is_blank_line or context == IN_FLOW and behind != "\t"

    def is_quoted_line(self, index, column):
        spaces, behind = self.indentation_at(index)
        return spaces >= column or behind in BREAK

    # ## Reading/Plain.antt
    def plain_tokens(self, place, context, column):
        """Each plain scalar at a place (IsPlainToken): its value and the place behind it."""
        first, there, is_apart = self.at(place.index), place, True
        if first in ",[]{}#&*!'\"%@`" + WHITE or first in "-?:" and self.at(place.index + 1) in BLANK_OR_BREAKZ:
            return
        while there.index < len(self.text):
            c, following = self.text[there.index], self.at(there.index + 1)
            if c in END + MARK or c == "#" and is_apart or c == ":" and following in BLANK_OR_BREAKZ \
                    or there.col == 0 and self.is_document_indicator(there.index):
                return
            if self.ends_line(there.index) and not self.is_plain_line(there.index + 1, context, column):
                return
            there, is_apart = self.behind(there, there.index + 1), c in WHITE
            if not is_apart and following in BLANK_OR_BREAKZ + MARK + ":" + FLOW:
                piece = self.text[place.index:there.index]
                if self.may_stand(piece, context, following) and self.ends_plain(there, context, column):
                    yield plain_value(normalized(piece)), there._replace(is_deeper=False, is_behind_plain=self.has_tab)

    def ends_plain(self, place, context, column):
        """Whether no plain scalar goes on behind the white space at a place (EndsPlain)."""
        here = self.passed(place, WHITE_SPACE.match(self.text, place.index).end())
        c, following, in_flow = self.at(here.index), self.at(here.index + 1), context == IN_FLOW
        is_colon = c == ":" and (following in BLANK_OR_BREAKZ or in_flow and following in FLOW)
        is_marker = here.col == 0 and self.is_document_indicator(here.index)
        is_left = not in_flow and here.col <= column
        return c in END + MARK + "#" or in_flow and c in FLOW or is_colon or is_marker or is_left

    def may_stand(self, piece, context, following):
        """Whether a piece has no indicator that ends it inside flow (IsSafeInFlow), or begins none outside."""
        if context != IN_FLOW:
            return piece[0] not in "|>"
        is_dash = following in FLOW and LAST_DASH.search(piece)
        if not self.may(self.unless("no indicator behind a dash", not is_dash)):
            return False
        return not set(piece) & set(FLOW) and not (piece[-1] == ":" and following in FLOW)

    # ## Spelling/Quoted.antt, Spelling/QuotedMarkers.antt and Spelling/IndentedQuotes.antt
    def break_len(self, index):
        return 1 + (self.text[index:index + 2] == "\r\n")

    def escape(self, index):
        """The item that a backslash begins, and how many characters it has, or None."""
        name = self.at(index + 1)
        if name in DIGITS:
            digits = self.text[index + 2:index + 2 + DIGITS[name]]
            number = int(digits, 16) if len(digits) == DIGITS[name] and set(digits) <= set(HEX) else -1
            is_character = 0 <= number < 0xd800 or 0xdfff < number <= 0x10ffff
            return (("escaped", chr(number)), 2 + len(digits)) if is_character else None
        if name in BREAK:
            return ("escaped break", name), 1 + self.break_len(index + 1)
        return (("escaped", ESCAPES[name]), 2) if name in ESCAPES else None

    def quoted_item(self, quote, index):
        """The item between quotes at an index, and how many characters it has, or None (IsText)."""
        c = self.at(index)
        if c == "\\" and quote == '"':
            return self.escape(index)
        if c in BREAK:
            return ("break", c), self.break_len(index)
        return None if c == END else (raw_item(c), 1 + (c == quote))

    def quoted_tokens(self, place, column):
        """The quoted scalar at a place (IsQuotedToken)."""
        quote, index, items = self.at(place.index), place.index + 1, []
        while index < len(self.text):
            if self.at(index) == quote and not (quote == "'" and self.at(index + 1) == "'"):
                yield quote, folded(items), self.behind(place, index + 1, QUOTED)
                return
            found = self.quoted_item(quote, index)
            if not found:
                return
            items.append(found[0])
            index += found[1]
            if found[0][0] in ("break", "escaped break") and self.is_document_indicator(index):
                return
            closes = found[0][0] == "escaped break" and self.at(index) == quote
            if found[0][0] in ("break", "escaped break") and not (closes or self.may_go_on(place, index, column)):
                return

    def may_go_on(self, place, index, column):
        """Whether a quoted scalar that begins at a place may go on with the line at an index."""
        is_right = self.is_quoted_line(index, column + place.is_deeper)
        goes_on = self.unless("the column of a line in quotes", is_right)
        return self.is_quoted_line(index, column) and self.may(goes_on)

    # ## Reading/BlockText.antt
    def header(self, index):
        """The digit and the chomping indicator of a block scalar's header, and the index behind its line."""
        parts = HEADER.match(self.text, index)
        if not parts or parts[1] and parts[3] or parts[3] and not parts[2]:
            return None
        ends = self.at(parts.end()) != "\t" if parts[4] else self.at(parts.end()) == END
        return (int(parts[1] or parts[3] or 0), parts[2], parts.end()) if ends else None

    def indentation(self, column, digit, index):
        """How far the lines from an index on are indented, if they may stand (IsIndentationFrom); `indent` there is
        `column` + 1."""
        if digit:
            return min(max(column, 0) + digit, 2 ** 64 - 1)
        leading = LEADING.match(self.text, index)
        *spaces, own = map(len, normalized(leading[0]).split("\n"))
        widest = max(*spaces, own, column + 1)
        is_narrower = self.at(leading.end()) not in END and column < own < widest
        return None if is_narrower else widest

    def is_behind_lines(self, indentation, t):
        """Whether no more lines follow (IsBehindLines)."""
        c = self.at(t.index)
        if t.col < indentation:
            return c != " " and c not in BREAK
        is_marker = t.col == indentation == 0 and self.is_document_indicator(t.index)
        return c in END + MARK or is_marker

    def block_scalar_tokens(self, place, context, column):
        """Each block scalar at a place (IsBlockScalarToken)."""
        style, header = self.at(place.index), self.header(place.index)
        if not header or context == IN_FLOW:
            return
        digit, chomping, start = header
        indentation, is_start = self.indentation(column, digit, start), True
        if indentation is None:
            return
        for end in range(start, len(self.text) + 1):
            t, lines = self.behind(place, end), normalized(self.text[start:end]).split("\n")
            fit = all(is_read_line(indentation, line) for line in lines)
            if fit and self.text[end - 1:end + 1] != "\r\n" and self.is_behind_lines(indentation, t):
                value = block_value(style, chomping, indentation, "\n".join(lines), self.at(end) == END)
                yield style, value, t._replace(is_deeper=False)
            if self.at(end) in END + MARK or is_start and self.is_document_indicator(end):
                return
            is_start = self.at(end) in BREAK

    def scalar_tokens(self, place, context, column):
        if self.at(place.index) in "'\"":
            yield from self.quoted_tokens(place, column)
        if self.at(place.index) in "|>":
            yield from self.block_scalar_tokens(place, context, column)
        broken = self.unless("the column of a line in brackets", context != IN_FLOW or place.col > column)
        yield from (("plain", *it) for it in (self.plain_tokens(place, context, column) if self.may(broken) else ()))

    # ## Grammar/TokenGrammar.antt. `column` is that of the innermost open block collection. A context says where a node
    # stands.
    @way
    def properties(self, place, context, column):
        """No property, an anchor, a tag or both (YieldProperties)."""
        yield (None, None), place, 0
        for anchor, t in self.names(place, "&", context, column):
            yield (anchor, None), t, 0
            yield from (((anchor, tag), u, 0) for tag, u in self.tags(t, context, column))
        for tag, t in self.tags(place, context, column):
            yield (None, tag), t, 0
            yield from (((anchor, tag), u, 0) for anchor, u in self.names(t, "&", context, column))

    def names(self, place, indicator, context, column):
        """The name of the anchor or alias that comes next, and the place behind it."""
        here = self.arrive(place, context, column)
        return self.name_tokens(here, indicator) if here and self.is_indented(here, context, column) else ()

    def tags(self, place, context, column):
        """Each tag that comes next, and the place behind it."""
        here = self.arrive(place, context, column)
        return self.tag_tokens(here, context) if here and self.is_indented(here, context, column) else ()

    def is_indented(self, place, context, column):
        """Whether a token of a flow node may begin here: outside brackets right of the innermost block collection,
        unless it is of an implicit key (AreIndented)."""
        return context in (IN_FLOW, AS_BLOCK_KEY) or place.col > column

    def left_out(self, place):
        return [(emitted, t, 0) for emitted, t in self.emit(place, Leaf("=VAL", None, None, "plain", ""))]

    @way
    def optional(self, place, context, column):
        yield from self.left_out(place)
        yield from self.node(place, context, column)

    @way
    def node(self, place, context, column):
        """A node (YieldsNode)."""
        for name, t in self.names(place, "*", context, column):
            yield from ((emitted, u, 0) for emitted, u in self.emit(t, Reference("=ALI", name)))
        for (anchor, tag), t, broken in self.properties(place, context, column):
            content, has_property = self.arrive(t, context, column), (anchor, tag) != (None, None)
            if self.may(broken):
                ways = self.flow_content(t, context, column, anchor, tag)
                yield from ((emitted, u, broken | more) for emitted, u, more in ways)
            broken |= self.unless("own line", not has_property or content and self.has_break(t, content))
            if content and context != IN_FLOW and self.may(broken):
                ways = self.block_collection(content, context, column, anchor, tag)
                yield from ((emitted, u, broken | more) for emitted, u, more in ways)

    def flow_content(self, place, context, column, anchor, tag):
        """What no block collection is: a scalar, which may be left out behind a property, or a flow collection."""
        content = self.arrive(place, context, column)
        if (anchor, tag) != (None, None):
            yield from ((emitted, t, 0) for emitted, t in self.emit(place, Leaf("=VAL", anchor, tag, "plain", "")))
        if content is None:
            return
        is_indented = self.is_indented(content, context, column)
        left = self.unless("a block scalar's column", is_indented)
        for style, value, t in self.scalar_tokens(content, context, column) if self.may(left) else []:
            if is_indented or style in "|>":
                yield from ((emitted, u, left) for emitted, u in self.emit(t, Leaf("=VAL", anchor, tag, style, value)))
        if not is_indented:
            return
        content = content._replace(is_deeper=content.is_deeper or context != IN_FLOW and column >= 0)
        for name, collection in (("+SEQ", self.flow_sequence), ("+MAP", self.flow_mapping)):
            if name == "+MAP" or self.at(content.index) == "[":
                for emitted, t in self.emit(content, Opening(name, anchor, tag)):
                    yield from ((emitted + others, u, broken) for others, u, broken in collection(t, column))

    def closed(self, emitted, place, broken, name):
        ends = self.emit(place, Bracket(name)) if self.may(broken) else []
        return ((emitted + end, t, broken) for end, t in ends)

    @way
    def flow_sequence(self, place, column):
        for t in self.stands(place, "["):
            for emitted, u, broken in self.flow_entries(t, column, self.flow_entry):
                for v in self.stands(self.arrive(u, IN_FLOW, column), "]"):
                    yield from self.closed(emitted, v, broken, "-SEQ")

    @way
    def flow_mapping(self, place, column):
        """In braces: a start without a text is a single pair's (AreInPlace, AreBare)."""
        lacks = self.unless("own braces", False)
        starts = [(t, 0) for t in self.stands(place, "{")]
        starts += [(t, lacks) for t in self.without_text(place) if self.may(lacks)]
        for t, lacks_start in starts:
            for emitted, u, broken in self.flow_entries(t, column, self.flow_pair):
                end = self.arrive(u, IN_FLOW, column)
                ends = [(v, 0) for v in self.stands(end, "}")] + [(end, lacks)] * bool(end and self.may(lacks))
                for v, lacks_end in ends:
                    yield from self.closed(emitted, v, broken | lacks_start | lacks_end, "-MAP")

    def flow_entries(self, place, column, entry):
        """Entries and the commas behind them (YieldFlowEntries, YieldFlowPairs)."""
        yield (), place, 0
        for emitted, t, broken in entry(place, column):
            for others, u, more in self.other_flow_entries(t, column, entry.__name__):
                yield emitted + others, u, broken | more

    @way
    def other_flow_entries(self, place, column, name):
        """A comma or none, or a comma and more entries (YieldOtherFlowEntries, YieldOtherFlowPairs)."""
        yield (), place, 0
        for t in self.stands(self.arrive(place, IN_FLOW, column), ","):
            yield (), t, 0
            for emitted, u, broken in getattr(self, name)(t, column):
                for others, v, more in self.other_flow_entries(u, column, name):
                    yield emitted + others, v, broken | more

    @way
    def flow_entry(self, place, column):
        """A node, or a mapping of a single pair. That has a start and an end without a text, but for a `?` in it, and
        no properties (AreBare)."""
        yield from self.node(place, IN_FLOW, column)
        here = self.arrive(place, IN_FLOW, column)
        for emitted, t in self.emit(here, Opening("+MAP", None, None)) if here else []:
            for others, u, broken in self.single_pair(t, column):
                yield from self.closed(emitted + others, u, broken, "-MAP")

    @way
    def single_pair(self, place, column):
        """A pair as an entry of brackets (YieldsSinglePair; YieldsFlowPair between a start and an end without text)."""
        yield from self.marked_pair(place, IN_FLOW, column, True)
        yield from self.key_alone(place, IN_FLOW, column)
        for t in self.without_text(place):
            yield from self.value_alone(t, IN_FLOW, column)

    @way
    def flow_pair(self, place, column):
        """An entry of braces (YieldsFlowPair)."""
        yield from self.marked_pair(place, IN_FLOW, column, False)
        yield from self.key_alone(place, IN_FLOW, column)
        yield from self.value_alone(place, IN_FLOW, column)
        for emitted, t, broken in self.node(place, IN_FLOW, column):
            yield from ((emitted + others, u, broken) for others, u, _ in self.left_out(t))

    @way
    def value_alone(self, place, context, column):
        """A key that is left out, and its value."""
        for emitted, t, _ in self.left_out(place):
            for others, u, broken in self.marked_value(t, context, column):
                yield emitted + others, u, broken

    @way
    def marked_value(self, place, context, column):
        """A colon and a node (YieldsMarkedValue)."""
        for t, broken in self.value_tokens(place, context, column):
            for emitted, u, more in self.optional(t, context, column) if self.may(broken) else []:
                yield emitted, u, broken | more

    @way
    def key_alone(self, place, context, column):
        """A key without a value (YieldsMarkedKey)."""
        start = self.arrive(place, context, column)
        for has_mark, t in self.key_tokens(start, context, column) if start else []:
            lacks = self.unless("key with a colon", has_mark)
            for emitted, u, broken in self.optional(t, self.key_context(has_mark, context), column):
                for others, v, _ in self.left_out(u) if self.may(lacks | broken) else []:
                    yield emitted + others, v, lacks | broken

    @way
    def marked_pair(self, place, context, column, is_single):
        """A key and its value (YieldsMarkedPair)."""
        start = self.arrive(place, context, column)
        for has_mark, t in self.key_tokens(start, context, column) if start else []:
            for emitted, u, broken in self.optional(t, self.key_context(has_mark, context), column):
                colon = self.apart(u)
                broken |= self.key_breaks(has_mark, start, colon, context, column, is_single)
                broken |= self.unless("some key", has_mark or u.index > t.index)
                for others, v, more in self.marked_value(u, context, column) if self.may(broken) else []:
                    yield emitted + others, v, broken | more

    def key_context(self, has_mark, context):
        """Where a key stands: a block mapping's that no `?` begins stands at the mapping's column."""
        return context if has_mark or context == IN_FLOW else AS_BLOCK_KEY

    def key_breaks(self, has_mark, start, colon, context, column, is_single):
        """What a key and its colon break (is_near)."""
        in_block, is_on_line = context != IN_FLOW, not self.has_break(start, colon)
        if has_mark:
            return self.unless("colon's column", not in_block or colon.col == column)
        is_near = is_on_line or not (in_block or is_single)
        return self.unless("near key", is_near and (not in_block or colon.index - start.index <= 1024))

    def block_collection(self, place, context, column, anchor, tag):
        """A block sequence or mapping, from its start on (YieldsSequence, YieldsMapping)."""
        key = self.unless("flow key", context != AS_BLOCK_KEY)
        front = self.text[self.line_starts[place.index]:place.index]
        starts = key | self.unless("the line of a block collection", BEFORE_BLOCK.fullmatch(front))
        for t in self.without_text(place) if place.col > column and self.may(starts) else []:
            for name in ("SEQ", "MAP"):
                for emitted, u in self.emit(t, Opening("+" + name, anchor, tag)):
                    ways = self.block_entries(u, place.col) if name == "SEQ" else self.block_pairs(u, place.col, False)
                    for others, v, broken in ways:
                        broken |= key | self.unless("some entry", v != u)
                        end = self.arrive(v, IN_BLOCK, place.col)
                        if end and self.ends_block(end, place.col):
                            left = v._replace(is_deeper=False)
                            yield from self.closed(emitted + others, left, broken, "-" + name)
        if context in (IN_BLOCK_MAPPING, AS_BLOCK_KEY) and self.is_dash(place) and self.may(key):
            for emitted, t in self.emit(place, Opening("+SEQ", anchor, tag)):
                for others, u, broken in self.block_entries(t, column):
                    if u != t:
                        yield from self.closed(emitted + others, u, key | broken, "-SEQ")

    def ends_block(self, here, column):
        """Whether a block collection at a column may end before what stands here (IsBlockEnd)."""
        no_content = self.is_document_indicator(here.index) or self.at(here.index) in "%" + MARK
        return here.col < column or here.index == len(self.text) or here.col == 0 and no_content

    @way
    def block_entries(self, place, column):
        """The entries of a block sequence at its column (YieldBlockEntries, IsDash)."""
        yield (), place, 0
        dash = self.arrive(place, IN_BLOCK, column)
        for t, lacks in self.behind_dash(dash) if dash and self.is_dash(dash) and dash.col == column else []:
            for emitted, u, broken in self.optional(t, IN_BLOCK, column) if self.may(lacks) else []:
                for others, v, more in self.block_entries(u, column):
                    yield emitted + others, v, lacks | broken | more

    def behind_dash(self, dash):
        """The place behind a `-`, and what is broken there. Content on a later line, and brackets, are right of it."""
        index = dash.index + 1
        is_deeper = LINE_TAIL.match(self.text, index) or self.at(BLANKS.match(self.text, index).end()) in FLOW
        broken = self.unless("no tab between dashes", not TAB_BETWEEN.match(self.text, index))
        yield self.along(dash, 1)._replace(is_deeper=bool(is_deeper)), broken

    @way
    def block_pairs(self, place, column, is_behind_key):
        """The entries of a block mapping (YieldBlockPairs). Behind a key without a value none begins with a colon."""
        yield (), place, 0
        here = self.arrive(place, IN_BLOCK, column)
        at_column = self.unless("entry's column", here and here.col == column)
        if not self.may(at_column):
            return
        pairs = [(it, False) for it in self.marked_pair(here, IN_BLOCK_MAPPING, column, False)]
        pairs += [(it, False) for it in self.value_alone(here, IN_BLOCK_MAPPING, column) if not is_behind_key]
        pairs += [(it, True) for it in self.key_alone(here, IN_BLOCK_MAPPING, column)]
        for (emitted, t, broken), is_key in pairs:
            for others, u, more in self.block_pairs(t, column, is_key):
                yield emitted + others, u, at_column | broken | more

    # ## Documents and streams
    @way
    def document(self, place, is_free):
        """A document (YieldsDocument)."""
        if is_free:
            for emitted, t in self.emit(place, Document("+DOC", False, ())):
                for others, u, broken in self.node(t, IN_BLOCK, ROOT):
                    if self.ends_document(u, others, ()):
                        yield from self.closed(emitted + others, u, broken, "-DOC")
        for directives, t, broken in self.directives(place) if is_free else [((), place, 0)]:
            if len({handle for handle, _ in directives}) == len(directives):
                for u in self.marker(self.apart(t), "---"):
                    yield from self.explicit_document(u, directives, broken)

    def explicit_document(self, place, directives, broken):
        for emitted, t in self.emit(place, Document("+DOC", True, directives)):
            for others, u, more in self.optional(t, IN_BLOCK, ROOT):
                if self.ends_document(u, others, directives):
                    yield from self.closed(emitted + others, u, broken | more, "-DOC")

    def ends_document(self, place, parts, directives):
        """Whether a document of these parts may end at a place: a token is behind it, and if the document is left out
        or has properties alone, one that doesn't go on with its node."""
        root = parts[0] if len(parts) == 1 else None
        if isinstance(root, Leaf) and (root.style, root.value) == ("plain", ""):
            return self.is_unused(place, root, directives)
        return self.is_followed(place)

    def is_without_content(self, here):
        """Whether the text ends here, or a marker or a byte order mark is here."""
        is_marker = self.is_document_indicator(here.index) or self.at(here.index) == MARK
        return here.index == len(self.text) or here.col == 0 and is_marker

    def is_followed(self, place):
        """Whether a token is behind a document that ends at a place (IsDocumentFollowed)."""
        here = self.apart(place)
        c, front = self.at(here.index), self.text[self.line_starts[here.index]:here.index]
        if self.is_without_content(here) or c in "[{,":
            return True
        begins_line = c != END and not front.strip(BLANK)
        tokens = (self.name_tokens(here, c) if c in "&*" else (), self.tag_tokens(here, IN_BLOCK),
                  self.quoted_tokens(here, ROOT) if c in "'\"" else (), self.plain_tokens(here, IN_BLOCK, ROOT),
                  self.block_scalar_tokens(here, IN_BLOCK, ROOT) if c in "|>" else ())
        return (here.col > 0 or c != "%") and (begins_line or any(True for _ in itertools.chain(*tokens)))

    def is_unused(self, place, root, directives):
        """Whether the token behind such a document is none with which a forest that has events goes on
        (BeginsEachForest)."""
        here = self.apart(place)
        known = () if root.tag else ("", "!", "!!", *dict(directives))
        has_tag = any(handle not in known for (handle, _), _ in self.tag_tokens(here, IN_BLOCK))
        names = [name for c in "*&"[:2 if root.anchor else 1] for name in self.name_tokens(here, c)]
        return self.is_without_content(here) or self.at(here.index) == "," or has_tag or bool(names)

    @way
    def directives(self, place):
        """Directives, of which those that are reserved are left out."""
        yield (), place, 0
        for directive, t, broken in self.directive_tokens(self.apart(place)):
            for others, u, more in self.directives(t):
                yield (directive,) * (directive[0] != "reserved") + others, u, broken | more

    def marks(self, place, has_ends):
        """The place behind byte order marks, and if need be ends of documents (AreMarks, AreEndsAndMarks)."""
        here = self.apart(place)
        if self.at(here.index) == MARK and here.col == 0:
            return self.marks(here._replace(index=here.index + 1, ends_json=NOT_JSON, bare=0), has_ends)
        ends = self.marker(here, "...") if has_ends else []
        return self.marks(ends[0], True) if ends else here

    @way
    def documents(self, place, is_free):
        """Documents up to the end (YieldDocuments, YieldsBehindDocument)."""
        if self.apart(place).index == len(self.text):
            yield from self.closed((), place, 0, "-STR")
        for emitted, t, broken in self.document(place, is_free):
            behind = self.marks(t, False)
            ends = self.marker(behind, "...")
            for others, u, more in self.documents(self.marks(ends[0], True) if ends else behind, bool(ends)):
                yield emitted + others, u, broken | more

    def answers(self):
        """The parts of each answer (Yields, AreTakenFrom)."""
        for emitted, t in self.emit(START, Bracket("+STR")):
            for others, _, _ in self.documents(self.marks(t, True), True):
                yield emitted + others

    def first_documents(self):
        """The parts of each document that may come first, whatever follows it."""
        for emitted, _, _ in self.document(self.marks(START, True), True):
            yield emitted

    def reached(self):
        """How many of the known events begin an answer."""
        collections.deque(self.answers(), maxlen=0)
        return self.furthest


# ## saphyr_parser: ForestEvents.antt, Anchors.antt, TagResolution.antt and Printed.antt
def printed(value):
    return "".join(SHOWN.get(c, c) for c in value)


def events(parts, keep=False):
    """The printed events of the parts of a forest, or None where an alias or a handle stands for nothing."""
    lines, count, latest, kept, prefixes = [], 0, {}, {}, {}
    for part in parts:
        line = part.name
        if isinstance(part, Document):
            kept = {**(kept if keep else {}), **dict(part.prefixes)}
            latest, prefixes = {}, {"": "", "!": "!", "!!": "tag:yaml.org,2002:", **kept}
            line += " ---" * part.explicit
        elif isinstance(part, Reference):
            if part.anchor_name not in latest:
                return None
            line += f" *{latest[part.anchor_name]}"
        elif isinstance(part, (Leaf, Opening)):
            if part.anchor is not None:
                count += 1
                latest[part.anchor] = count
                line += f" &{count}"
            if part.tag and part.tag[0] not in prefixes:
                return None
            line += f" <{prefixes[part.tag[0]]}{part.tag[1]}>" if part.tag else ""
            line += f" {STYLES[part.style]}{printed(part.value)}" if isinstance(part, Leaf) else ""
        lines.append(line)
    return tuple(lines)


def is_line_of(line, part):
    """Whether a printed event may be that of a part, whatever came before."""
    if isinstance(part, Document):
        return line == part.name + " ---" * part.explicit
    if isinstance(part, Reference):
        return line.startswith("=ALI *")
    if isinstance(part, Bracket):
        return line == part.name
    shown = line[len(part.name):]
    front = r" &\d+" if part.anchor is not None else ""
    front += f" <.*?{re.escape(printed(part.tag[1]))}>" if part.tag else ""
    back = re.escape(f" {STYLES[part.style]}{printed(part.value)}") if isinstance(part, Leaf) else ""
    return line.startswith(part.name) and bool(re.fullmatch(front + back, shown, re.DOTALL))


# ## The parser's own answers
def answer_of(program, text):
    """The lines that the program prints of a text, and whether a fault ends them."""
    ran = subprocess.run([program], input=text.encode(), capture_output=True)
    return tuple(ran.stdout.decode().split("\n")[:-1]), bool(ran.returncode)


def answers_by_crate(program, texts):
    """The same of many texts, by a program over the Rust crate."""
    with tempfile.NamedTemporaryFile() as file:
        for text in texts:
            file.write(b"%d\n%b" % (len(text.encode()), text.encode()))
        file.flush()
        said = subprocess.run([program, "--batch", file.name], capture_output=True, check=True).stdout
    at = 0
    while at < len(said):
        begin = said.index(b"\n", at) + 1
        at = begin + int(said[at:begin])
        *lines, last = said[begin:at].decode().split("\n")[:-1]
        is_cut = last.startswith("!! ")
        yield tuple(lines if is_cut else [*lines, last]), is_cut


def own_answers(words, texts):
    if words.against:
        return answers_by_crate(words.against, texts)
    return (answer_of(words.program, text) for text in texts)


# ## What is found
def lines_of(emitted):
    """The printed lines of the parts of each answer that has events."""
    lists = (events(parts) for parts in emitted)
    return {tuple("+DOC" if it[:4] == "+DOC" else it for it in lines) for lines in lists if lines is not None}


class Finds(dict):
    """Of each class its texts, its answers, and a smallest text with an answer."""

    def __missing__(self, name):
        return self.setdefault(name, [0, 0, None])

    def add(self, name, text, answers):
        find = self[name]
        find[0] += 1
        find[1] += len(answers)
        self.keep(name, (len(text), text, min(answers, key=lambda it: (len(it), it))))

    def keep(self, name, smallest):
        self[name][2] = min(it for it in (self[name][2], smallest) if it)

    def __iadd__(self, other):
        for name, (texts, answers, smallest) in other.items():
            self[name][0] += texts
            self[name][1] += answers
            self.keep(name, smallest)
        return self

    def show(self, what):
        for name, (texts, answers, (_, text, answer)) in sorted(self.items(), key=lambda it: (it[0] != "-", -it[1][0])):
            print(f"{texts:9,} {what}, {answers:9,} answers  {name}\n{'':11}{text!r} as {' / '.join(answer)}")


class Count:
    """What was found of texts that the parser reads, of those that it refuses, and of documents before a fault."""

    def __init__(self):
        self.texts, self.read, self.not_taken = 0, 0, []
        self.second, self.refused, self.documents = Finds(), Finds(), Finds()

    def __iadd__(self, other):
        self.texts += other.texts
        self.read += other.read
        self.not_taken += other.not_taken
        self.second += other.second
        self.refused += other.refused
        self.documents += other.documents
        return self

    def add(self, text, words, own=None):
        """Counts a text with the parser's own answer. If there is a find, that is the program's."""
        lines, is_cut = own or answer_of(words.program, text)
        search = Search(text, words.bare)
        strict, first = lines_of(search.answers()), lines_of(search.first_documents())
        is_open = any(re.search(pattern, text) for _, _, pattern in OPEN.values())
        wide = lines_of(Search(text, words.bare, OPEN).answers()) if is_open else strict
        others = wide if is_cut else wide - {lines}
        first.discard(lines[1:lines.index("-DOC") + 1] if "-DOC" in lines else ())
        if own and words.against and (others or not is_cut and lines not in strict):
            return self.add(text, words)
        self.texts += 1
        self.read += not is_cut
        if not is_cut and lines not in strict:
            self.not_taken.append(text)
        finds = self.refused if is_cut else self.second
        for name, answers in self.classes(text, others, strict, is_cut, words.bare) if others else []:
            finds.add(name, text, answers)
        if first:
            self.documents.add("before a fault", text, first)

    @staticmethod
    def classes(text, others, strict, is_cut, bare):
        """The other answers by names: what YAML has of a refused text, what keeps to all conditions, and what breaks
        one or several."""
        shown = map(printed_forest, Grammar(text, frozenset()).forests() if is_cut else ())
        left = others - {tuple((it or "").split("\n")[:-1]) for it in shown}
        found = {"of YAML": others - left, "-": left & strict}
        for name in OPEN if left - strict else []:
            found[name] = (left - strict) & lines_of(Search(text, bare, [name]).answers())
        found["several"] = left.difference(*found.values())
        return ((name, answers) for name, answers in found.items() if answers)

    def show(self):
        self.second.show("texts that are read")
        self.refused.show("refused texts")
        self.documents.show("texts with other first documents")
        for text in self.not_taken[:20]:
            print(f"the parser's answer breaks a condition, or is not taken: {text!r}")
        print(f"{self.texts:,} texts, of which the parser reads {self.read:,}: "
              f"of {len(self.not_taken):,} its own answer is not taken")

    def is_wrong(self):
        return bool(self.not_taken or self.second or "-" in self.refused)


def small_texts(words):
    """All texts of a few characters of the alphabet, and of a few tokens of each of the others, each once."""
    if not words.tokens:
        for length in range((words.length or 3) + 1):
            yield from map("".join, itertools.product(words.alphabet, repeat=length))
    if words.tokens or words.small:
        most = words.length or (4 if words.small else 7)
        lists = (itertools.product(it, repeat=count) for it in TOKENS for count in range(most + 1))
        yield from map("".join, itertools.chain.from_iterable(lists))


def texts_of(words):
    yield from dict.fromkeys(small_texts(words))
    drawn = random.Random(words.seed)
    pieces = [it for it in PIECES if set(it) <= set(words.alphabet)] + list(words.alphabet)
    for number in range(words.random):
        text, length = "", drawn.randrange((words.length or 3) + 1, (words.longest or 12) + 1)
        while len(text) < length:
            text += drawn.choice(pieces if number % 2 else words.alphabet)
        yield text[:length]


def count_of(words, texts):
    count = Count()
    for text, own in zip(texts, own_answers(words, texts)):
        count.add(text, words, own)
    return count


def counts(words):
    """The counts of some texts after the other."""
    texts = texts_of(words)
    parts = iter(lambda: list(itertools.islice(texts, 500)), [])
    go = functools.partial(count_of, words)
    if words.jobs == 1:
        return map(go, parts)
    # a process that is forked here has this thread's stack
    return multiprocessing.get_context("fork").Pool(words.jobs).imap_unordered(go, parts)


# ## The stored answers
def unescaped(text):
    names = {"n": "\n", "r": "\r", "t": "\t", "\\": "\\"}
    return re.sub(r"\\(?:u\{([0-9a-fA-F]+)\}|(.))", lambda it: chr(int(it[1], 16)) if it[1] else names[it[2]], text)


def cases_of(path):
    """The name, the text and the events of each case, and whether a fault ends them."""
    for case in open(path, encoding="utf-8", newline="\n").read().split("\n= "):
        name, *lines = case.split("\n")
        text = next(line[2:] for line in lines if line[:2] == "< ")
        emitted = [unescaped(line[2:].rsplit(" @ ", 1)[0]) for line in lines if line[:2] == "> "]
        yield name.removeprefix("= "), unescaped(text), emitted, any(line[:2] == "! " for line in lines)


def check_cases(words):
    wrong, count = collections.defaultdict(list), collections.Counter()
    for path in words.texts or sorted(DATA + name for name in os.listdir(DATA)):
        for name, text, emitted, is_cut in cases_of(path):
            if len(text) > (words.longest or 700):
                continue
            count[is_cut] += 1
            if is_cut and Search(text, words.bare, WAIVED, emitted).reached() < len(emitted):
                wrong["a beginning"].append((len(text), name, text))
            elif not is_cut and next(Search(text, words.bare, (), emitted).answers(), None) is None:
                wrong["not taken"].append((len(text), name, text))
    for name, cases in sorted(wrong.items()):
        print(f"{len(cases):9,}  {name}")
        for _, case, text in sorted(cases)[:5]:
            print(f"{'':11}{case}: {text!r}")
    print(f"{count[False]:,} stored answers without a fault, and {count[True]:,} beginnings: "
          f"{sum(map(len, wrong.values())):,} break a condition")
    return 1 if wrong else 0


def on_page(text):
    """A text as pages write it: `:` LF TAB `a`."""
    parts = re.findall("[^\n\t]+|[\n\t]", text)
    return " ".join({"\n": "LF", "\t": "TAB"}.get(it, f"`{it}`") for it in parts)


def check_open(words):
    """Whether each open condition is one: its text has its answer for the want of this alone, fits its pattern, and is
    on the page. Returns whether one is not."""
    with open(PAGE, encoding="utf-8") as page:
        said, wrong = " ".join(page.read().split()), []
    for name, (text, answer, pattern) in OPEN.items():
        known = ("+STR", "+DOC", *answer.split(" / "), "-DOC", "-STR")
        has = [known in lines_of(Search(text, words.bare, waived).answers()) for waived in ((), (name,))]
        if has != [False, True] or not re.search(pattern, text):
            wrong.append(f"{name}: {answer!r} is not an answer of {text!r} for the want of this alone")
        if f"({on_page(text)}" not in said:
            wrong.append(f"{name}: docs/PROMISES.md has no {on_page(text)}")
    print(*wrong, sep="\n", end="\n" * bool(wrong))
    return bool(wrong)


def main():
    words = argparse.ArgumentParser(description=__doc__, formatter_class=argparse.RawDescriptionHelpFormatter)
    for name, number in dict(length=0, random=0, longest=0, seed=1, bare=2, jobs=1).items():
        words.add_argument("--" + name, type=int, default=number)
    words.add_argument("--alphabet", default=ALPHABET)
    words.add_argument("--program", default=PROGRAM)
    words.add_argument("--against")
    for name in ("tokens", "small", "cases"):
        words.add_argument("--" + name, action="store_true")
    words.add_argument("texts", nargs="*")
    words = words.parse_args()
    if check_open(words):
        return 1
    if words.cases:
        return check_cases(words)
    if not os.path.isfile(words.program):
        sys.exit(f"{words.program} is not built: run rt ci at the top of the repository, or rt run in the crate")
    count = Count()
    for text in words.texts:
        lines, is_cut = answer_of(words.program, text)
        print(*lines, *["refused"] * is_cut, sep="\n")
        count.add(text, words)
    for part in [] if words.texts else counts(words):
        count += part
    count.show()
    return 1 if count.is_wrong() else 0


if __name__ == "__main__":
    sys.setrecursionlimit(1000000)
    threading.stack_size(512 << 20)
    status = []
    thread = threading.Thread(target=lambda: status.append(main()))
    thread.start()
    thread.join()
    sys.exit(status[0] if status else 2)
