#!/usr/bin/env python3
"""All small texts, held against YAML's grammar and `dump_events`.

    tests/recognizer.py [--most N] [--program PROGRAM] TOKEN..
    tests/recognizer.py --small | --all [--program PROGRAM]
    tests/recognizer.py --text TEXT..
    tests/recognizer.py --derivations COUNT

Makes all texts of up to N (5) TOKENs, in which \\n and \\t stand for a line feed and a tab, and finds all forests of
each by the grammar's definitions. What `dump_events`, as `rt ci` or `rt run` in crates/dump_events left it in out/,
prints of a text of the grammar has to be the events of its forest. Told are the texts of the grammar that are read
otherwise, those with two forests, and those that the program reads though they have a forest only where the exceptions
E1 to E8 of docs/PRODUCTIONS.md are no conditions. With `--all` the TOKENs are each of `ALPHABETS` in turn, and with
`--small` so with up to three tokens. With `--text` the events of each forest of each TEXT are printed. With
`--derivations` the texts of up to 60 characters among the first COUNT of derivations.py are held against this: each has
to have the forest of which it was made, and no other.

A method of `Grammar` is a definition of the specs/ of yaml_laws, scalar_laws and saphyr_scalar. Given where a piece
begins it finds each end of such a piece, with what that stands for. Flow collections are not counted.
"""
import argparse
import collections
import itertools
import os
import re
import subprocess
import sys

from derivations import ESCAPES, LONGEST_KEY, MARK, PROGRAM, block_value, events, folded, has_tab_ahead, is_marker
from derivations import Derivation, is_value_ahead

ALL = frozenset(f"E{number}" for number in range(1, 9))
BLANK, FLOW, HEX = " \t", ",[]{}", "0123456789abcdefABCDEF"
# Tokens, and how many of them the texts of docs/TESTS.md have.
ALPHABETS = (
    (5, list("a:-?[,|# \n")),
    (4, list("a:-?[],&|# \n\t")),
    (4, [*"[]{},:?a", '"a"', "- ", " ", "\n"]),
    (4, ["&a", "!", "!<a>", "*a", ":", "- ", "? ", "a", "|", '"', " ", "\n"]),
    (3, ["---", "...", "%a\n", "#", "a", "|", "- ", MARK, " ", "\n"]),
    (4, ["&a", "!t", "!<>", *'[]{}"', '"":', "\\\n", "k: ", "#", " ", "\n"]),
    (4, ["%TAG !", "%TAG !a!", "%TAG !a_b!", "%YAML 1.2", "!a!b", "b", "#", "---", "...", " ", "\n"]),
    (4, ["- |\n", "k: >1\n", "|\n", "- a\n", "- ", "&a", "a", "#", "...", " ", "\t", "\n"]),
)
AMBIGUOUS, OTHERWISE = "with two forests", "read otherwise"
LEFT_OUT_AND_READ = "read, and of the grammar without the exceptions alone"
NO_PROPERTIES = (None, None)
LEFT_OUT = ("Scalar", NO_PROPERTIES, ":", "")
SHORT = {name: c for name, c in ESCAPES if len(name) == 1}
COUNTS = {"x": 2, "u": 4, "U": 8}
ALPHA = "0123456789abcdefghijklmnopqrstuvwxyzABCDEFGHIJKLMNOPQRSTUVWXYZ-_"
URI = ALPHA + "#;/?:@&=+$,.!~*'()[]%"
SUFFIX = "".join(c for c in URI if c not in FLOW + "!")


def each(definition):
    """Each result of a definition once. They are kept for the text."""
    def kept(self, *at):
        key = definition.__name__, *at
        if key not in self.known:
            self.known[key] = list(dict.fromkeys(definition(self, *at)))
        return self.known[key]
    return kept


def lines_value(style, chomping, lines):
    if any(line is not None for line in lines):
        return block_value(style == ">", chomping, lines)
    return "\n" * len(lines) if chomping == "keep" else ""


def indent_at(place):
    return place[1] + 1


class Grammar:
    def __init__(self, text, kept=ALL):
        self.text, self.kept, self.known = re.sub("\r\n?", "\n", text), kept, {}
        self.end = len(self.text)

    def at(self, i):
        return self.text[i] if i < self.end else "\0"

    def is_non_break(self, i):
        return self.at(i) not in "\0\n" + MARK

    def run(self, among, i):
        """Each end of characters of a set, or of none."""
        yield i
        while i < self.end and self.text[i] in among:
            i += 1
            yield i

    def many(self, piece, *at):
        *more, i = at
        ends = [i]
        for j in ends:
            ends += [k for k in piece(*more, j) if k not in ends]
        return ends

    # ## Spelling/Spaces.antt
    def spaces(self, count, i):
        return [i + count] if self.text.startswith(" " * count, i) else []

    @each
    def comment(self, i):
        if self.at(i) == "#":
            yield i + 1
            while self.is_non_break(i + 1):
                i += 1
                yield i + 1

    @each
    def line_rest(self, i):
        for j in self.run(BLANK, i):
            yield j
            if j > i:
                yield from self.comment(j)

    def line_end(self, i):
        return [j + 1 for j in self.line_rest(i) if self.at(j) == "\n"]

    def eol(self, i):
        return self.line_end(i) + [j for j in self.line_rest(i) if j == self.end]

    @each
    def filler_text(self, i):
        for j in self.run(BLANK, i):
            yield j
            yield from self.comment(j)

    def filler_line(self, i):
        return [j + 1 for j in self.filler_text(i) if self.at(j) == "\n"]

    @each
    def filler(self, i):
        return self.many(self.filler_line, i)

    def is_last_filler(self, i):
        return any(self.end in self.filler_text(j) for j in self.filler(i))

    @each
    def line_prefix(self, indent, i):
        for start in self.spaces(indent, i):
            for j in self.run(" ", start):
                yield from self.run(BLANK, j)

    @each
    def next_line(self, indent, i):
        for j in self.line_end(i):
            for k in self.filler(j):
                yield from self.line_prefix(indent, k)

    @each
    def gap(self, indent, i):
        yield from (j for j in self.run(BLANK, i) if j > i)
        yield from self.next_line(indent, i)

    @each
    def separation_line(self, indent, i):
        for j in self.line_end(i):
            for k in self.filler(j):
                yield from self.spaces(indent, k)

    @each
    def separation(self, indent, i):
        for j in self.many(self.separation_line, indent, i):
            yield from self.run(BLANK, j)

    # ## TagSpelling.antt, Spelling/Tag.antt and Spelling/Directive.antt
    def character(self, among, i):
        if self.at(i) in among and self.at(i) != "%":
            yield i + 1, self.at(i)
        for count in range(1, 5):
            if escape := re.compile("(%%[0-9a-fA-F]{2}){%d}" % count).match(self.text, i):
                try:
                    c = bytes.fromhex(escape[0].replace("%", "")).decode()
                except UnicodeDecodeError:
                    continue
                if len(c) == 1:
                    yield escape.end(), c

    @each
    def decoded(self, among, i):
        yield i, ""
        for j, c in self.character(among, i):
            for k, more in self.decoded(among, j):
                yield k, c + more

    @each
    def handle(self, i):
        if self.at(i) == "!":
            yield i + 1, "!"
            yield from ((j + 1, self.text[i:j + 1]) for j in self.run(ALPHA, i + 1) if self.at(j) == "!")

    @each
    def tag(self, i):
        if self.at(i) == "!":
            yield i + 1, ("", "!")
            if self.at(i + 1) == "<":
                yield from ((j + 1, ("", uri)) for j, uri in self.decoded(URI, i + 2) if uri and self.at(j) == ">")
        for j, handle in self.handle(i):
            yield from ((k, (handle, suffix)) for k, suffix in self.decoded(SUFFIX, j) if suffix)

    @each
    def directive(self, i):
        """A directive up to its line's end, and its name or handle with what that stands for."""
        for it in filter(None, [re.compile(r"%YAML[ \t]+[0-9]{1,9}\.[0-9]{1,9}").match(self.text, i)]):
            yield from ((j, ("YAML", it[0])) for j in self.line_rest(it.end()))
        for it in filter(None, [re.compile(r"%TAG[ \t]+").match(self.text, i)]):
            for j, handle in self.handle(it.end()):
                for k in self.run(BLANK, j):
                    for first, c in self.character(SUFFIX + "!", k) if k > j else ():
                        for last, more in self.decoded(URI, first):
                            yield from ((end, (handle, c + more)) for end in self.line_rest(last))
        for it in filter(None, [re.compile(r"%([^ \t\n]+)([ \t][^\n]*)?(?=\n)").match(self.text, i)]):
            if it[1] not in ("YAML", "TAG") and "\0" not in it[0] and MARK not in it[0]:
                yield it.end(), (None, it[1])

    @each
    def directives(self, i):
        yield i, ()
        for j, said in self.directive(i):
            for k in self.filler(j + 1) if self.at(j) == "\n" else ():
                for end, others in self.directives(k):
                    if not said[0] or said[0] not in (name for name, _ in others):
                        yield end, (said, *others)

    # ## FlowScalars.antt, Spelling/Plain.antt, Spelling/Quoted.antt and Spelling/QuotedLines.antt
    def is_plain_safe(self, in_flow, i):
        c = self.at(i)
        return c not in "\0\n \t" + MARK and not (in_flow and c in FLOW)

    @each
    def last_word(self, in_flow, i):
        """A word whose last character may be a colon."""
        if self.at(i) != "#":
            j = i
            while self.is_plain_safe(in_flow, j):
                j += 1
                yield j

    @each
    def word(self, in_flow, i):
        for j in self.last_word(in_flow, i):
            if self.at(j - 1) != ":" and not (in_flow and self.text[i:j] == "-" and "E4" in self.kept):
                yield j

    def begins_plain(self, i):
        return self.at(i) not in ",[]{}#&*!|>'\"%@`"

    def first_word(self, in_flow, i):
        return [j for j in self.word(in_flow, i) if self.begins_plain(i) and self.text[i:j] not in ("-", "?", ":")]

    @each
    def empty_line(self, indent, i):
        yield from (j + 1 for j in (*self.run(" ", i), *self.line_prefix(indent, i)) if self.at(j) == "\n")

    @each
    def word_gap(self, indent, i):
        for j in self.run(BLANK, i):
            if j > i:
                yield j
            for k in self.many(self.empty_line, indent, j + 1) if self.at(j) == "\n" else ():
                yield from self.line_prefix(indent, k)

    @each
    def lone_dash(self, indent, i):
        return [j + 1 for j in self.word_gap(indent, i) if self.at(j) == "-"]

    @each
    def gap_behind_dashes(self, indent, i):
        for j in self.many(self.lone_dash, indent, i):
            yield from self.word_gap(indent, j)

    @each
    def further_word(self, in_flow, indent, i):
        for j in self.gap_behind_dashes(indent, i):
            yield from self.word(in_flow, j)

    @each
    def plain(self, in_flow, indent, i):
        for j in self.first_word(in_flow, i):
            yield from self.many(self.further_word, in_flow, indent, j)

    @each
    def plain_key(self, in_flow, indent, i):
        if self.begins_plain(i):
            yield from self.last_word(in_flow, i)
        for j in self.plain(in_flow, indent, i):
            for k in self.gap_behind_dashes(indent, j):
                yield from self.last_word(in_flow, k)

    def is_line(self, indent, i):
        spaces = re.compile(" *").match(self.text, i).end()
        return not is_marker(self.text[i:]) and (spaces - i >= indent or self.at(spaces) == "\n")

    @each
    def inside(self, quote, indent, i):
        """What stands behind a quote up to the closing one, and how `folded` is told of it."""
        c, e, double = self.at(i), self.at(i + 1), quote == '"'
        parts = []
        if c == quote:
            yield i + 1, ""
        if c not in "\0\n" + quote and not (double and c == "\\"):
            parts.append((i + 1, c))
        if c == "\n" and self.is_line(indent, i + 1):
            parts.append((i + 1, c))
        if not double and c == e == quote:
            parts.append((i + 2, c))
        if double and c == "\\":
            escaped = str.maketrans(" \t\n", "\ue000\ue001\ue002")
            if e in SHORT:
                parts.append((i + 2, SHORT[e].translate(escaped)))
            digits = self.text[i + 2:i + 2 + COUNTS.get(e, 0)]
            if e in COUNTS and len(digits) == COUNTS[e] and not digits.strip(HEX):
                number = int(digits, 16)
                if number < 0x110000 and not 0xd800 <= number < 0xe000:
                    parts.append((i + 2 + len(digits), chr(number).translate(escaped)))
            if e == "\n" and self.is_line(indent, i + 2):
                parts.append((i + 2, "\ue003\n"))
        for j, part in parts:
            yield from ((k, part + more) for k, more in self.inside(quote, indent, j))

    @each
    def flow_scalar(self, in_flow, indent, i):
        yield from ((j, ":", folded(self.text[i:j])) for j in self.plain(in_flow, indent, i))
        if self.at(i) in "'\"":
            yield from ((j, self.at(i), folded(items)) for j, items in self.inside(self.at(i), indent, i + 1))

    # ## FlowNodes.antt
    @each
    def name(self, i):
        while self.is_plain_safe(True, i):
            i += 1
            yield i

    @each
    def properties(self, indent, i):
        anchors = [(j, (self.text[i + 1:j], None)) for j in self.name(i + 1)] if self.at(i) == "&" else []
        tags = [(j, (None, tag)) for j, tag in self.tag(i)]
        yield from anchors + tags
        for j, first in anchors + tags:
            for k in self.gap(indent, j):
                if first[1] and self.at(k) == "&":
                    yield from ((end, (self.text[k + 1:end], first[1])) for end in self.name(k + 1))
                if first[0]:
                    yield from ((end, (first[0], tag)) for end, tag in self.tag(k))

    @each
    def before_content(self, indent, i):
        yield i, NO_PROPERTIES
        for j, properties in self.properties(indent, i):
            yield from ((k, properties) for k in self.separation(indent, j) if k > j)

    @each
    def scalar_node(self, in_flow, indent, i):
        yield from ((j, ("Scalar", properties, ":", "")) for j, properties in self.properties(indent, i))
        for j, properties in self.before_content(indent, i):
            for k, style, value in self.flow_scalar(in_flow, indent, j):
                yield k, ("Scalar", properties, style, value)

    def needs_separation(self, i, j, key):
        is_verbatim = self.at(j - 1) == ">" and "E7" not in self.kept and "!<" in self.text[i:j]
        return key[0] == "Alias" or key[0] == "Scalar" and key[2:] == (":", "") and not is_verbatim

    def allows_adjacent(self, key, separation):
        if key[0] in ("Seq", "Map"):
            return not separation.strip(BLANK) or "E3" not in self.kept
        return key[0] == "Scalar" and key[2] in "'\""

    @each
    def colon_and_value(self, adjacent, indent, i):
        if self.at(i) == ":":
            yield i + 1, LEFT_OUT
            for j in self.separation(indent, i + 1):
                if j > i + 1 or adjacent:
                    yield from self.flow_node(True, indent, j)

    @each
    def before_colon(self, on_line, in_flow, indent, i):
        """A key, and the separation before its colon; both are on one line, or need not be."""
        keys = [(j, key, False) for j, key in self.flow_node(in_flow, indent, i)]
        for j, properties in self.before_content(indent, i):
            for k in self.plain_key(in_flow, indent, j):
                keys.append((k, ("Scalar", properties, ":", folded(self.text[j:k])), True))
        for j, key, is_plain in keys:
            if not (on_line and "\n" in self.text[i:j]):
                for k in self.run(BLANK, j) if on_line else self.separation(indent, j):
                    if not (is_plain and k > j) and (k > j or not self.needs_separation(i, j, key)):
                        yield k, key, self.allows_adjacent(key, self.text[j:k])

    @each
    def key_and_value(self, on_line, indent, i):
        for j, key, adjacent in self.before_colon(on_line, True, indent, i):
            yield from ((k, (key, value)) for k, value in self.colon_and_value(adjacent, indent, j))

    @each
    def value_alone(self, indent, i):
        return [(j, (LEFT_OUT, value)) for j, value in self.colon_and_value(False, indent, i)]

    @each
    def behind_mark(self, indent, i):
        for j in self.separation(indent, i) if self.at(i - 1) == "?" else ():
            if j > i and ("E2" not in self.kept or "\t" not in re.sub("#[^\n]*", "", self.text[i:j])):
                yield j

    @each
    def explicit_pair(self, indent, i):
        for j in self.behind_mark(indent, i + 1):
            yield from ((k, (key, LEFT_OUT)) for k, key in self.flow_node(True, indent, j))
            yield from self.value_alone(indent, j)
            yield from self.key_and_value(False, indent, j)

    @each
    def pair(self, in_braces, indent, i):
        """A pair in braces or in brackets, with the separation behind it."""
        yield from ((j, (LEFT_OUT, LEFT_OUT)) for j in self.behind_mark(indent, i + 1))
        alone = [(j, (key, LEFT_OUT)) for j, key in self.flow_node(True, indent, i)] if in_braces else []
        pairs = self.key_and_value(not in_braces, indent, i), self.value_alone(indent, i), self.explicit_pair(indent, i)
        for j, pair in itertools.chain(alone, *pairs):
            yield from ((k, pair) for k in self.separation(indent, j))

    @each
    def item(self, in_braces, indent, i):
        if in_braces:
            yield from self.pair(True, indent, i)
        else:
            for j, node in self.flow_node(True, indent, i):
                yield from ((k, node) for k in self.separation(indent, j))
            yield from ((j, ("Map", NO_PROPERTIES, (pair,))) for j, pair in self.pair(False, indent, i))

    @each
    def other_items(self, in_braces, indent, i):
        yield i, ()
        for j in self.separation(indent, i + 1) if self.at(i) == "," else ():
            yield j, ()
            for k, item in self.item(in_braces, indent, j):
                yield from ((end, (item, *more)) for end, more in self.other_items(in_braces, indent, k))

    @each
    def items(self, in_braces, indent, i):
        yield i, ()
        for j, item in self.item(in_braces, indent, i):
            yield from ((k, (item, *more)) for k, more in self.other_items(in_braces, indent, j))

    @each
    def flow_node(self, in_flow, indent, i):
        if self.at(i) == "*":
            yield from ((j, ("Alias", self.text[i + 1:j])) for j in self.name(i + 1))
        yield from self.scalar_node(in_flow, indent, i)
        for j, properties in self.before_content(indent, i):
            for kind, opening, closing in ("Seq", "[", "]"), ("Map", "{", "}"):
                for k in self.separation(indent, j + 1) if self.at(j) == opening else ():
                    for end, inside in self.items(kind == "Map", indent, k):
                        if self.at(end) == closing:
                            yield end + 1, (kind, properties, inside)

    # ## Spelling/Block.antt
    @each
    def header(self, i):
        """A block scalar's header with its line: its style, digit and chomping."""
        for count in range(1, 4) if self.at(i) in "|>" else ():
            marks = self.text[i + 1:i + count]
            if re.fullmatch("[1-9]?[-+]?|[-+][1-9]", marks):
                chomping = "strip" if "-" in marks else "keep" if "+" in marks else "clip"
                digit = int(marks.strip("-+") or 0)
                yield from ((j, self.at(i), digit, chomping) for j in self.eol(i + count))

    def is_content(self, column, i, j):
        characters = all(self.is_non_break(k) for k in range(i, j))
        return j > i and characters and not (column == 0 and is_marker(self.text[i:]))

    @each
    def content(self, column, i):
        """A line of content and its break, or none at the text's end."""
        for start in self.spaces(column, i):
            j = self.text.find("\n", start)
            stop = self.end if j < 0 else j
            if self.is_content(column, start, stop):
                yield stop + (j >= 0), self.text[start:stop]

    @each
    def empty(self, column, i):
        return [j + 1 for j in self.run(" ", i) if self.at(j) == "\n" and j - i <= column]

    @each
    def lines(self, column, i):
        yield i, ()
        for j in self.empty(column, i):
            yield from ((k, (None, *more)) for k, more in self.lines(column, j))
        for j, line in self.content(column, i):
            yield from ((k, (line, *more)) for k, more in self.lines(column, j)) if self.at(j - 1) == "\n" else ()
            if self.at(j - 1) != "\n":
                yield j, (line,)
        for j in self.run(" ", i):
            if j == self.end and j - i == column >= 1:
                yield j, (None,)
            if j == self.end and j - i < column:
                yield j, ()

    @each
    def body(self, column, given, i):
        for j in self.empty(column, i):
            yield from ((k, (None, *more)) for k, more in self.body(column, given, j))
        for j, line in self.content(column, i):
            if given or line[0] != " ":
                if self.at(j - 1) == "\n":
                    yield from ((k, (line, *more)) for k, more in self.lines(column, j))
                else:
                    yield j, (line,)

    @each
    def empty_lines(self, column, i):
        yield i, ()
        for j in self.empty(column, i):
            yield from ((k, (None, *more)) for k, more in self.empty_lines(column, j))
            yield from ((k, (None,)) for k in self.run(" ", j) if k == self.end and k - j <= column)

    def ends_lines(self, column, i, j):
        """Whether the spaces from i to j, and what stands behind them, end lines of an indentation (IsBehind)."""
        c, count = self.at(j), j - i
        return count <= column and not (c == "\0" and count) and not (count < column and c == " ") and c != "\n" and (
            count != column or not self.is_non_break(j) or column == 0 and is_marker(self.text[j:]))

    def ends_content(self, i):
        return is_marker(self.text[i:]) or self.at(i) == MARK

    def may_follow(self, indent, column, i):
        """Whether what begins at i may stand behind a block scalar's lines (IsBehindScalar)."""
        j = re.compile(" *").match(self.text, i).end()
        c, count = self.at(j), j - i
        if i == self.end or self.ends_content(i):
            return True
        if j < self.end and c not in " \t\n" and (count < indent or c == "#" and count < column):
            return True
        return c == "\t" and count < column and (
            self.is_last_filler(i) or any(map(self.ends_content, self.filler(i))))

    @each
    def block_scalar(self, indent, i):
        for j, style, digit, chomping in self.header(i):
            if self.at(j) == "\t" and "E6" in self.kept:
                continue
            for column in [max(indent, 1) - 1 + digit] if digit else range(indent, indent + self.end + 1):
                found = [(k, lines, False) for k, lines in self.body(column, digit > 0, j)]
                found += [(k, lines, True) for k, lines in self.empty_lines(column, j)]
                found += [(k, (None,), True) for k in self.run(" ", j) if k == self.end and 1 <= k - j <= column]
                for k, lines, is_empty in found:
                    for n in self.run(" ", k):
                        if (self.ends_lines(column, k, n) and self.may_follow(indent, column, k)
                                and (not is_empty or self.may_be_empty(indent, column, digit, j, k, n - k))):
                            yield k, style, lines_value(style, chomping, lines)

    def may_be_empty(self, indent, column, digit, i, j, count):
        """Whether a scalar without content may stand before what begins at j, behind so many spaces (IsEmptyBody)."""
        widest = max(map(len, self.text[i:j].split("\n")))
        is_whole = "E5" not in self.kept and (digit or column == max(indent, widest))
        return count < indent or column == 0 or j == self.end or is_whole

    # ## BlockNodes.antt. A place is a kind and a column, which is -1 at the root.
    @each
    def gap_at(self, place, i):
        yield from self.gap(indent_at(place), i)
        if place[0] == "start":
            yield i

    def is_lone_tab(self, place, i, j):
        is_tabs = not self.text[i:j].strip("\t")
        return "E1" in self.kept and place[0] in ("mark", "key") and is_tabs and self.at(j) in ALPHA

    @each
    def lead(self, place, least, i):
        """What stands before a block collection's first entry: its properties, and the column of the entry."""
        fronts = [(i, NO_PROPERTIES)]
        for j in self.gap_at(place, i):
            fronts += self.properties(indent_at(place), j)
        for j, properties in fronts:
            for k in self.line_end(j):
                for start in self.filler(k):
                    yield from ((m, properties, m - start) for m in self.run(" ", start) if m - start >= least)
        if place[0] in ("dash", "mark", "start"):
            for j in self.run(" ", i):
                if place[0] == "start" or j > i:
                    yield j, NO_PROPERTIES, place[1] + 1 + j - i

    @each
    def flow_in_block(self, place, i):
        for j in self.gap_at(place, i):
            for k, node in self.flow_node(False, indent_at(place), j):
                if not self.is_lone_tab(place, i, j):
                    yield from ((end, node) for end in self.eol(k))

    @each
    def scalar_in_block(self, place, i):
        indent = indent_at(place)
        for j in self.gap_at(place, i):
            fronts = [(j, NO_PROPERTIES)]
            fronts += [(end, it) for k, it in self.properties(indent, j) for end in self.gap(indent, k)]
            for k, properties in fronts:
                for end, style, value in self.block_scalar(indent, k):
                    yield end, ("Scalar", properties, style, value)

    @each
    def implicit_pair(self, m, i):
        for j, key, _ in self.before_colon(True, False, m + 1, i):
            if j - i <= LONGEST_KEY and self.at(j) == ":":
                yield from ((k, (key, value)) for k, value in self.block_node(("key", m), j + 1))

    def is_behind_question(self, i, j):
        """Whether a key may stand from i, right behind a `?`, to j."""
        has_tab = "E2" in self.kept and has_tab_ahead(self.text[i:])
        return not has_tab and (j > i or "E8" not in self.kept)

    @each
    def block_pair(self, m, i):
        yield from self.implicit_pair(m, i)
        if self.at(i) == ":":
            yield from ((j, (LEFT_OUT, value)) for j, value in self.block_node(("key", m), i + 1))
        for j, key in self.block_node(("mark", m), i + 1) if self.at(i) == "?" else ():
            if self.is_behind_question(i + 1, j):
                if not is_value_ahead(m, self.text[j:]):
                    yield j, (key, LEFT_OUT)
                for k in self.filler(j):
                    for colon in self.spaces(m, k):
                        if self.at(colon) == ":":
                            yield from ((end, (key, it)) for end, it in self.block_node(("mark", m), colon + 1))

    @each
    def entry(self, kind, m, i):
        if kind == "Map":
            return self.block_pair(m, i)
        return self.block_node(("dash", m), i + 1) if self.at(i) == "-" else []

    @each
    def entries(self, kind, m, i):
        for j, entry in self.entry(kind, m, i):
            yield j, (entry,)
            for k in self.filler(j):
                for start in self.spaces(m, k):
                    yield from ((end, (entry, *more)) for end, more in self.entries(kind, m, start))

    @each
    def block_node(self, place, i):
        if place[0] != "start":
            yield from ((j, LEFT_OUT) for j in self.eol(i))
        yield from self.flow_in_block(place, i)
        yield from self.scalar_in_block(place, i)
        for kind in "Seq", "Map":
            least = indent_at(place) - (kind == "Seq" and place[0] in ("mark", "key"))
            for j, properties, m in self.lead(place, least, i):
                yield from ((k, (kind, properties, entries)) for k, entries in self.entries(kind, m, j))

    # ## Yaml.antt
    def has_marker(self, i, j, at_start):
        lines = self.text[i:j].split("\n")
        starts = itertools.accumulate([0] + [len(line) + 1 for line in lines[:-1]])
        return any(is_marker(self.text[i + start:j]) for start in list(starts)[not at_start:])

    @each
    def document(self, free, i):
        for j, node in self.block_node(("start", -1), i) if free else ():
            if not self.has_marker(i, j, True):
                yield j, (False, (), node)
        for j, directives in self.directives(i):
            if self.text.startswith("---", j) and (free or not directives):
                for k, node in self.block_node(("marker", -1), j + 3):
                    if not self.has_marker(j + 3, k, False):
                        yield k, (True, directives, node)

    @each
    def document_end(self, i):
        for j in self.filler(i):
            yield from self.eol(j + 3) if self.text.startswith("...", j) else ()

    @each
    def prefix(self, i):
        yield i
        for j in self.mark(i) + self.document_end(i):
            yield from self.prefix(j)

    def mark(self, i):
        return [j + 1 for j in self.filler(i) if self.at(j) == MARK]

    @each
    def documents(self, free, i):
        if self.is_last_filler(i):
            yield ()
        for j in self.filler(i):
            for k, document in self.document(free, j):
                for behind in self.many(self.mark, k):
                    yield from ((document, *more) for more in self.documents(False, behind))
                    for end in self.document_end(behind):
                        for start in self.prefix(end):
                            yield from ((document, *more) for more in self.documents(True, start))

    def forests(self):
        return list(dict.fromkeys(forest for i in self.prefix(0) for forest in self.documents(True, i)))


def parts(node):
    """A node as the parts of its events."""
    kind, *finds = node
    if kind == "Alias":
        return [("=ALI", NO_PROPERTIES, finds[0])]
    if kind == "Scalar":
        return [("=VAL", finds[0], finds[1] + finds[2])]
    inside = finds[1] if kind == "Seq" else [it for pair in finds[1] for it in pair]
    name = kind.upper()
    return [("+" + name, finds[0], ""), *(it for n in inside for it in parts(n)), ("-" + name, NO_PROPERTIES, "")]


def printed(forest, keep=False):
    """The lines of a forest's events, or none where an alias or a handle stands for nothing."""
    try:
        return events([(dict(it for it in directives if it[0]), parts(node)) for _, directives, node in forest], keep)
    except KeyError:
        return None


def read(program, text):
    ran = subprocess.run([program], input=text.encode(), capture_output=True)
    return (ran.stdout + ran.stderr).decode() if not ran.returncode else None


def texts(tokens, most):
    """Each text of up to so many tokens once."""
    seen, is_short = set(), all(len(token) == 1 for token in tokens)
    for count in range(most + 1):
        for words in itertools.product(tokens, repeat=count):
            text = "".join(words)
            if is_short or text not in seen:
                yield text
                is_short or seen.add(text)


def judge(text, program, counts, finds):
    """Counts a text, and tells of it where it is a find. Without the exceptions it has no fewer forests."""
    counts["texts"] += 1
    wide = Grammar(text, frozenset()).forests()
    forests = Grammar(text).forests() if wide else []
    if not wide:
        return
    lines = read(program, text)
    if forests:
        counts["of the grammar"] += 1
        if len(forests) > 1:
            finds[AMBIGUOUS].append(f"{text!r}: {forests}")
        wrong = [it for it in map(printed, forests) if it != lines]
        finds[OTHERWISE] += [f"{text!r}\n  wanted {it!r}\n  read   {lines!r}" for it in wrong]
    else:
        counts["of the grammar without the exceptions"] += 1
        if lines is not None:
            how = "as" if lines in map(printed, wide) else "not as"
            finds[LEFT_OUT_AND_READ].append(f"{text!r}: {lines!r}, {how} its forest says")


def find_again(count):
    """Whether each short derivation has one forest, and that has the derivation's events."""
    made = [it for it in map(Derivation, range(1, count + 1)) if len(it.text) <= 60]
    lost = [it.text for it in made if [events(it.forest)] != [printed(forest) for forest in Grammar(it.text).forests()]]
    print(*map(repr, lost[:20]), f"{len(made):,} derivations, {len(lost):,} of which aren't found again", sep="\n")
    return bool(lost)


def judge_all(alphabets, program):
    """Tells what is found among the texts of up to so many tokens of each alphabet, and whether one is a fault."""
    counts, finds = collections.Counter(), {name: [] for name in (AMBIGUOUS, OTHERWISE, LEFT_OUT_AND_READ)}
    for most, tokens in alphabets:
        for text in texts(tokens, most):
            judge(text, program, counts, finds)
    for name, found in finds.items():
        print(*sorted(found, key=len)[:20], f"{len(found):,} {name}", sep="\n")
    print(", ".join(f"{number:,} {name}" for name, number in counts.items()))
    return bool(finds[AMBIGUOUS] or finds[OTHERWISE])


def main():
    words = argparse.ArgumentParser(description=__doc__, formatter_class=argparse.RawDescriptionHelpFormatter)
    words.add_argument("--most", type=int, default=5)
    words.add_argument("--program", default=PROGRAM)
    words.add_argument("--text", action="store_true")
    words.add_argument("--small", action="store_true")
    words.add_argument("--all", action="store_true")
    words.add_argument("--derivations", type=int, default=0)
    words.add_argument("tokens", nargs="*")
    given = words.parse_args()
    if given.derivations:
        return find_again(given.derivations)
    tokens = [token.replace("\\n", "\n").replace("\\t", "\t") for token in given.tokens]
    if given.text:
        for text in tokens:
            print(repr(text), *map(printed, Grammar(text).forests()), sep="\n")
        return 0
    if not os.path.isfile(given.program):
        sys.exit(f"{given.program} is not built: run rt ci at the top of the repository, or rt run in the crate")
    if given.small or given.all:
        return judge_all([(most if given.all else 3, alphabet) for most, alphabet in ALPHABETS], given.program)
    return judge_all([(given.most, tokens)], given.program)


if __name__ == "__main__":
    sys.setrecursionlimit(100000)
    sys.exit(main())
