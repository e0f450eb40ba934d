#!/usr/bin/env python3
"""Random derivations of YAML's grammar, read by `dump_events`.

    tests/derivations.py [COUNT [SEED]]

Makes COUNT texts (50,000) from the seeds SEED (1), SEED + 1 and so on, and compares what the program prints, as `rt ci`
or `rt run` in crates/dump_events left it in out/, with the events of their forests. The shortest that differ are shown.

A method of `Derivation` is a production, and makes a text and the node for which that stands, as the definitions in the
specs/ of yaml_laws, scalar_laws and saphyr_scalar relate them. They speak of what stands behind a piece, so texts
are made from their ends. A node is its parts in the order of their events, which come from these parts alone.
"""
import collections
import os
import random
import re
import subprocess
import sys

PROGRAM = os.path.dirname(os.path.dirname(os.path.abspath(__file__))) + "/crates/dump_events/out/dump_events"
TABS, MOST_OPEN, LONGEST_KEY, MARK, ESCAPED, FLOW = "  \t", 255, 1024, "\ufeff", "\ue000\ue001\ue002", ",[]{}"
CHARS = "aab1" * 6 + "-?:.#&*!|>'\"%@`\\/=_~" + FLOW + "\x01\x7f\x85\xa0é\u2028\ufffe\U0001f600"
OPEN_CHARS = "".join(c for c in CHARS if c not in FLOW)
URI, SUFFIX = "aab1-#;/?:@&=+$,_.!~*'()[]", "aab1-#;/?:@&=+$_.~*'()"
ESCAPES = list(zip('0abt\tnvfre "/\\N_LP', "\0\a\b\t\t\n\v\f\r\x1b \"/\\\x85\xa0\u2028\u2029"))
ESCAPES += [(form % ord(c), c) for form, most in (("x%02x", 0xff), ("u%04X", 0xffff), ("U%08x", 0x10ffff))
            for c in "\0\t\n\r \\Zé\xff\ud7ff\ufeff\uffff\U0001f600\U0010ffff" if ord(c) <= most]
SHOWN = {"\\": "\\\\", "\n": "\\n", "\r": "\\r", "\b": "\\b", "\t": "\\t"}
NO_PROPERTIES, LEFT_OUT = (None, None), [("=VAL", (None, None), ":")]


def is_marker(text):
    return text[:3] in ("---", "...") and text[3:4] in ("", " ", "\t", "\n")


def ends_content(text):
    """Whether a text ends a document's content where it begins a line (BlockNodes.antt)."""
    return is_marker(text) or text[:1] == MARK


def folded(text):
    """A folded flow scalar (Reading/Folding.antt): U+E003 is an escaped break's backslash, ESCAPED an escaped blank."""
    text = re.sub("\ue003[ \t\n]*", lambda it: ESCAPED[2] * (it[0].count("\n") - 1), text)
    text = re.sub("[ \t]*\n[ \t\n]*", lambda it: "\n" * (it[0].count("\n") - 1) or " ", text)
    return text.translate(str.maketrans(ESCAPED, " \t\n"))


def block_value(folds, chomping, lines):
    """The value of a block scalar's lines, of which the empty ones are None (Reading/Block.antt)."""
    read, above, breaks = "", None, 0
    for line in lines:
        if line is not None:
            is_folded = folds and above and above[0] not in " \t" and line[0] not in " \t"
            read += ("\n" * breaks or " " if is_folded else "\n" * (breaks + bool(above))) + line
        above, breaks = (above, breaks + 1) if line is None else (line, 0)
    return read + {"strip": "", "clip": "\n", "keep": "\n" + "\n" * breaks}[chomping]


def may_follow(indent, column, behind):
    """What may stand behind a block scalar whose content begins at a column (IsBehind, IsBehindScalar)."""
    at, c = len(behind) - len(behind.lstrip(" ")), behind.lstrip(" ")[:1]
    if c == "\t":
        last = re.sub("^([ \t]*(#.*)?\n)*", "", behind)
        return at < column and (ends_content(last) or bool(re.fullmatch("[ \t]*(#[^\n]*)?", last)))
    return not behind or ends_content(behind) or c not in ("", "\n") and at < column and (at < indent or c == "#")


def may_follow_empty(indent, column, behind):
    """The same behind a block scalar without content (IsEmptyBody), whose lines have at most `column` spaces."""
    at = len(behind) - len(behind.lstrip(" "))
    return may_follow(indent, column, behind) and (at < indent or not column or not behind)


def has_tab_ahead(text):
    """Whether a tab stands before the first token of a text, outside comments (BlockNodes.antt)."""
    return "\t" in re.sub("#[^\n]*", "", re.match("([ \t\n]|#[^\n]*)*", text)[0])


def is_value_ahead(column, text):
    """Whether the first token of a text is the `:` of a value at a column (BlockNodes.antt)."""
    return bool(re.match("[ \t]{%d}:([ \t\n]|$)" % column, re.sub("^([ \t]*(#.*)?\n)*", "", text)))


class Derivation:
    """A text of the grammar, its scalars in quotes with line feeds as breaks, and of each of its documents what the
    directives declare, and the parts of its node."""

    def __init__(self, seed):
        self.random, self.hits, self.names, self.handles = random.Random(seed), [], set(), set()
        self.one_of, self.declares, self.fuel, self.quotes = self.random.choice, False, 0, []
        text, self.forest = self.documents(True, self.one_of((0, 1, 1, 1, 2, 2, 3, 4)))
        self.text = self.broken(self.prefix(text) + text)

    def few(self):
        return self.one_of((0, 0, 0, 0, 1, 1, 2, 3))

    def rarely(self, number):
        return self.random.randrange(number) == 0

    def pick(self, name, **weights):
        alternative = self.one_of([it for it, weight in weights.items() for _ in range(weight)])
        self.hits.append(f"{name}: {alternative.replace('_', ' ')}")
        return alternative

    def characters(self, among, least=0):
        return "".join(self.one_of(among) for _ in range(least + self.few()))

    # ## Spelling/Spaces.antt. `indent` is None where no line may end.
    def comment(self):
        self.hits.append("comment")
        return "#" + self.characters(CHARS + " \t", self.few())

    def line_end(self, blanks=TABS):
        front = self.characters(blanks)
        return front + (self.comment() if front and self.rarely(2) else "") + "\n"

    def eol(self, behind, blanks=TABS):
        return self.line_end(blanks)[:-1 if not behind and self.pick("last line", ended=1, cut=1) == "cut" else None]

    def filler(self, last=0, blanks=TABS):
        fronts = [self.characters(blanks) for _ in range(self.few() + last)]
        self.hits += ["filler: a tab"] * any("\t" in front for front in fronts)
        lines = [front + (self.comment() if self.rarely(2) else "") for front in fronts]
        return "\n".join(lines + [""] * (bool(lines) and not last))

    def blanks(self, place):
        """What may stand at the end of a line right behind what a place is behind."""
        return " " if place[0] == "question" else TABS

    def line_prefix(self, indent, blanks=TABS):
        front = self.characters(" ", indent) + (self.characters(blanks) if self.rarely(2) else "")
        self.hits += ["a tab behind indentation"] * ("\t" in front)
        return front

    def gap(self, place, node):
        kind = self.pick(f"gap behind a {place[0]}", blanks=3, next_line=1, nothing=6 * (place[0] == "start"))
        blanks = self.blanks(place)
        if kind == "next_line":
            return self.line_end(blanks) + self.filler(blanks=blanks) + self.line_prefix(place[1] + 1, blanks)
        gap = self.characters(" " if self.rarely(2) else blanks, 1) if kind == "blanks" else ""
        self.hits += ["a tab before a node"] * ("\t" in gap)
        is_lone_tab = place[0] in ("key", "mark") and not gap.strip("\t") and re.match("[0-9A-Za-z_-]", node)
        return " " + gap if is_lone_tab else gap

    def text_gap(self, indent):
        """A gap behind properties."""
        if indent is None or self.pick("gap behind properties", blanks=4, next_line=1) == "blanks":
            gap = self.characters(" " if self.rarely(2) else TABS, 1)
            self.hits += ["a tab behind properties"] * ("\t" in gap)
            return gap
        return self.line_end() + self.filler() + self.line_prefix(indent)

    def separation(self, indent, least=0, blanks="   \t"):
        if indent is None or self.pick("separation", blanks=4, lines=1) == "blanks":
            return self.characters(blanks, least)
        lines = [self.line_end(blanks) + self.filler(blanks=blanks) + " " * indent for _ in range(1 + self.few())]
        return "".join(lines) + self.characters(blanks)

    # ## TagSpelling.antt, Spelling/Tag.antt and Spelling/Directive.antt
    def anchor_name(self, known="abc"):
        return self.characters(OPEN_CHARS, 1) if self.rarely(4) else self.one_of(known)

    def decoded(self, among, least=0):
        text = value = ""
        for _ in range(least + self.few()):
            kind = self.pick("character of a tag", itself=5, escaped=1)
            c = self.one_of(among if kind == "itself" else "a%é\0\n\u2028\uffff\U0001f600" + among)
            value += c
            text += c if kind == "itself" else "".join(self.one_of(("%%%02X", "%%%02x")) % byte for byte in c.encode())
        return text, value

    def tag(self):
        kind = self.pick("tag", primary=2, secondary=2, named=2 * self.declares, non_specific=1, verbatim=1)
        text, value = ("", "!") if kind == "non_specific" else self.decoded(URI if kind == "verbatim" else SUFFIX, 1)
        if kind in ("non_specific", "verbatim"):
            return f"!<{text}>" if text else "!", ("", value)
        handle = {"primary": "!", "secondary": "!!"}.get(kind) or f"!{self.one_of(('e', 'x-1', '_'))}!"
        self.handles.add(handle)
        return handle + text, (handle, value)

    def properties(self, indent):
        kind = self.pick("properties", anchor=3, tag=1 + (not self.names), both=1)
        anchor = None if kind == "tag" else self.anchor_name(sorted(self.names) or "abc")
        text, tag = ("", None) if kind == "anchor" else self.tag()
        self.names.discard(anchor)
        written = ["&" + anchor, text][:2 if tag else 1] if anchor else [text]
        self.random.shuffle(written)
        return self.text_gap(indent).join(written), (anchor, tag)

    def before(self, name, indent, separation):
        kind = self.pick(f"before {name}", nothing=6, properties=1 + 3 * bool(self.names))
        text, properties = self.properties(indent) if kind == "properties" else ("", NO_PROPERTIES)
        return text and text + separation, properties

    def directives(self):
        named = [it for it in ("!", "!!", "!e!", "!x-1!", "!_!") if self.rarely(4) or it in self.handles and it[1:-1]]
        said, text, prefixes = named + ["version"] * self.rarely(4) + ["reserved"] * self.few(), "", {}
        self.random.shuffle(said)
        for handle in said:
            self.hits.append("directive: " + (handle if handle[0] != "!" else "tag"))
            blanks, more, end = self.characters(" \t", 1), self.characters(" \t", 1), self.line_end(" \t")
            numbers = [(self.characters("1023456789", 1) * self.one_of((1, 5)))[:9] for _ in range(2)]
            (first, value), (others, prefix) = self.decoded("!!!" + SUFFIX, 1), self.decoded(URI)
            prefixes[handle] = value + prefix
            text += "%" + {
                "version": "YAML" + blanks + ".".join(numbers) + end,
                "reserved": self.characters(CHARS, 1) + self.one_of(("", blanks + self.characters(CHARS + more))) + "\n",
            }.get(handle, "TAG" + blanks + handle + more + first + others + end) + self.filler()
        return text, prefixes

    # ## FlowScalars.antt, Spelling/Plain.antt, Spelling/Quoted.antt and Spelling/QuotedLines.antt
    def word(self, in_flow, is_first):
        word = self.characters(OPEN_CHARS if in_flow else CHARS, 1).rstrip(":") or "a"
        word *= self.random.randrange(1, 1100) if self.rarely(500) else 1
        is_refused = word[0] in FLOW + "&*!|>'\"%@`" or word in ("-", "?") if is_first else in_flow and word == "-"
        return "a" + word if is_refused or word[0] == "#" else word

    def next_line(self, indent):
        fronts = [self.characters(" ", indent) + self.characters("  \t") for _ in range(1 + self.few())]
        empty = [front if self.rarely(2) else self.characters(" ") for front in fronts[1:]]
        return "\n".join(["", *empty, fronts[0]])

    def plain(self, in_flow, indent):
        text = self.word(in_flow, True)
        for _ in range(self.few()):
            folds = indent is not None and self.pick("word gap", blanks=3, folded=1) == "folded"
            text += self.characters("   \t", not folds) + (self.next_line(indent) if folds else "")
            text += ("- " if self.rarely(8) else "") + self.word(in_flow, False)
        return text, ":" + folded(text)

    def plain_key(self, in_flow, indent):
        """A plain scalar that is a key, right before its colon, and its node: its last word has any character."""
        front = self.plain(in_flow, indent)[0] + self.characters("   \t", 1) if self.rarely(2) else ""
        word = self.characters(OPEN_CHARS if in_flow else CHARS, self.few()) + self.characters("::::-?", 1)
        is_refused = not front and word[0] in FLOW + "&*!|>'\"%@`"
        text = front + ("a" + word if is_refused or word[0] == "#" else word)
        before, properties = self.before("a plain key", indent, self.separation(indent, 1))
        self.hits.append("key: its last word is free")
        self.hits += [f"key: {text} alone"] * (text in ("-", "?", ":"))
        return before + text, [("=VAL", properties, ":" + folded(text))]

    def quoted(self, quote, indent):
        double, breaks, text, read = 2 * (quote == '"'), 4 * (indent is not None), "", ""
        among = [c for c in CHARS + MARK + "     \t\t" if c != quote and (c != "\\" or not double)]
        for _ in range(self.one_of((0, 1, 2, 3, 4, 6))):
            kind = self.pick("in double quotes" if double else "in single quotes", itself=8, two_quotes=2 - double,
                             escaped=2 * double, broken=breaks, escaped_break=breaks * double // 2)
            piece, line, (name, c) = self.characters(among, 1), self.next_line(indent or 0), self.one_of(ESCAPES)
            escaped = "\\" + name, c.translate(str.maketrans(" \t\n", ESCAPED))
            piece, c = {"itself": (piece, piece), "two_quotes": ("''", "'"), "escaped": escaped, "broken": (line, line),
                        "escaped_break": ("\\" + line, "\ue003" + line)}[kind]
            text, read = text + piece, read + c
        self.quotes.append(quote + text + quote)
        return self.quotes[-1], quote + folded(read)

    # ## FlowNodes.antt
    def flow_node(self, room, in_flow, indent, is_adjacent=False):
        """A node; a quoted scalar or a collection where a value stands at once behind its colon."""
        grows, other = 90 * (self.fuel > 0 and room > 0), int(not is_adjacent)
        kind = self.pick("flow node", plain=180 * other, single=30, double=30, properties=30 * other, alias=30 * other,
                         sequence=grows, mapping=grows, tower=(room > 0))
        self.fuel -= 1
        if kind == "alias":
            name = self.anchor_name()
            self.names.add(name)
            return "*" + name, [("=ALI", NO_PROPERTIES, name)]
        if kind == "properties":
            text, properties = self.properties(indent)
            return text, [("=VAL", properties, ":")]
        if kind == "tower":  # as many sequences in one another as may be open
            sequence = self.collection("sequence", NO_PROPERTIES, [])
            return ("[" + self.separation(indent)) * room + "]" * room, sequence[:1] * room + sequence[1:] * room
        if kind in ("sequence", "mapping"):
            text, parts = self.items(room - 1, indent, kind)
            front, properties = self.before("a flow collection", indent, self.separation(indent, 1))
            return front + text, self.collection(kind, properties, parts)
        text, shown = self.plain(in_flow, indent) if kind == "plain" else self.quoted("'\""[kind == "double"], indent)
        front, properties = self.before("a flow scalar", indent, self.separation(indent, 1))
        return front + text, [("=VAL", properties, shown)]

    def collection(self, kind, properties, parts):
        name = "SEQ" if kind == "sequence" else "MAP"
        return [("+" + name, properties, "")] + parts + [("-" + name, NO_PROPERTIES, "")]

    def items(self, room, indent, kind):
        text, parts, comma = "", [], self.rarely(5)
        for _ in range(self.one_of((0, 1, 1, 2, 2, 3))):
            if kind == "mapping":
                item, part = self.pair(room, indent, "braces")
            elif self.pick("item", node=3, pair=1) == "node":
                item, part = self.flow_node(room, True, indent)
                item += self.separation(indent)
            else:
                item, part = self.pair(room, indent, "brackets")
                part = self.collection("mapping", NO_PROPERTIES, part)
            text, parts, comma = item + ("," + self.separation(indent) if comma else "") + text, part + parts, True
        return "[{"[kind == "mapping"] + self.separation(indent) + text + "]}"[kind == "mapping"], parts

    def pair(self, room, indent, inside):
        kind = self.pick(f"pair in {inside}", both=4, value=1, key=int(inside == "braces"), explicit=2, lone_mark=1)
        mark = "?" + self.separation(indent, 1, " ") if kind in ("explicit", "lone_mark") else ""
        if kind == "lone_mark":
            return mark, LEFT_OUT + LEFT_OUT
        kind = self.pick("explicit pair", key=1, value=1, both=1) if kind == "explicit" else kind
        is_adjacent, text, key, value = kind == "both" and self.rarely(3), "", LEFT_OUT, LEFT_OUT
        if kind != "key" and self.pick("colon in flow", value=4, nothing=1) == "value":
            text, value = self.flow_node(room, True, indent)
            text = ("" if is_adjacent else self.separation(indent, 1)) + text
        text = ":" + text if kind != "key" else ""
        if kind != "value":
            line = None if kind == "both" and inside == "brackets" and not mark else indent
            is_plain = kind == "both" and not is_adjacent and self.rarely(6)
            node, key = self.plain_key(True, line) if is_plain else self.flow_node(room, True, line, is_adjacent)
            line = None if is_adjacent and key[0][0] != "=VAL" else line
            needs_separation = key[0][0] == "=ALI" or key[0][2] == ":"
            text = node + (self.separation(line, needs_separation) if kind == "both" and not is_plain else "") + text
        return mark + text + self.separation(indent), key + value

    # ## BlockNodes.antt and Spelling/Block.antt. A place is a kind and a column, which is -1 at the root.
    def block_node(self, place, behind):
        grows, indent = 3 * (self.fuel > 0), place[1] + 1
        starts = [(max(indent, 1) - 1 + digit, digit) for digit in range(1, 10)] + [(indent + it, 0) for it in range(9)]
        starts = [it for it in starts if may_follow(indent, it[0], behind)]
        may_lack = place[0] != "start" and (place[0] != "question" or not has_tab_ahead(behind))
        kind = self.pick("block node", flow=6, left_out=int(may_lack), scalar=3 * bool(starts),
                         sequence=grows, mapping=grows)
        self.fuel -= 1
        if kind == "left_out":
            return self.eol(behind, self.blanks(place)), LEFT_OUT
        if kind == "scalar":
            column, digit = self.one_of(starts)
            lacks_content = may_follow_empty(indent, column, behind) and self.rarely(4 if behind else 2)
            text, shown = (self.empty_scalar if lacks_content else self.block_scalar)(behind, column, digit)
            front, properties = self.before("a block scalar", indent, self.text_gap(indent))
            return self.gap(place, front + text) + front + text, [("=VAL", properties, shown)]
        if kind in ("sequence", "mapping"):
            return self.block_collection(place, behind, kind)
        text, parts = self.flow_node(MOST_OPEN, False, indent)
        return self.gap(place, text) + text + self.eol(behind), parts

    def block_scalar(self, behind, column, digit):
        first, lines = self.few(), []
        for at in range(first + 1 + self.few() + self.few()):
            line = self.characters(CHARS + "    \t\t", 1)
            line = line.lstrip(" ") or "a" if at == first and not digit else line
            line = "a" + line if column == 0 and (is_marker(line) or at == 0 and line[0] == "\t") else line
            lines.append(None if at < first or at > first and self.rarely(3) else line)
        body = "\n".join(" " * (self.random.randint(0, column) if it is None else column) + (it or "") for it in lines)
        cut = not behind and self.rarely(3)
        if cut:
            # spaces up to the text's end, which are an empty line at the column and none left of it
            spaces = self.random.randint(0, column)
            body += "\n" + " " * spaces
            lines += [None] * (spaces == column > 0)
        else:
            body += "\n" * bool(behind or lines[-1] is None or self.rarely(2))
        noted = {"its indentation is given": digit, "at column 0": not column, "its last line is empty": not lines[-1],
                "its last break lacks": body[-1] != "\n" and not cut, "spaces at the text's end": cut, "a comment left of it": behind.lstrip(" ")[:1] == "#",
                "a tab left of it": behind.lstrip(" ")[:1] == "\t"}
        self.hits += [f"block scalar: {it}" for it in noted if noted[it]]
        style, chomping, header = self.header(digit)
        return header + self.line_end(" \t") + body, style + block_value(style == ">", chomping, lines)

    def header(self, digit):
        style, chomping = self.one_of("|>"), self.pick("chomping", clip=1, strip=1, keep=1)
        marks = [str(digit or ""), {"clip": "", "strip": "-", "keep": "+"}[chomping]][::self.one_of((1, -1))]
        return style, chomping, style + "".join(marks)

    def empty_scalar(self, behind, column, digit):
        """A block scalar without content (IsEmptyBody)."""
        style, chomping, header = self.header(digit)
        # no tab stands right behind the header's line
        end, count = self.line_end(" \t"), self.few() or int(behind[:1] == "\t")
        body = "".join(" " * self.random.randint(0, column) + "\n" for _ in range(count))
        noted = "no lines" if not count else "empty lines"
        if not behind and self.rarely(2):
            spaces = self.random.randint(0, column)
            noted, count, body = "spaces at the text's end", count or int(spaces > 0), body + " " * spaces
            if not body and self.rarely(2):
                noted, end = "a header at the text's end", end[:-1]
        self.hits += [f"block scalar without content: {noted}"]
        return header + end + body, style + "\n" * (count if chomping == "keep" else 0)

    def block_collection(self, place, behind, kind):
        name, column = place
        lead = self.pick(f"block {kind} behind a {name}", next_line=2, compact=2 * (name not in ("key", "marker")))
        spaces = self.characters(" ", int(name != "start"))
        least = kind != "sequence" or name in ("dash", "marker", "start")
        at = column + 1 + len(spaces) if lead == "compact" else column + least + self.few()
        text, parts = self.entries(at, behind, kind)
        if lead == "compact":
            return spaces + text, self.collection(kind, NO_PROPERTIES, parts)
        self.hits += ["block sequence: at its mapping's column"] * (at == column)
        front, properties = self.before("a block collection", column + 1, "")
        blanks = TABS if front else self.blanks(place)
        front = (front and self.gap(place, front) + front) + self.line_end(blanks) + self.filler(blanks=blanks)
        return front + " " * at + text, self.collection(kind, properties, parts)

    def entries(self, column, behind, kind):
        text, parts, front = "", [], ""
        for _ in range(1 + self.few()):
            text, dash, others = front + text, "-" * (kind == "sequence"), front + text + behind
            entry, part = self.block_node(("dash", column), others) if dash else self.block_pair(column, others)
            text, parts, front = dash + entry + text, part + parts, self.filler() + " " * column
        return text, parts

    def block_pair(self, column, behind):
        may_be_alone = int(not is_value_ahead(column, behind))
        kind = self.pick("block pair", key=6, mark=2, no_key=1, key_alone=may_be_alone)
        place = "mark" if kind == "mark" else "key"
        text, value = ("", LEFT_OUT) if kind == "key_alone" else self.block_node((place, column), behind)
        if kind == "no_key":
            return ":" + text, LEFT_OUT + value
        if kind != "key":
            colon = self.filler() + " " * column + ":" if kind == "mark" else ""
            node, key = self.block_node(("question", column), colon + text + behind)
            return "?" + (node or "\n") + colon + text, key + value
        names, is_plain = set(self.names), self.rarely(6)
        node, key = self.plain_key(False, None) if is_plain else self.flow_node(MOST_OPEN, False, None)
        if is_plain and len(node) <= LONGEST_KEY:
            return node + ":" + text, key + value
        if is_plain:
            node, key, self.names = "a", [("=VAL", NO_PROPERTIES, ":a")], names
        node += self.characters("  \t", key[0][0] == "=ALI" or key[0][2] == ":")
        node = node.ljust(LONGEST_KEY) if self.pick("key", any=60, as_long_as_it_may_be=1) != "any" else node
        if len(node) > LONGEST_KEY:
            node = "? " + node + "\n" + " " * column
        return node + ":" + text, key + value

    # ## Yaml.antt
    def document(self, free, behind):
        """A document in which no line begins with a marker, and no alias lacks its anchor."""
        while True:
            count, self.names, self.handles = len(self.hits), set(), set()
            self.fuel = self.random.randrange(100 if self.rarely(30) else 14)
            kind = self.pick("document", bare=4 * free, explicit=1, with_directives=2 * free)
            self.declares = kind == "with_directives"
            text, parts = self.block_node(("start" if kind == "bare" else "marker", -1), behind)
            if not self.names and not any(is_marker(line) for line in text.split("\n")[kind != "bare":]):
                directives, prefixes = self.directives() if self.declares else ("", {})
                return directives + "---" * (kind != "bare") + text, (prefixes, parts)
            del self.hits[count:]

    def prefix(self, behind):
        """What may stand where a document is free: byte order marks and `...` lines, with filler before each."""
        kind = self.pick("where a document is free", nothing=6, mark=1, end=1)
        if kind == "nothing":
            return ""
        others = self.prefix(behind)
        return self.filler() + (MARK if kind == "mark" else "..." + self.eol(others + behind)) + others

    def documents(self, free, count):
        if not count:
            return self.filler(last=1), []
        kind = self.pick("behind a document", nothing=1, suffix=1)
        others, forest = self.documents(kind != "nothing", count - 1)
        if kind != "nothing":
            others = self.prefix(others) + others
            others = self.filler() + "..." + self.eol(others) + others
        if self.pick("before what ends a document", nothing=4, marks=1) == "marks":
            others = "".join(self.filler() + MARK for _ in range(1 + self.few())) + others
        text, document = self.document(free, others)
        return self.filler() + text + others, [document] + forest

    def broken(self, text):
        """The text with other breaks, which are read as its line feeds (5.4). No CR stands right before an LF alone."""
        kinds = self.one_of(((("\n",),), (("\r", "\r\n"),), (("\n", "\r\n"), ("\r", "\r\n"), ("\r",))))
        runs = [(it, self.one_of(kinds)) for it in re.split("(\n+)", text)]
        return "".join("".join(self.random.choices(kind, k=len(it))) if it[:1] == "\n" else it for it, kind in runs)


def events(forest, keep=False):
    """The printed events of a forest (ForestEvents.antt, Anchors.antt, TagResolution.antt and Printed.antt).

    With `keep` a document's prefixes hold for later documents too.
    """
    lines, count, kept = ["+STR"], 0, {}
    for declared, parts in forest:
        lines.append("+DOC")
        kept = {**kept, **declared} if keep else declared
        latest, prefixes = {}, {"": "", "!": "!", "!!": "tag:yaml.org,2002:", **kept}
        for name, (anchor, tag), shown in parts:
            if anchor is not None:
                count += 1
                latest[anchor] = count
                name += f" &{count}"
            name += f" <{prefixes[tag[0]]}{tag[1]}>" if tag else ""
            shown = f"*{latest[shown]}" if name == "=ALI" else "".join(SHOWN.get(c, c) for c in shown)
            lines.append(f"{name} {shown}" if shown else name)
        lines.append("-DOC")
    return "".join(f"{line}\n" for line in lines + ["-STR"])


def main(words):
    count, first = (int(word) for word in words + ["50000", "1"][len(words):])
    if not os.path.isfile(PROGRAM):
        sys.exit(f"{PROGRAM} is not built: run rt ci at the top of the repository, or rt run in the crate")
    hits, lengths, wrong = collections.Counter(), [], []
    for seed in range(first, first + count):
        made = Derivation(seed)
        hits.update(made.hits)
        lengths.append(len(made.text))
        ran = subprocess.run([PROGRAM], input=made.text.encode(), capture_output=True)
        wanted, read = events(made.forest), (ran.stdout + ran.stderr).decode()
        if ran.returncode or wanted != read:
            wrong.append((len(made.text), f"seed {seed}: {made.text!r}\n  wanted {wanted!r}\n  read   {read!r}"))
    noted = [f"{number:9,}  {name}" for name, number in sorted(hits.items())]
    print(*noted, *(text for _, text in sorted(wrong)[:20]), sep="\n")
    print(f"seeds {first} to {first + count - 1}: texts of {min(lengths)} to {max(lengths):,} characters, "
          f"{sum(lengths) // count} on average; {len(wrong)} read otherwise")
    return 1 if wrong else 0


if __name__ == "__main__":
    sys.exit(main(sys.argv[1:]))
