"""When an event and a fault have to be there, if a text is added in pieces that end with a line or before its end, or
byte by byte: the rules of docs/FACES.md, "From a pipe".

1. The line of a `---` or a `...` brings its own event, and all before it.
2. An event that has characters of its own comes at the latest with the line in which the next such event begins. One
   that has none, or begins with the next one, comes with that.
3. A collection in brackets that may be a key counts as one event. It may be one if neither `---` nor a key's colon is
   before it on its line.
4. Where 256 bytes or more wait by then, as many may have to come again first, but for a marker that a line has alone.

Behind a NUL, which a text may not have, nothing has to be there.

The page's table says which events come with which line of a text.

A fault comes with the line that tells it or with the next that has content, as tests/faces/faults.c has it. Its letter
and the lines say which of the page's kinds a late one is of. Each kind has its smallest text.
"""
import collections
import itertools
import re

LITTLE = 256
PLACES = re.compile(r"> (.*) @ (\d+),\d+,\d+ (\d+),\d+,\d+")
BRACKET = re.compile(rb"[][{}]")
NO_KEY = re.compile(rb"(^---|[^\s,?:[{-]:)[ \t]*$")
ROW = re.compile(r"  \| (none|`.*`|no more) \| (.*) \|")
LATE_ROW = re.compile(r"  \| .*\b(scalar|key|NUL)\b.* \| (`.*) \| .* \|")
LATE = re.compile("([lm]) ([0-9]+) (.*)")
CONTROLS = {"LF": "\n", "NUL": "\0"}
CHARACTERS = "a \n\0-?:,[]{}#&*!|>'\"%"  # of which texts shorter than the page's are made

Event = collections.namedtuple("Event", "name start end")


def events_of(case):
    """The events of a case, with their places in bytes."""
    behind = [0]
    for character in case.text:
        behind.append(behind[-1] + len(character.encode()))
    for told in filter(None, map(PLACES.fullmatch, case.block.split("\n"))):
        yield Event(told[1], *(behind[min(int(it), len(behind) - 1)] for it in told.groups()[1:]))


def is_marker(event, text):
    return event.name in ("+DOC ---", "-DOC") and text[event.start : event.end] in (b"---", b"...")


def is_line(event, text):
    """Whether a line has the characters of an event alone."""
    line = text[: line_end(text, event.start)].rstrip(b"\r\n").replace(b"\r", b"\n").rpartition(b"\n")[2]
    return line == text[event.start : event.end]


def is_bracket(event, text):
    return event.name[1:4] in ("SEQ", "MAP") and BRACKET.search(text[event.start : event.end])


def has_own(event, text):
    """Whether an event has characters of its own. Others take their places from what is behind them."""
    is_scalar = event.name[0] == "=" and not event.name.endswith(" :")
    return is_scalar or is_bracket(event, text) or is_marker(event, text)


def closing(events, at):
    """The event that ends the collection which begins there."""
    depth = 0
    for end in range(at, len(events)):
        depth += (events[end].name[0] == "+") - (events[end].name[0] == "-")
        if depth == 0:
            return end
    return len(events) - 1


def holders(events, text):
    """For each event the last one that it waits for: itself, or the end of a collection that may be a key."""
    held = list(range(len(events)))
    at = 0
    while at < len(events):
        event, end = events[at], at
        bracket = event.name[0] == "+" and is_bracket(event, text)
        if bracket:
            line = text[: event.start].rpartition(b"\n")[2]
            in_line = b"\n" not in text[event.start : event.start + bracket.start()]
            end = at if in_line and NO_KEY.search(line) else closing(events, at)
        held[at : end + 1] = [end] * (end + 1 - at)
        at = end + 1
    return held


def line_end(text, at):
    """Behind the line of a place, or further than the text."""
    end = text.find(b"\n", at)
    return len(text) + 1 if end < 0 else end + 1


def due(case):
    """Yields how many bytes may have come before each event comes. Behind the text its end brings all."""
    text, events = case.text.encode(), list(events_of(case))
    held, dues, waits_from = holders(events, text), [len(text) + 1] * len(events), 0
    for at in reversed(range(len(events))):
        end = events[held[at]].end
        later = next((it for it in events[held[at] + 1 :] if it.start >= end and has_own(it, text)), None)
        if is_marker(events[at], text):
            dues[at] = line_end(text, events[at].start)
        elif not has_own(events[at], text):
            dues[at] = dues[at + 1] if at + 1 < len(events) else dues[at]
        elif later:
            dues[at] = line_end(text, later.start)
        dues[at] = min(dues[at : at + 2])
    markers = {line_end(text, it.start) for it in events if is_marker(it, text) and is_line(it, text)}
    for at, event in enumerate(events):
        waits = dues[at] - waits_from
        again = waits if waits >= LITTLE and dues[at] not in markers else 0
        yield len(text) + 1 if b"\0" in text[: dues[at]] else dues[at] + again
        waits_from = max(waits_from, event.end)


def late(case, lines):
    """The first event that was not there when it was due, and how many bytes had come. The lines are what `pieces lines`
    printed."""
    dues = list(due(case))
    given = came = 0
    for line in lines:
        if line.startswith("~ "):
            if given < len(dues) and dues[given] <= came:
                return given, came
            came = int(line[2:])
        elif line.startswith("> "):
            given += 1
    return None


def table(page):
    """The lines of the page's table, each with the events that it brings. The first and the last row have no line."""
    for row in filter(None, map(ROW.fullmatch, page.split("\n"))):
        yield row[1].strip("`") if row[1][0] == "`" else "", re.findall("`([^`]*)`", row[2])


def table_text(rows):
    return "".join(f"{line}\n" for line, _ in rows[1:-1]).encode()


def table_answers(rows, lines):
    """The events that each row of the table brought. The lines are what `pieces lines` or `pieces bytes` printed."""
    ends, brought, came = [0], [[] for _ in rows], 0
    for line, _ in rows[1:-1]:
        ends.append(ends[-1] + len(line) + 1)
    for line in lines:
        if line.startswith("~ "):
            came = max(int(line[2:]), came + 1)
        elif line.startswith("> "):
            at = next((at for at, end in enumerate(ends) if came <= end), len(ends))
            brought[at].append(line[2:].partition(" @ ")[0].removesuffix(" ---"))
    return brought


def late_texts(page):
    """The smallest text of each kind of late fault, as the page's list has them."""
    for row in filter(None, map(LATE_ROW.fullmatch, page.split("\n"))):
        words = re.findall("`([^`]*)`|([A-Z]+)", row[2])
        yield row[1], "".join(said or CONTROLS[control] for said, control in words).encode()


def shorter_texts(text):
    """Texts that have fewer characters before the end of their line."""
    for count in range(len(text) - 1):
        yield from ("".join(it).encode() + b"\n" for it in itertools.product(CHARACTERS, repeat=count))


def late_kind(text, answer):
    """Of which kind a late fault is, if its answer says that it is late. The answer is what `faults` printed."""
    late = LATE.fullmatch(answer)
    if not late:
        return None
    told = text[: int(late[2])]
    if late[1] == "l":
        return "scalar"
    return "NUL" if b"\0" in told else "key" if re.search(rb"[{\[]", told) else "no kind"
