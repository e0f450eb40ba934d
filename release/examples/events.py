"""Prints the events of a YAML text, each with its place: a line such as `1:1-1:5 =VAL :name`.

    python3 events.py < FILE
"""
import sys

import saphyr_parser
from saphyr_parser import Kind

NAMES = " +STR -STR +DOC -DOC =ALI =VAL +SEQ -SEQ +MAP -MAP".split(" ")
MARKS = ":'\"|>"


def line_of(event):
    anchor = f" {'*' if event.kind == Kind.ALIAS else '&'}{event.anchor}" if event.anchor else ""
    tag = "" if event.tag is None else f" <{event.tag}>"
    scalar = f" {MARKS[event.style]}{event.value}" if event.kind == Kind.SCALAR else ""
    return f"{event.start}-{event.end} {NAMES[event.kind]}{anchor}{tag}{scalar}"


try:
    for event in saphyr_parser.events(sys.stdin.buffer):
        print(line_of(event))
except ValueError as error:
    sys.exit(str(error))
