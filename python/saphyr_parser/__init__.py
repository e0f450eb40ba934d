"""A proved parser of YAML 1.2, for Python: its events and trees, with their places.

    import saphyr_parser

    for event in saphyr_parser.events("name: parser"):
        print(event.kind.name, event.value, event.start)

    config = saphyr_parser.load("ports: [80, 443]")
    for port in config["ports"]:
        print(int(port), port.start.line)

A text is a `str`, or bytes in UTF-8, or a `pathlib.Path`, or a file, or an iterable of its pieces. The last three are
read piece by piece. Scalars are not resolved: `80`, `true` and `"80"` are texts, whose `style` and `tag` tell how they
are written.

The library is proved. This package and its extension, which calls the library, are tested.
"""
import enum
import os
import unicodedata
from typing import (Any, Callable, Dict, Iterable, Iterator, List, NamedTuple, Optional, Protocol, Tuple, Type, TypeVar,
                    Union)

from . import _saphyr_parser
from ._saphyr_parser import Mapping, Scalar, Sequence

__all__ = ["Deviation", "Event", "File", "Finding", "Findings", "Kind", "Mapping", "Marker", "Node", "NotUtf8",
           "Piece", "Reader", "Refused", "Scalar", "Sequence", "Severity", "Style", "Text", "TooLarge", "check",
           "check_standard", "events", "load", "load_all", "merged"]
__version__: str = _saphyr_parser.VERSION

COLUMNS = 200  # of a fault's line, at most
RULES = ("alias-in-itself", "duplicate-key", "empty-document", "max-depth", "max-nodes", "wide-alias")
MERGE_TAGS = (None, "tag:yaml.org,2002:merge")

T = TypeVar("T", covariant=True)


class File(Protocol):
    """What is read in pieces: each call returns the next part of the text, and an empty one at its end."""

    def read(self, size: int, /) -> "Piece": ...


class _Pieces:
    """An iterable of pieces, as a file."""

    def __init__(self, pieces: "Iterable[Piece]") -> None:
        self._left = filter(len, pieces)  # an empty one would end the text

    def read(self, size: int) -> "Piece":
        return next(self._left, b"")


class Reader(Iterator[T], Protocol[T]):
    """What `events` and `load_all` return."""

    def close(self) -> None:
        """Ends the reading, and frees the parser."""


Node = Union[Scalar, Sequence, Mapping]
Piece = Union[str, bytes, bytearray, memoryview]
Text = Union[Piece, "os.PathLike[str]", File, Iterable[Piece]]


class Kind(enum.IntEnum):
    """What happens in a text."""
    STREAM_START = 1
    STREAM_END = 2
    DOCUMENT_START = 3
    DOCUMENT_END = 4
    ALIAS = 5
    SCALAR = 6
    SEQUENCE_START = 7
    SEQUENCE_END = 8
    MAPPING_START = 9
    MAPPING_END = 10


class Style(enum.IntEnum):
    """How a scalar is written."""
    PLAIN = 0
    SINGLE_QUOTED = 1
    DOUBLE_QUOTED = 2
    LITERAL = 3
    FOLDED = 4


class Marker(NamedTuple):
    """A place: how many characters of the text are before it, its line from 1, and how many of the line are before."""
    index: int
    line: int
    column: int

    def __str__(self) -> str:
        """The line and the column, both from 1, as an editor counts them."""
        return f"{self.line}:{self.column + 1}"


class Event(NamedTuple):
    """An event. What doesn't belong to its kind is None, False or 0."""
    kind: Kind
    start: Marker
    end: Marker
    value: Optional[str] = None  # of a scalar
    style: Optional[Style] = None  # of a scalar
    tag: Optional[str] = None  # of a scalar or a collection
    anchor: int = 0  # the number of a node's anchor. Of an alias, that of the anchor that it names
    is_explicit: bool = False  # whether a document begins with `---`


class Deviation(NamedTuple):
    """Where a text that is read departs from YAML 1.2.2: the name of the rule that it breaks, and what that asks."""
    place: Marker
    rule: str
    sentence: str


class Severity(enum.IntEnum):
    """How bad a finding is."""
    ERROR = 1
    WARNING = 2
    NOTE = 3


class Finding(NamedTuple):
    """What is found in a text, or a note on that. Only a warning, and the note on those left out, has a width."""
    severity: Severity
    rule: str  # its name. `syntax` of a text that is refused, and `encoding` of bytes that are not UTF-8
    message: str
    start: Marker
    end: Marker
    notes: Tuple["Finding", ...] = ()

    def __str__(self) -> str:
        """A line as `check_yaml` prints it, without the file's name."""
        return f"{self.start}: {self.severity.name.lower()}: {self.message}"


class Findings(List[Finding]):
    """What is found in a text, by places. `passed` tells whether that has no error and, if strict, no warning."""
    passed: bool


class _Fault(ValueError):
    """`reason` says why, and `start` where. `name` is the text's, `opened` where what is open there begins: a scalar in
    quotes, which is `start` itself, or else the innermost collection by the events so far; and `shown` the line with a
    caret below the place. Each of these three may be None."""

    def __init__(self, reason: str, start: Marker, name: Optional[str] = None, opened: Optional[Marker] = None,
                 shown: Optional[str] = None) -> None:
        super().__init__(reason, start, name, opened, shown)
        self.reason, self.start, self.name, self.opened, self.shown = reason, start, name, opened, shown

    def __str__(self) -> str:
        lines = [f"{_place(self.name, self.start)}: {self.reason}"]
        if self.shown:
            lines.append(self.shown)
        if self.opened and self.opened != self.start:
            lines.append(f"{_place(self.name, self.opened)}: the collection that is open there begins here")
        return "\n".join(lines)


class Refused(_Fault):
    """The text is refused."""


class TooLarge(_Fault):
    """The text has more of something than a limit allows."""


class NotUtf8(ValueError):
    """The bytes are not UTF-8. `is_utf16` tells whether they begin as UTF-16 does. `name` is the text's, or None."""

    def __init__(self, is_utf16: bool, name: Optional[str] = None) -> None:
        super().__init__(is_utf16, name)
        self.is_utf16, self.name = is_utf16, name

    def __str__(self) -> str:
        said = "the text is UTF-16, and not UTF-8" if self.is_utf16 else "the text is not UTF-8"
        return f"{self.name}: {said}" if self.name else said


def _place(name: Optional[str], place: Marker) -> str:
    return f"{name}:{place}" if name else str(place)


def _width(character: str) -> int:
    """How many columns it takes."""
    if unicodedata.combining(character):
        return 0
    return 2 if unicodedata.east_asian_width(character) in "WF" else 1


def _fitting(characters: Iterable[str], columns: int) -> Tuple[str, int]:
    """As many of the characters as fit, without what could move the cursor, and how many columns they take."""
    taken, used = "", 0
    for it in characters:
        it = it if it.isprintable() else " " if it == "\t" else "\N{REPLACEMENT CHARACTER}"
        if used + _width(it) > columns:
            break
        taken, used = taken + it, used + _width(it)
    return taken, used


def _shown(column: int, before: str, behind: str) -> Optional[str]:
    """A line with a caret, of what stands before and behind a place of this column; or None if that is nothing. Behind
    a last line without an end the place is in a line of its own."""
    if len(before) > column or not (before + behind).strip():
        return None
    indent, dots = "    ", "..."
    most = (COLUMNS - len(indent + 2 * dots)) // 2
    left, used = _fitting(reversed(before), most)
    right, _ = _fitting(behind, most)
    head = indent + (dots if len(left) < column else "")
    return f"{head}{left[::-1]}{right}{dots if len(right) < len(behind) else ''}\n{' ' * (len(head) + used)}^"


def _fault(is_too_large: bool, reason: str, start: Marker, name: Optional[str], opened: Optional[Marker],
           line: Optional[Tuple[str, str]]) -> _Fault:
    """What the extension raises. It tells the line as the parts before and behind the place."""
    fault: Type[_Fault] = TooLarge if is_too_large else Refused
    if line and line[1][:1] in ("'", '"') and "quoted scalar" in reason:
        opened = start  # of a fault inside quotes the library tells where these begin
    return fault(reason, start, name, opened, line and _shown(start.column, *line))


_saphyr_parser.use(Kind, Style, Marker, Event, _fault, NotUtf8)


def _has_pieces(text: Text) -> bool:
    """Whether it is an iterable of pieces, and neither a text nor a file."""
    if isinstance(text, str) or hasattr(text, "read") or not hasattr(text, "__iter__"):
        return False
    try:
        memoryview(text)  # type: ignore[arg-type]
    except TypeError:
        return True
    return False


def _read(text: Text, name: Optional[str], *how: Any) -> Any:
    """A reader of the text. A file that is opened here is closed by the reader."""
    close: Optional[Callable[[], None]] = None
    if isinstance(text, os.PathLike):
        name = name or os.fspath(text)
        text = open(text, "rb", buffering=0)
        close = text.close
    elif _has_pieces(text):
        text = _Pieces(text)
    elif name is None:
        name = getattr(text, "name", None)
    return _saphyr_parser.read(text, name if isinstance(name, str) else None, close, *how)


def events(text: Text, *, keep_tags: bool = False, name: Optional[str] = None, most_characters: Optional[int] = None,
           most_waiting: Optional[int] = None) -> Reader[Event]:
    """Yields the events of a text, and raises `Refused`, `NotUtf8` or `TooLarge` where they end by a fault.

    With `keep_tags` the prefixes of tags that a document declares hold for later documents too; in YAML they don't.
    `name` is what faults call the text; of a file it is the file's. `most_characters` is how many the text may have,
    and `most_waiting` how many bytes of a file or of pieces may wait for an event.
    """
    return _read(text, name, False, keep_tags, None, None, most_characters, most_waiting)


def load_all(text: Text, *, keep_tags: bool = False, name: Optional[str] = None, nodes: Optional[int] = None,
             depth: Optional[int] = None, most_characters: Optional[int] = None,
             most_waiting: Optional[int] = None) -> Reader[Node]:
    """Yields the root of each document: a `Scalar`, a `Sequence` or a `Mapping`.

    Of a file or of pieces each comes once its document's end was read: a pipe's come one by one, in the memory of one.

    An alias is the node that it names, the same object. So a collection may be an entry of itself. A document may have
    `nodes` nodes, of which an alias is one, and `depth` collections open at once. The rest is as for `events`.
    """
    return _read(text, name, True, keep_tags, nodes, depth, most_characters, most_waiting)


def load(text: Text, **options: Any) -> Optional[Node]:
    """The root of a text's one document, or None if there is no document. Raises ValueError if there are more.

    The options are those of `load_all`.
    """
    roots = list(load_all(text, **options))
    if len(roots) > 1:
        raise ValueError(f"the text has {len(roots)} documents: load_all gives them")
    return roots[0] if roots else None


def _whole(text: Text, name: Optional[str]) -> Tuple[Union[str, bytes, bytearray, memoryview], Optional[str]]:
    """All of a text, and what it is called."""
    if isinstance(text, os.PathLike):
        with open(text, "rb") as file:
            return file.read(), name or os.fspath(text)
    if hasattr(text, "read"):
        return text.read(-1), name or getattr(text, "name", None)
    if _has_pieces(text):
        return b"".join(it.encode() if isinstance(it, str) else it for it in text), name
    return text, name


def check_standard(text: Text, *, name: Optional[str] = None) -> Optional[Deviation]:
    """None if the text is YAML 1.2.2, or where it departs from it. Raises `Refused` or `NotUtf8` if it isn't read."""
    text, name = _whole(text, name)
    answer = _saphyr_parser.standard(text)
    if isinstance(answer, int):
        for _ in events(text, name=name):
            pass
        raise MemoryError("there is no memory to tell whether the text is YAML 1.2.2")
    return answer and Deviation(*answer)


def _finding(severity: int, rule: str, message: str, start: Marker, end: Marker, notes: List[Any]) -> Finding:
    return Finding(Severity(severity), rule, message, start, end, tuple(_finding(*it) for it in notes))


def _rule(name: str) -> int:
    """The bit of the rule with this name."""
    if name not in RULES:
        raise ValueError(f"there is no rule {name!r}: the rules are {', '.join(RULES)}")
    return 1 << RULES.index(name)


def check(text: Text, *, standard: bool = False, strict: bool = False, disable: Iterable[str] = (),
          max_depth: Optional[int] = None, max_findings: Optional[int] = None,
          max_nodes: Optional[int] = None) -> Findings:
    """What the program `check_yaml` finds in a text: errors, warnings and, if some are left out, a note on how many.

    They are in the order of their places.

    The options have the names of the program's: `standard` also finds where the text departs from YAML 1.2.2, `strict`
    lets a warning count as an error in `passed`, and `disable` leaves out the warnings of some rules. `max_findings` is
    how many warnings are found at most, and with `standard` how many places. A limit of 0 counts as 1,
    other than there.
    """
    disabled = sum(_rule(name) for name in set(disable))
    limits = (0 if most is None else max(most, 1) for most in (max_depth, max_findings, max_nodes))
    passed, found = _saphyr_parser.check(_whole(text, None)[0], standard, strict, disabled, *limits)
    findings = Findings(_finding(*it) for it in found)
    findings.passed = passed
    return findings


def _is_merge(key: Node) -> bool:
    return isinstance(key, Scalar) and key == "<<" and key.style is Style.PLAIN and key.tag in MERGE_TAGS


def merged(mapping: Mapping) -> Dict[Node, Node]:
    """The items of a mapping as a new dict, with those of the mappings that its keys `<<` name, as in YAML 1.1.

    A mapping's own items count before those of what it names, and among these the first. YAML 1.2 has no such keys.
    """
    items: Dict[Node, Node] = {}
    seen, waiting = set(), [mapping]
    while waiting:
        it = waiting.pop()
        if it in seen:
            continue
        seen.add(it)
        own: Dict[Node, Node] = {}
        named: List[Mapping] = []
        for key, value in it.pairs:
            if _is_merge(key):
                named += value if isinstance(value, Sequence) else [value]
            else:
                own[key] = value
        for one in named:
            if not isinstance(one, Mapping):
                raise ValueError(f"{one.start}: a key `<<` names what is no mapping")
        for key, value in own.items():
            items.setdefault(key, value)
        waiting += reversed(named)
    return items
