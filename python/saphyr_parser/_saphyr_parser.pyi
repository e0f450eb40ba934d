from typing import Any, Callable, Dict, List, Optional, Tuple, Type, Union

from . import Event, Kind, Marker, Node, NotUtf8, Style

VERSION: str

class _Node:
    start: Marker
    end: Marker
    tag: Optional[str]
    anchor: int

class Scalar(str, _Node):
    style: Style

class Sequence(List[Node], _Node):
    def __hash__(self) -> int: ...  # type: ignore[override]

class Mapping(Dict[Node, Node], _Node):
    pairs: List[Tuple[Node, Node]]
    def __hash__(self) -> int: ...  # type: ignore[override]

def check(text: Union[str, bytes, bytearray, memoryview], standard: bool, strict: bool, disabled: int, max_depth: int,
          max_findings: int, max_nodes: int, /) -> Tuple[bool, List[Tuple[int, str, str, Marker, Marker, List[Any]]]]: ...
def read(text: Any, name: Optional[str], close: Optional[Callable[[], None]], trees: bool, keep_tags: bool,
         nodes: Optional[int], depth: Optional[int], most_characters: Optional[int],
         most_waiting: Optional[int], /) -> Any: ...
def standard(text: Union[str, bytes, bytearray, memoryview], /) -> Union[None, int, Tuple[Marker, str, str]]: ...
def use(kind: Type[Kind], style: Type[Style], marker: Type[Marker], event: Type[Event],
        fault: Callable[..., ValueError], not_utf8: Type[NotUtf8], /) -> None: ...
