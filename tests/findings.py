"""Texts with mistakes and without, and what `check_yaml --format json` finds in them: the faces are to find the same.

A text and the options of a check go to a face's program behind a line with seven numbers: whether `standard` and
`strict`, the bits of the rules that are off, the limits of depth, findings and nodes, where 0 is none, and how many
bytes the text has. The answer is whether the text passes, and then a line for each finding and each note: the places
from and to, the number of the severity, the rule, and the message.
"""
import json
import pathlib
import subprocess
from typing import NamedTuple, Tuple

MISTAKES = pathlib.Path(__file__).resolve().parent / "mistakes"
SEVERITIES = {"error": 1, "warning": 2, "note": 3}
RULES = ("alias-in-itself", "duplicate-key", "empty-document", "max-depth", "max-nodes", "wide-alias")
MANY = str(2**63)
# Other line ends, other scripts, texts that pass or are not YAML 1.2.2, aliases, and bytes that are not UTF-8.
OTHERS = (b"", b"a: [b, {c: d}]\n", b"a: 1\r\nb: [2\r\nc: 3\r\n", b"a: 1\ra: 2\r- c\r", b"\xef\xbb\xbfa: 1\na: 2\n",
          "ключ: 'значение\nдругой: [1\n".encode(), "鍵: 値: 值\n".encode(), "🙂: 1\n🙂: 2\n".encode(), b"a:\tb\n",
          b"a: [x\n]\nb: {y\n}\n", b"- a\n- b\x07\n", b"&a [*a]\n", b"--- &a [x, x]\n--- [[[[y]]]]\n---\n", b"[" * 300,
          b"a: \xff\n", b"\xffa", b"a: b\n\xc3", b"\xff\xfea\0", b"\xfe\xff\0a", b"\xff\xfe\0\0", b"a\0b",
          b"'" + b"x" * 3000)


class Options(NamedTuple):
    """How a text is checked. A limit of 0 is none."""
    standard: bool = False
    strict: bool = False
    disable: Tuple[str, ...] = ()
    max_depth: int = 0
    max_findings: int = 0
    max_nodes: int = 0

    def words(self):
        """As words of a call of the program."""
        words = ["--standard"] * self.standard + ["--strict"] * self.strict
        for rule in self.disable:
            words += ["--disable", rule]
        for name in ("max_depth", "max_findings", "max_nodes"):
            words += [f"--{name.replace('_', '-')}", str(getattr(self, name) or MANY)]
        return words

    def framed(self, text):
        """With a text, for a program of a face."""
        off = sum(1 << RULES.index(rule) for rule in self.disable)
        numbers = (self.standard, self.strict, off, self.max_depth, self.max_findings, self.max_nodes, len(text))
        return b"%d %d %d %d %d %d %d\n" % numbers + text


OPTIONS = (Options(), Options(standard=True, strict=True), Options(disable=("duplicate-key", "empty-document")),
           Options(max_depth=2, max_findings=1, max_nodes=5))


def texts():
    """All texts."""
    return [file.read_bytes() for file in sorted(MISTAKES.rglob("*.yaml"))] + list(OTHERS)


def found_by(program, options, text):
    """What the program finds, as a face's program is to print it."""
    ran = subprocess.run([program, "--format", "json", *options.words()], input=text, capture_output=True,
                         close_fds=False)
    lines = ["passes" if ran.returncode == 0 else "fails"]
    for it in map(json.loads, ran.stdout.decode().splitlines()):
        end, severity = it["end"], SEVERITIES[it["severity"]]
        place = f"{it['line']}:{it['column']}-{end['line']}:{end['column']}"
        lines.append(f"{place} {severity} {it['rule']} {it['message']}")
    return "".join(f"{line}\n" for line in lines).encode()
