"""The benchmark's files: `KINDS` has for each name a function that makes a text of about so many bytes."""
import json
import random
import re

WORDS = "time year people way day man thing woman life child world school state family student group".split()


def repeated(piece, size):
    return piece * max(1, size // len(piece.encode()))


def counted(line, size):
    """Lines with numbers in them."""
    lines, length = [], 0
    while length < size:
        lines.append(line(len(lines)))
        length += len(lines[-1])
    return "".join(lines)


def value(numbers, depth):
    """A value of JSON, with collections in one another up to that depth."""
    kind = numbers.random()
    if depth == 0 or kind < 0.5:
        words = " ".join(numbers.choices(WORDS, k=numbers.randint(1, 8)))
        return numbers.choice([numbers.randint(0, 10**9), numbers.random(), True, None, words, f"“{words}”\n\\"])
    items = [value(numbers, depth - 1) for _ in range(numbers.randint(0, 7))]
    return items if kind < 0.75 else {f"{numbers.choice(WORDS)}{at}": it for at, it in enumerate(items)}


def values(size):
    numbers, made, length = random.Random(2026), [], 0
    while length < size:
        made.append({"id": len(made), "value": value(numbers, 5)})
        length += len(json.dumps(made[-1], ensure_ascii=False).encode())
    return made


def block(value, column):
    """A value in block style, to stand behind its key's colon or its entry's dash."""
    front = "\n" + " " * column
    if isinstance(value, dict) and value:
        return "".join(f"{front}{key}:{block(it, column + 2)}" for key, it in value.items())
    if isinstance(value, list) and value:
        return "".join(f"{front}-{block(it, column + 2)}" for it in value)
    if isinstance(value, str) and "\n" in value:
        return " |" + "".join(f"{front}  {line}" for line in value.split("\n"))
    return " " + (value if isinstance(value, str) else json.dumps(value))


def json_text(size):
    return json.dumps(values(size), ensure_ascii=False)


def block_text(size):
    return re.sub(r"^\n", "", block(values(size), 0)) + "\n"


KINDS = {
    # Six files for the comparison with libyaml.
    "data.json": json_text,
    "data.yaml": block_text,
    "many_small": lambda size: counted(lambda at: f"- item {at}\n", size),
    "block_scalar": lambda size: "k: |\n" + repeated("  a line of text in a literal block scalar\n", size),
    "long_string": lambda size: '["' + "x" * size + '"]',
    "deep": lambda size: repeated("- ", min(size, 20000)) + "a\n",
    # Kinds on which the Rust crate was faster.
    "escapes": lambda size: repeated('- "' + "\\n" * 40 + '"\n', size),
    "quotes": lambda size: repeated("- '" + "''" * 40 + "'\n", size),
    "colons": lambda size: repeated("- a" + ":" * 80 + "b\n", size),
    "verbatim_tags": lambda size: repeated("- !<tag:example.com,2026:kinds/of/things/that/are/named> x\n", size),
    "space_lines": lambda size: "k: |\n" + repeated(" " * 60 + "\n", size) + " " * 60 + "a\n",
    "folded_lines": lambda size: "k: >\n" + repeated("  a folded line\n    with one behind it\n", size),
    "long_anchors": lambda size: counted(lambda at: f"- &{'anchor' * 10}{at} x\n- *{'anchor' * 10}{at}\n", size),
    # Tokens that are held until the collection closes.
    "flow_numbers": lambda size: "[" + repeated("1,", size) + "1]",
    # Handles of tags.
    "tag_lines": lambda size: counted(lambda at: f"%TAG !h{at}! tag:example.com,2026:{at}/\n", size) + "--- a\n",
}
