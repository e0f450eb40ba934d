#!/usr/bin/env python3
"""Follows the recipe of docs/COMING_FROM.md for a repository of one's own in Rattle, in a new folder.

    tests/own_repository.py

Runs the page's commands in their order, writes the program that the page and docs/READING.md have, and runs it by
`rt try`, which proves nothing. `rt run`, which proves the parser, is left out.
"""
import os
import re
import subprocess
import sys
import tempfile

from refused_memory import ROOT
from release_pages import BLOCK, files_below, read

PAGE = f"{ROOT}/docs/COMING_FROM.md"
HEADING = "## In a repository of your own, in Rattle\n"
USED = "saphyr_parser"


def chapter():
    """The recipe's chapter."""
    return read(PAGE).split(HEADING)[1].split("\n## ")[0]


def commands(text):
    """The blocks of commands of a text."""
    blocks = re.findall(r"(?:^    .*\n)+", BLOCK.sub("", text), re.M)
    return [re.sub(r"\bPATH\b", ROOT, re.sub(r"^    ", "", it, flags=re.M)) for it in blocks]


def program_of(text):
    """The recipe's program: its `main`, and the function `depth` of READING.md."""
    (main,) = (code for language, code in BLOCK.findall(text) if language == "rust")
    (depth,) = (code for _, code in BLOCK.findall(read(f"{ROOT}/docs/READING.md")) if "pub fn depth" in code)
    return f"{main}\n{depth}"


def crates_below(name):
    """The crate and all of the repository that it depends on."""
    with open(f"{ROOT}/crates.txt", encoding="utf-8") as it:
        lines = [line.split("#")[0].partition(":") for line in it]
    uses = {before.split()[0]: behind.split() for before, _, behind in lines if before.strip()}
    found, waiting = set(), [name]
    while waiting:
        if (crate := waiting.pop()) in uses and crate not in found:
            found.add(crate)
            waiting += uses[crate]
    return found


def run(script, folder):
    """Runs commands by a shell, which ends at the first that fails."""
    ran = subprocess.run(["bash", "-euo", "pipefail", "-c", script], cwd=folder, capture_output=True, text=True)
    if ran.returncode:
        sys.exit(f"{script}\nends with status {ran.returncode}:\n{ran.stdout}{ran.stderr}")
    return ran.stdout


def main():
    if sys.argv[1:]:
        print(__doc__)
        return 0 if sys.argv[1:] == ["--help"] else 2
    text = chapter()
    copying, making, running = commands(text)
    (tried,) = re.findall(r"^(.*rt try)\b.*# (.*)$", running, re.M)
    with tempfile.TemporaryDirectory() as folder:
        run(copying, folder)
        copied = set(os.listdir(f"{folder}/crates"))
        if copied != crates_below(USED):
            sys.exit(f"the recipe copies {sorted(copied)}, and not {sorted(crates_below(USED))}")
        run(making, folder)
        if (left := files_below(f"{folder}/crates/app")) != ["src/main.rt"]:
            sys.exit(f"the recipe leaves these files of the template: {' '.join(left)}")
        with open(f"{folder}/crates/app/src/main.rt", "w", encoding="utf-8") as it:
            it.write(program_of(text))
        command, wanted = tried
        printed = run(f"cd crates/app\n{command}", folder)
        if printed != f"{wanted}\n":
            sys.exit(f"{command} prints {printed!r}, and not {wanted!r}")
    print(f"own repository: {len(copied)} crates copied, and the program prints {wanted}")
    return 0


if __name__ == "__main__":
    sys.exit(main())
