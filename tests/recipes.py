#!/usr/bin/env python3
"""Tries the recipes of docs/CI.md as they are written: each passes a right file, and refuses one with a key twice.

    tests/recipes.py [PROGRAM]

PROGRAM is `check_yaml`, as `rt run` in crates/check_yaml left it. The lines of the recipes for GitHub and GitLab that
call it are run by bash; what installs it is not. Where there is no make, pre-commit or Vim, it says so.
"""
import os
import pathlib
import re
import shutil
import subprocess
import sys
import tempfile

ROOT = pathlib.Path(__file__).resolve().parent.parent
PAGE = ROOT / "docs/CI.md"
PROGRAM = ROOT / "crates/check_yaml/out/check_yaml"
RIGHT, TWICE = "a: 1\nb: 2\n", "a: 1\nb: 2\na: 3\n"
TOLD = "one.yaml:3:1: warning: duplicate key; first at 1:1"
# Prints each place that Vim finds, and leaves with the status 1 if there is one.
PLACES = "for q in getqflist() | call append('$', q.lnum . ':' . q.col . ':' . q.text) | endfor"
FILES = {"make": "Makefile", "pre-commit": ".pre-commit-config.yaml", "GitHub Actions": ".github/workflows/yaml.yml",
         "GitLab": ".gitlab-ci.yml", "Editors": "vimrc"}


def recipes():
    """The text below each heading of the page."""
    parts = re.split(r"^## (.*)$", PAGE.read_text(encoding="utf-8"), flags=re.MULTILINE)[1:]
    return {name: re.search(r"```\w+\n(.*?)```", text, re.DOTALL)[1] for name, text in zip(parts[::2], parts[1::2])}


def command(name, recipe):
    """What runs a recipe, or None where what it needs isn't there."""
    if name == "Editors":
        leave = ["-c", "edit one.yaml", "-c", "silent make", "-c", "%d", "-c", PLACES, "-c", "w! places", "-c", "qa!"]
        return shutil.which("vim") and ["vim", "-Nes", "-c", "filetype on", "-S", "vimrc", *leave]
    if name == "make":
        return shutil.which("make") and ["make", "check-yaml"]
    if name == "pre-commit":
        return shutil.which("pre-commit") and ["pre-commit", "run", "--all-files"]
    return ["bash", "-ec", "\n".join(re.findall(r"- (?:run: )?(check_yaml.*)", recipe))]


def tried(name, call, folder, env):
    """The status of a recipe, and what it tells."""
    ran = subprocess.run(call, cwd=folder, env=env, capture_output=True, text=True, stdin=subprocess.DEVNULL)
    if name == "Editors":
        places = pathlib.Path(folder, "places").read_text(encoding="utf-8")
        found = re.search(r"^(\d+:\d+):(.*)$", places, re.MULTILINE)
        return (1, f"one.yaml:{found[1]}: warning: {found[2]}") if found else (0, places)
    return ran.returncode, ran.stdout + ran.stderr


def failed(name, recipe, folder, env):
    """What is wrong with a recipe."""
    call = command(name, recipe)
    if not call:
        print(f"recipes: {name} is not tried: it is not installed")
        return False
    wrong = False
    for text, refused in ((RIGHT, False), (TWICE, True)):
        pathlib.Path(folder, "one.yaml").write_text(text, encoding="utf-8")
        subprocess.run(["git", "add", "-A"], cwd=folder, check=True)
        status, told = tried(name, call, folder, env)
        if bool(status) != refused or (TOLD in told) != refused:
            print(f"docs/CI.md, {name}: the status {status} of {text!r}: {told}")
            wrong = True
    return wrong


def main(words):
    program = pathlib.Path(words[0] if words else PROGRAM).resolve()
    with tempfile.TemporaryDirectory() as top:
        folder, bin_folder = pathlib.Path(top, "work"), pathlib.Path(top, "bin")
        bin_folder.mkdir()
        (bin_folder / "check_yaml").symlink_to(program)
        subprocess.run(["git", "init", "-q", folder], check=True)
        found = recipes()
        for name, file in FILES.items():
            (folder / file).parent.mkdir(parents=True, exist_ok=True)
            (folder / file).write_text(found[name], encoding="utf-8")
        env = {**os.environ, "PATH": f"{bin_folder}:{os.environ['PATH']}", "PRE_COMMIT_HOME": f"{top}/kept"}
        wrong = [name for name in FILES if failed(name, found[name], folder, env)]
    if set(found) != set(FILES) or wrong:
        return f"recipes: {len(wrong)} failed"
    print(f"recipes: {len(FILES)} tried")
    return 0


if __name__ == "__main__":
    sys.exit(main(sys.argv[1:]))
