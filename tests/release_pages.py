"""The pages of a release: that their links lead somewhere, that they name nothing that isn't there, and their examples.

tests/release.py runs this. A page is a file `.md` of the release, or one for `man`.
"""
import os
import re
import shutil
import subprocess

# What only the repository has: its folders, its files, and the commands of the kit.
ELSEWHERE = re.compile(r"\brt (?:\w|-)|`rt`|\brattle\b(?!\.)|\.ci/|release\.sh|\bcrates/|\btests/|\bbench/|\bthe kit\b"
                       r"|\.antt\b|\w\.rt\b|crates\.txt|not in a release|until here|@[A-Z]+@")
# A path in a page, as code: in a line of commands, or between backticks.
PATH = re.compile(r"(?<![\w./])(RELEASE/[\w./-]+)|`((?:bin|docs|include|lib|python|rust|share)/[\w./-]+)`")
PAGE = re.compile(r"\b[A-Z_]{3,}\.md\b")
BLOCK = re.compile(r"^```(\w+)\n(.*?)^```$", re.M | re.S)


def read(path):
    with open(path, encoding="utf-8") as it:
        return it.read()


def files_below(folder):
    return sorted(os.path.relpath(f"{at}/{it}", folder) for at, _, files in os.walk(folder) for it in files)


def blocks(page, language):
    """The blocks of code in a language on a page."""
    return [text for name, text in BLOCK.findall(read(page)) if name == language]


def block(page, language):
    """The first of them."""
    return blocks(page, language)[0]


def anchors(page):
    """The names by which links lead to a page's headings."""
    headings = re.findall(r"^#+ (.*)$", BLOCK.sub("", read(page)), re.M)
    words = (re.sub(r"\[([^\]]*)\]\([^)]*\)", r"\1", it).lower() for it in headings)
    return {re.sub(r"[^\w\- ]", "", it).replace(" ", "-") for it in words}


def wrong_links(release):
    """Each link of a page that leads to no file of the release, or to no heading of it."""
    for page in files_below(release):
        for target in re.findall(r"\]\(([^)\s]+)\)", read(f"{release}/{page}")) if page.endswith(".md") else ():
            file, _, anchor = target.partition("#")
            there = os.path.join(release, os.path.dirname(page), file) if file else f"{release}/{page}"
            if not target.startswith("http") and (
                not os.path.exists(there) or anchor and anchor not in anchors(there)
            ):
                yield f"{page} has a link to {target}, which the release hasn't"


def is_there(release, page, path):
    """Whether a path of a page leads to a file or folder: from the release, from its pages, or from the page."""
    path = path.removeprefix("RELEASE/").rstrip("/.")
    folders = (release, f"{release}/share/saphyr_parser", f"{release}/{os.path.dirname(page)}")
    return any(os.path.exists(f"{it}/{path}") for it in folders)


def wrong_words(release):
    """Each page that names a command, a path or a page that the release hasn't."""
    pages = {os.path.basename(it) for it in files_below(release)}
    for page in files_below(release):
        if page.endswith((".md", ".1", ".3", ".h", ".py", ".c")):
            text = read(f"{release}/{page}")
            for found in ELSEWHERE.finditer(text):
                line = text.count("\n", 0, found.start()) + 1
                yield f"{page}:{line} has {found[0]!r}, which is not for its reader"
            for path in {one or other for one, other in PATH.findall(text)}:
                if not is_there(release, page, path):
                    yield f"{page} names {path}, which the release hasn't"
            yield from (f"{page} names {it}, which the release hasn't" for it in set(PAGE.findall(text)) - pages)


def wrong_manuals(release, calls):
    """What is wrong with the pages for `man`: that a call has none, what groff warns of, and examples."""
    for call in calls:
        if not os.path.isfile(f"{release}/share/man/man3/{call}.3"):
            yield f"there is no page for man {call}"
    # Other programs of that name have other options.
    version = shutil.which("man") and subprocess.run(["man", "--version"], capture_output=True, text=True).stdout
    if version and version.startswith("man "):
        for page in files_below(f"{release}/share/man"):
            words = ["man", "--warnings", "-E", "UTF-8", "-l", "-Tutf8", f"{release}/share/man/{page}"]
            ran = subprocess.run(words, cwd=f"{release}/share/man", capture_output=True, text=True)
            if ran.returncode or ran.stderr or len(ran.stdout) < 500:
                yield f"man {page} says: {ran.stderr or ran.stdout}"
    for name in ("check_yaml", "dump_events"):
        shown = re.search(r"^\.EX\n\$ (.*)\n((?:.*\n)*?)\.EE", read(f"{release}/share/man/man1/{name}.1"), re.M)
        command, printed = (it.replace("\\e", "\\").replace("\\-", "-") for it in shown.groups())
        path = f"{release}/bin:{os.environ['PATH']}"
        ran = subprocess.run(["sh", "-c", command], capture_output=True, text=True, env={**os.environ, "PATH": path})
        if ran.stdout != printed:
            yield f"the example of man {name} prints {ran.stdout!r}"
