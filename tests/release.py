#!/usr/bin/env python3
"""Makes a release by release.sh, and builds against its archive, with no path to the kit or to this repository.

    tests/release.py

The examples of release/examples print the events of a small text: in C99 and C++17 with the archive, in C through
`pkg-config` and through CMake with the shared library, and in Python; and the crate's example in a cargo project with a
`[patch]`. Their lines are to be those of `dump_events`. The programs of the release's README, what README and FACES.md
show in C, Rust and Python, and the commands of FACES.md are built and run. The package for Python is installed in an
empty environment of each CPython from 3.8 on that is found on the PATH or that pyenv has, and run there over all cases
(tests/release/python_module.py). What COMING_FROM.md says is tried in C beside libyaml, in Python beside PyYAML, and in
Rust (tests/release/coming_from.*). The commands of both READMEs are run as they are written, where `sudo`, `dpkg` and
`pip` install below a folder; lintian, if it is there, finds no error in the package for Debian. Each file has its sum.
The pages are read (release_pages.py). The shared library exports the header's calls alone. The version is the same
wherever it stands, and so is the address of the repository, if one is given. Where there is no compiler of C, the
script says so, and tests nothing; what else is missing it says, and tests the rest. Without that compiler, cargo,
Python's headers or a Python that can make an environment it fails, unless the variable SKIP_MISSING is set.
"""
import fnmatch
import glob
import hashlib
import json
import os
import re
import shutil
import subprocess
import sys
import tarfile
import tempfile

from faces import CRATE, libraries, without
from refused_memory import ROOT, program
from release_pages import BLOCK, block, blocks, files_below, read, wrong_links, wrong_manuals, wrong_words

try:
    import yaml
except ImportError:
    yaml = None

TEXT = b"name: &it !!str 'parser'\nports: [80, \"443\", *it]\n"
SCALARS = b"1:1 name\n1:7 parser\n2:1 ports\n2:9 80\n2:13 443\n"
FIRST = b"1:1 ports\n1:9 80\n1:13 443\n"  # what the programs of the README print
CALLS = ["add", "add_utf8", "anchored", "check", "check_standard", "clone", "count", "describe", "expanded", "follow",
         "free", "free_findings", "get", "item", "keep_tags", "key", "load", "load_next", "new", "new_pieces", "new_utf8",
         "next", "next_finding", "next_note", "peek", "root", "valid_up_to", "value", "version"]
# What the example `config` prints. The last item is an alias.
PATHS = b".name = parser (1:7)\n.ports[0] = 80 (2:9)\n.ports[1] = 443 (2:13)\n.ports[2] = parser (1:7)\n"
STRICT = ["-Wall", "-Wextra", "-pedantic", "-Werror"]
# Each call that takes NULL, at -O0 too, and `{}` in C++.
NULLS = """#include <saphyr_parser.h>
#ifdef __cplusplus
#define NOTHING {}
#else
#define NOTHING {0}
#endif
int main(void) {
    saphyr_parser parser = NOTHING;
    saphyr_event event = NOTHING;
    saphyr_deviation deviation = NOTHING;
    saphyr_findings findings = NOTHING;
    saphyr_finding finding = NOTHING;
    int32_t (*make)(const uint8_t *, size_t, bool, saphyr_parser *) = saphyr_new;
    int32_t status = saphyr_new(NULL, 0, false, &parser);
    int kinds = 0;
    while (status >= 0 && (status = saphyr_next(&parser, &event)) == SAPHYR_EVENT) {
        kinds = 10 * kinds + event.kind;
    }
    saphyr_free(NULL);
    status |= saphyr_new_utf8(NULL, 0, false, &parser) | saphyr_new_pieces(false, 0, 0, &parser);
    status |= saphyr_add(&parser, (const uint8_t *)"a", 1) | saphyr_add(&parser, NULL, 0);
    status |= make((const uint8_t *)"a", 1, false, &parser) | saphyr_check_standard(NULL, 0, &deviation);
    status |= saphyr_check(NULL, 0, NULL, &findings) | saphyr_next_finding(&findings, &finding);
    saphyr_free_findings(&findings);
    saphyr_free_findings(NULL);
    saphyr_free(&parser);
    return status || kinds != 12 || saphyr_valid_up_to(NULL, 0) || !*saphyr_status_text(SAPHYR_MORE);
}
"""
# What README and FACES.md show in C, of a text, and what that prints; and the same in Rust, where README has no `main`.
SHOWN = "server: {port: 80}\nk: [?]\n"
PARTS = """#include <saphyr_parser.h>
#include <stdio.h>
int main(void) {
    static const uint8_t text[] = %s;
    size_t len = sizeof text - 1, scalars = 0;
    saphyr_parser parser = {0};
    saphyr_new(text, len, false, &parser);
    %s
    printf("%%zu\\n", scalars);
    saphyr_free(&parser);
    return 0;
}
"""
PRINTED = (b"1: 80\n2:5: [126] ns-plain-first: a plain scalar begins with '?' only before a character of its own\n5\n")
COUNTING = """fn main() -> Result<(), saphyr_parser::ScanError> {
    let (text, mut scalars) = (%s, 0);
    %s
    println!("{scalars}");
    Ok(())
}
"""
FAULT = """import pathlib, saphyr_parser
try:
    saphyr_parser.load(pathlib.Path("config.yaml"))
except saphyr_parser.Refused as fault:
    print(fault)
"""
PATCHED = """[package]
name = "events"
edition = "2021"
[dependencies]
saphyr-parser = "0.3"
[patch.crates-io]
saphyr-parser = {{ path = "{}" }}
[workspace]
"""
LISTS = """cmake_minimum_required(VERSION 3.10)
project(events C)
add_executable(saphyr_parser events.c)
add_executable(static events.c)
"""
INDENTED = re.compile(r"(?:^    .*\n)+", re.M)  # commands of a page
# What a Python says of itself: its version, and whether the wheel is for it.
PROBE = """import platform, sys, sysconfig
print("%d.%d" % sys.version_info[:2], sys.version_info >= (3, 8) and platform.python_implementation() == "CPython"
      and not sysconfig.get_config_var("Py_GIL_DISABLED"))
"""
ADDRESS = "https://example.com/saphyr-parser"
# Where the address of the repository stands: a file of the release, and what is around it there.
ADDRESSES = {
    "lib/pkgconfig/saphyr_parser.pc": r"^URL: (.*)",
    "share/man/man1/check_yaml.1": r"^and (http.*)",
    "share/man/man1/dump_events.1": r"^and (http.*)",
    "share/man/man3/saphyr_parser.3": r"^and (http.*)",
    "share/saphyr_parser/rust/Cargo.toml": r'^repository = "(.*)"',
}
# Where the version stands: a file of the release, and what is around it there.
VERSIONS = {
    "README.md": r"^# saphyr_parser (.*)",
    "include/saphyr_parser.h": r'^#define SAPHYR_PARSER_VERSION "(.*)"',
    "lib/pkgconfig/saphyr_parser.pc": r"^Version: (.*)",
    "lib/cmake/saphyr_parser/saphyr_parser-config-version.cmake": r'^set\(PACKAGE_VERSION "(.*)"\)',
    "share/saphyr_parser/CHANGELOG.md": r"^## (.*)",
    "share/man/man1/check_yaml.1": r'^\.TH .*"saphyr_parser (.*)"',
    "share/man/man1/dump_events.1": r'^\.TH .*"saphyr_parser (.*)"',
    "share/man/man3/saphyr_parser.3": r'^\.TH .*"saphyr_parser (.*)"',
}
VERSION_OF_CRATE = r'^version = "(.*)"'
FAILED = []


def fail(said):
    """Says what is wrong."""
    FAILED.append(said)
    print(said)


def write(path, text):
    os.makedirs(os.path.dirname(path), exist_ok=True)
    with open(path, "w", encoding="utf-8") as it:
        it.write(text)


def found(pattern, path):
    """What the pattern has in parentheses, where it first stands in the file."""
    match = re.search(pattern, read(path), re.M)
    return match and match[1]


class Release:
    """A release, unpacked in a folder of its own, and what programs that use it are to print."""

    def __init__(self, folder):
        self.env = {**os.environ, "REPOSITORY": ADDRESS}
        self.folder, dump, _ = folder, program("dump_events"), program("check_yaml")
        self.call([f"{ROOT}/release.sh", "--out", f"{folder}/made"])
        (name,) = (it for it in os.listdir(f"{folder}/made") if os.path.isdir(f"{folder}/made/{it}"))
        with tarfile.open(f"{folder}/made/{name}.tar.gz") as it:
            it.extractall(folder)
        self.packages = [shutil.move(it, folder) for it in glob.glob(f"{folder}/made/*.deb")]
        self.archive, self.python = shutil.move(f"{folder}/made/{name}.tar.gz", folder), None
        shutil.rmtree(f"{folder}/made")
        self.at, self.share = f"{folder}/{name}", f"{folder}/{name}/share/saphyr_parser"
        self.rust, self.examples = f"{self.share}/rust", f"{self.share}/examples"
        self.readme, self.faces = f"{self.at}/README.md", f"{self.share}/docs/FACES.md"
        self.wheels = glob.glob(f"{self.share}/python/*.whl")
        os.makedirs(f"{self.share}/python", exist_ok=True)  # which pages name
        self.env, self.built = environment(folder), []
        self.wanted = self.run([dump])

    def run(self, words, text=TEXT, **variables):
        """What a program prints, or all about it if it fails."""
        ran = subprocess.run(words, input=text, capture_output=True, env={**self.env, **variables})
        return ran.stdout if ran.returncode == 0 else ran

    def call(self, words, folder=None):
        """Runs a command, which has to pass, and returns what it prints."""
        ran = subprocess.run(words, cwd=folder or self.folder, env=self.env, capture_output=True, text=True)
        if ran.returncode:
            sys.exit(f"{' '.join(words)} fails:\n{ran.stdout}{ran.stderr}")
        return ran.stdout

    def check(self, name, words, wanted=None, **variables):
        """Runs a program that was built. A shared library is found in the release alone."""
        self.built.append(name)
        printed = self.run(words, LD_LIBRARY_PATH=f"{self.at}/lib", **variables)
        if wanted is None and isinstance(printed, bytes):
            printed = re.sub(rb"^\d+:\d+-\d+:\d+ ", b"", printed, flags=re.M)
        wanted = self.wanted if wanted is None else wanted
        if printed != wanted:
            fail(f"{name} prints {printed!r}, and not {wanted!r}")


def environment(folder):
    """What is built finds no command `rt`, no library that is named, nothing that cargo has, and no other variable."""
    paths = os.environ["PATH"].split(os.pathsep)
    path = os.pathsep.join(it for it in paths if not os.path.exists(f"{it}/rt"))
    kept = {name: os.environ[name] for name in ("RUSTUP_HOME", "RUSTUP_TOOLCHAIN") if name in os.environ}
    if os.path.isdir(rustup := os.path.expanduser("~/.rustup")):
        kept.setdefault("RUSTUP_HOME", rustup)
    return {"PATH": path, "HOME": folder, "CARGO_HOME": f"{folder}/cargo", "LC_ALL": "C.UTF-8", **kept}


def check_c(release, tools):
    """The archive alone, in C and in C++."""
    write(f"{release.folder}/nulls.c", NULLS)
    write(f"{release.folder}/first.c", block(release.readme, "c"))
    programs = {"events": None, "pipe": SCALARS, "config": PATHS, "documents": b"1:1 8\n", "lookup name": b"parser\n",
                "nulls": b"", "first": FIRST}
    for compiler, standard in ((tools["cc"], "c99"), (tools["c++"], "c++17")):
        for call, wanted in programs.items() if compiler else ():
            name, *arguments = call.split()
            if name == "first" and standard != "c99":
                continue
            source = release.folder if name in ("nulls", "first") else release.examples
            made = f"{release.folder}/{name}_{standard}"
            words = ["-x", standard.rstrip("0123456789"), f"-std={standard}", *STRICT, f"-I{release.at}/include"]
            words += [f"{source}/{name}.c", "-x", "none", f"{release.at}/lib/libsaphyr_parser.a", "-o", made]
            release.call([compiler, *words])
            release.check(f"{name} in {standard}", [made, *arguments], wanted)


def check_fault(release):
    """The example `documents` of a file: a document, and behind it a fault with its place."""
    write(f"{release.folder}/fault.yaml", "a\n--- [b\n")
    ran = release.run([f"{release.folder}/documents_c99", f"{release.folder}/fault.yaml"])
    wanted = (b"1:1 1\n", b"3:1: while parsing a flow sequence, expected ',' or ']'\n")
    if isinstance(ran, bytes) or (ran.stdout, ran.stderr) != wanted:
        fail(f"documents of a text with a fault: {ran}")


def has_static(release, tools):
    """Whether the system has the C library as an archive."""
    write(f"{release.folder}/empty.c", "int main(void) { return 0; }\n")
    return subprocess.run([tools["cc"], "-static", "empty.c"], cwd=release.folder, capture_output=True).returncode == 0


def check_shown(release, tools):
    """What README and FACES.md show in C, and the commands of FACES.md."""
    shown = blocks(release.faces, "c") + blocks(f"{ROOT}/README.md", "c")
    text = json.dumps(SHOWN)
    write(f"{release.folder}/shown.c", PARTS % (text, "\n".join(f"{{\n{it}}}" for it in shown)))
    words = ["-std=c99", *STRICT, f"-I{release.at}/include", "shown.c", f"{release.at}/lib/libsaphyr_parser.a"]
    release.call([tools["cc"], *words, "-o", "shown"])
    release.check("what pages show in C", [f"{release.folder}/shown"], PRINTED)
    static = has_static(release, tools)
    lines = read(release.faces).split("\n## From C\n\n")[1].partition("\n\n")[0].replace("RELEASE", release.at)
    for number, line in enumerate(lines.replace("FILE", "shown").split("\n")):
        if "export" in line or "$(" in line and not tools["pkg-config"] or "-static" in line and not static:
            continue
        line = re.sub(r"^\s*cc", tools["cc"], line).partition("#")[0]
        release.call(["sh", "-c", f"PKG_CONFIG_PATH={release.at}/lib/pkgconfig; export PKG_CONFIG_PATH; {line} -o it"])
        release.check(f"command {number} of FACES.md", [f"{release.folder}/it"], PRINTED)


def check_pkg_config(release, tools):
    """The shared library, with the words that pkg-config says, and the archive by `-static`."""
    release.env["PKG_CONFIG_PATH"] = f"{release.at}/lib/pkgconfig"
    # An older one does as with `--shared`, and doesn't know the word.
    knows = "--shared" in release.call([tools["pkg-config"], "--help"])
    words = [tools["pkg-config"], *["--shared"] * knows, "--cflags", "--libs", "saphyr_parser >= 0.3.3"]
    said = release.call(words).split()
    for name, words in (("pkg-config", []), *[("pkg-config with -static", ["-static"])] * has_static(release, tools)):
        made = f"{release.folder}/{name.replace(' ', '_')}"
        words = [tools["cc"], "-std=c99", *STRICT, *words, f"{release.examples}/events.c", *said, "-o", made]
        release.call(words)
        release.check(name, [made])


def check_cmake(release, tools):
    """Both targets that the file for CMake has."""
    project = f"{release.folder}/cmake"
    find, link = block(release.faces, "cmake").splitlines()
    links = (link.replace("NAME", it).replace("::saphyr_parser", f"::{it}") for it in ("saphyr_parser", "static"))
    write(f"{project}/CMakeLists.txt", "\n".join([LISTS, find, *links]))
    shutil.copy(f"{release.examples}/events.c", project)
    release.call([tools["cmake"], "-S", project, "-B", f"{project}/out", f"-DCMAKE_PREFIX_PATH={release.at}"])
    release.call([tools["cmake"], "--build", f"{project}/out"])
    for kind in ("saphyr_parser", "static"):
        release.check(f"CMake's {kind}", [f"{project}/out/{kind}"])


def check_cargo(release, tools):
    """The README's program; a project with a `[patch]`; one whose crate stands elsewhere and finds the library by a
    relative path; and no library, where a check passes, and a build says what is missing."""
    alone = shutil.copytree(release.rust, f"{release.folder}/alone/crate/rust")
    check_manifest(release, tools)
    build = [tools["cargo"], "build", "--offline", "--target-dir", "out"]
    project = f"{release.folder}/first_project"
    named = block(release.readme, "toml").replace("RELEASE", release.at)
    write(f"{project}/Cargo.toml", f'[package]\nname = "first"\nedition = "2021"\n{named}[workspace]\n')
    write(f"{project}/src/main.rs", block(release.readme, "rust"))
    write(f"{project}/src/bin/trees.rs", block(release.faces, "rust"))
    shutil.copy(f"{ROOT}/tests/release/coming_from.rs", f"{project}/src/bin")
    write(f"{project}/src/bin/counts.rs", COUNTING % (json.dumps(SHOWN), block(f"{ROOT}/README.md", "rust")))
    release.call(build, project)
    for name, wanted in (("first", FIRST), ("trees", b'1:16: Some("80")\n'), ("counts", b"5\n"), ("coming_from", b"")):
        release.check(f"the pages' {name} in Rust", [f"{project}/out/debug/{name}"], wanted)
    for name, crate in (("cargo", release.rust), ("a relative path", alone)):
        project = f"{release.folder}/{name.replace(' ', '_')}_project"
        write(f"{project}/Cargo.toml", PATCHED.format(crate))
        os.makedirs(f"{project}/src")
        shutil.copy(f"{crate}/examples/dump_events.rs", f"{project}/src/main.rs")
        os.makedirs(f"{project}/src/bin")
        shutil.copy(f"{crate}/examples/config.rs", f"{project}/src/bin/config.rs")
        if crate == alone:
            release.call([tools["cargo"], "check", *build[2:]], project)
            ran = subprocess.run(build, cwd=project, env=release.env, capture_output=True, text=True)
            if ran.returncode == 0 or "set SAPHYR_PARSER_LIB to the folder `lib` of a release" not in ran.stderr:
                fail(f"cargo without the library: {ran.stderr}")
            release.env["SAPHYR_PARSER_LIB"] = os.path.relpath(f"{release.at}/lib", project)
        release.call(build, project)
        release.check(name, [f"{project}/out/debug/events"])
        release.check(f"the trees of {name}", [f"{project}/out/debug/config"], PATHS)
    del release.env["SAPHYR_PARSER_LIB"]


def pythons():
    """Each CPython from 3.8 on that the wheel is for, by its version: the ones on the PATH, and those of pyenv."""
    names = [sys.executable, *map(shutil.which, ("python3", *(f"python3.{it}" for it in range(8, 30))))]
    known = {}
    for path in (*filter(None, names), *sorted(glob.glob(os.path.expanduser("~/.pyenv/versions/*/bin/python3")))):
        ran = subprocess.run([path, "-c", PROBE], capture_output=True, text=True)
        version, _, is_fit = ran.stdout.strip().partition(" ")
        if is_fit == "True":
            known.setdefault(version, path)
    return known


def check_python(release):
    """The package in each Python. Returns in how many."""
    tested = 0
    for version, path in pythons().items() if release.wheels else ():
        folder = f"{release.folder}/python{version}"
        ran = subprocess.run([path, "-m", "venv", folder], env=release.env, capture_output=True, text=True)
        if ran.returncode:
            print(f"Python {version}: not tested, since it makes no environment")
            continue
        python = f"{folder}/bin/python"
        words = [python, "-m", "pip", "install", "-q", "--no-index", "--disable-pip-version-check", *release.wheels]
        release.call(words)
        check_python_programs(release, version, python)
        release.python = release.python or python
        tested += 1
    return tested


def check_python_programs(release, version, python):
    """The examples, the programs of the pages, and all cases, in a Python that has the package."""
    release.check(f"Python {version}", [python, f"{release.examples}/events.py"])
    counting = f"import saphyr_parser\ntext = {SHOWN!r}\n{block(f'{ROOT}/README.md', 'python')}print(scalars)"
    release.check(f"README in Python {version}", [python, "-c", counting], b"5\n")
    for page, first, last in ((release.readme, b"1:9 80\n", b"1:13 443\n"),
                              (release.faces, b"1:1 STREAM_START None\n", b"1:13: x is no number\n")):
        written = release.run([python, "-c", block(page, "python")])
        if not isinstance(written, bytes) or not written.startswith(first) or not written.endswith(last):
            fail(f"the program of {page} in Python {version} prints {written!r}")
    write(f"{release.folder}/config.yaml", "a: x\nports: [80,\nname: x\n")
    indented = re.search("(?:^ {6}.*\n)+", BLOCK.sub("", read(release.faces)), re.M)[0]
    shown = re.sub("^ {6}", "", indented, flags=re.M)
    ran = subprocess.run([python, "-c", FAULT], cwd=release.folder, env=release.env, capture_output=True, text=True)
    if ran.stdout != shown:
        fail(f"a fault in Python {version} is {ran.stdout!r}{ran.stderr}, and FACES.md shows {shown!r}")
    write(f"{release.folder}/config.yaml", "name: x\nports: [80, y]\n")
    ran = subprocess.run([python, f"{release.examples}/config.py", "config.yaml"], cwd=release.folder, env=release.env,
                         capture_output=True, text=True)
    if (ran.returncode, ran.stderr) != (1, "config.yaml:2:13: y is no port\n"):
        fail(f"config.py in Python {version} says {ran.stderr}")
    ran = subprocess.run([python, f"{ROOT}/tests/release/python_module.py"], env=release.env, capture_output=True,
                         text=True)
    if ran.returncode:
        fail(f"the package in Python {version}: {ran.stdout}{ran.stderr}")


def check_checker(release):
    """The checker runs alone."""
    printed = release.run([f"{release.at}/bin/check_yaml", "--version"])
    if printed != f"check_yaml {read(f'{ROOT}/VERSION')}".encode():
        fail(f"check_yaml --version prints {printed!r}")


def check_names(release):
    """What the shared library exports, and how it is called."""
    number = found(r"^#define SAPHYR_VERSION (\d+)u", f"{CRATE}/saphyr_parser.h")
    shared = f"{release.at}/lib/libsaphyr_parser.so.{number}"
    said = subprocess.run(["nm", "-D", "--defined-only", shared], capture_output=True, text=True, check=True).stdout
    names = sorted(line.split()[2] for line in said.splitlines())
    if names != [f"saphyr_{it}" for it in CALLS]:
        fail(f"the shared library exports {' '.join(names)}")
    if found(r"^const VERSION: u32 = (\d+);", f"{release.rust}/src/face.rs") != number:
        fail(f"rust/src/face.rs follows another header than that of version {number}")


def cargo_version(version):
    """The version of the crate: cargo ignores what follows `+`, so its last number has that of the release too."""
    crate, release = version.split("+rattle.")
    return f"{crate}{int(release):02}"


def check_versions(release):
    """The version, and the licences, which the crate has once more."""
    version = read(f"{ROOT}/VERSION").strip()
    for file, pattern in VERSIONS.items():
        if (said := found(pattern, f"{release.at}/{file}")) != version:
            fail(f"{file} has the version {said}, and VERSION {version}")
    program = "crates/check_yaml/src/main.rt"
    if (said := found(VERSION_OF_CRATE, f"{release.rust}/Cargo.toml")) != (wanted := cargo_version(version)):
        fail(f"Cargo.toml has the version {said}, and not {wanted}")
    if (said := found(r'^const VERSION: &str = "check_yaml (.*)";', f"{ROOT}/{program}")) != version:
        fail(f"{program} has the version {said}, and VERSION {version}")
    for name in ("LICENSE-MIT", "LICENSE-APACHE"):
        if read(f"{release.rust}/{name}") != read(f"{ROOT}/{name}"):
            fail(f"rust/{name} is another text than {name}")


def check_addresses(folder, wanted):
    """The address of the repository, or that there is none."""
    for file, pattern in ADDRESSES.items():
        said = found(pattern, f"{folder}/{file}")
        if (said and said.replace("\\-", "-")) != wanted:
            fail(f"{file} has the address {said}, and not {wanted}")


def check_manifest(release, tools):
    """What cargo reads in the crate's manifest."""
    words = [tools["cargo"], "metadata", "--offline", "--no-deps", "--format-version", "1"]
    (package,) = json.loads(release.call(words, release.rust))["packages"]
    if package["repository"] != ADDRESS:
        fail(f"cargo metadata names the repository {package['repository']}")


def check_sums(release):
    """Each file has its sum, and the page on provenance names the commit, and the sums of what the gate left."""
    release.call(["sha256sum", "--check", "--quiet", "SHA256SUMS"], release.at)
    listed = {line.split("  ", 1)[1] for line in read(f"{release.at}/SHA256SUMS").splitlines()}
    files = {it for it in files_below(release.at) if not os.path.islink(f"{release.at}/{it}")}
    if listed != files - {"SHA256SUMS"}:
        fail(f"SHA256SUMS has other files than the release: {sorted(listed ^ files)}")
    told = read(f"{release.at}/PROVENANCE.txt")
    for path in (libraries()[0], program("check_yaml"), program("dump_events")):
        with open(path, "rb") as it:
            if f"{hashlib.sha256(it.read()).hexdigest()}  {os.path.basename(path)}\n" not in told:
                fail(f"PROVENANCE.txt has not the sum of {path}")
    commit = subprocess.run(["git", "rev-parse", "HEAD"], cwd=ROOT, capture_output=True, text=True).stdout.strip()
    for name in (commit, "\ntoolchain  rattle-", " for bin/check_yaml\n", " for lib/libsaphyr_parser.so."):
        if name not in told:
            fail(f"PROVENANCE.txt doesn't name {name!r}")


def check_installed(release, compiler, root, prefix, name):
    """What is installed below a folder: the first program in C with the shared library, and the checker."""
    made, lib = f"{release.folder}/{name.replace(' ', '_')}", f"{root}{prefix}/lib"
    words = [compiler, f"-I{root}{prefix}/include", f"{release.folder}/first.c", f"-L{lib}", "-lsaphyr_parser"]
    release.call([*words, "-o", made])
    release.check(name, ["env", f"LD_LIBRARY_PATH={lib}", made], FIRST)
    release.check(f"{name}'s checker", [f"{root}{prefix}/bin/check_yaml", "--version"],
                  f"check_yaml {read(f'{ROOT}/VERSION')}".encode())


def check_installer(release, compiler):
    """The release's own install.sh has the same files as `release.sh install`, and refuses words."""
    root = f"{release.folder}/installed"
    ran = subprocess.run([f"{release.at}/install.sh"], env={**release.env, "DESTDIR": root}, capture_output=True,
                         text=True)
    if ran.returncode or ran.stderr or files_below(f"{root}/usr/local") != files_below(f"{release.folder}/prefix"):
        fail(f"install.sh: {ran.stderr}")
    check_installed(release, compiler, root, "/usr/local", "install.sh")
    # An ldconfig that doesn't look there.
    write(f"{release.folder}/elsewhere/ldconfig", "#!/bin/sh\n")
    os.chmod(f"{release.folder}/elsewhere/ldconfig", 0o755)
    elsewhere = {"PREFIX": f"{release.folder}/elsewhere", "PATH": f"{release.folder}/elsewhere:{release.env['PATH']}"}
    ran = subprocess.run([f"{release.at}/install.sh"], env={**release.env, **elsewhere}, capture_output=True, text=True)
    if ran.returncode or f"LD_LIBRARY_PATH={elsewhere['PREFIX']}/lib" not in ran.stderr:
        fail(f"install.sh to another prefix: {ran.stderr}")
    for words, status, said in ((["--help"], 0, "usage: "), (["/usr"], 2, "can't take these words: /usr.")):
        ran = subprocess.run([f"{release.at}/install.sh", *words], cwd="/", capture_output=True, text=True)
        if ran.returncode != status or said not in ran.stdout + ran.stderr:
            fail(f"install.sh {' '.join(words)} has the status {ran.returncode}, and says {ran.stderr}")


def check_coming_from(release, compiler):
    """What COMING_FROM.md says of libyaml and of PyYAML, by programs over both, where they are there."""
    made = f"{release.folder}/coming_from"
    words = [compiler, "-std=c99", f"-I{release.at}/include", f"{ROOT}/tests/release/coming_from.c"]
    words += [f"{release.at}/lib/libsaphyr_parser.a", "-lyaml", "-o", made]
    if subprocess.run([compiler, "-E", "-include", "yaml.h", "-x", "c", os.devnull], capture_output=True).returncode:
        print("libyaml: not compared, since there is no yaml.h")
    else:
        release.call(words)
        release.check("libyaml and C", [made], b"")
    if yaml and release.python:
        above = os.path.dirname(os.path.dirname(yaml.__file__))
        words = [release.python, f"{ROOT}/tests/release/coming_from.py", above]
        release.check("PyYAML and Python", words, b"")
    else:
        print("PyYAML: not compared, since it is not there")


def stand_ins(release, root):
    """What `sudo`, `dpkg` and `pip` do where README is tried: they install below a folder."""
    options = f"--force-depends --force-not-root --force-script-chrootless --root={root}"
    dpkg = f'{shutil.which("dpkg")} {options} "$@"' if os.geteuid() == 0 else f'dpkg-deb -x "$2" {root}'
    pip = f'{release.python} -m pip "$@" -q --no-index --disable-pip-version-check --target {root}/python'
    return {"sudo": f'DESTDIR={root} "$@"', "dpkg": dpkg if release.packages else ":",
            "pip": pip if release.python else ":"}


def check_commands(release, compiler):
    """The commands by which README, the release's README and FACES.md install, as they are written."""
    folder, root = f"{release.folder}/commands", f"{release.folder}/debian"
    for made in ("info", "updates", "triggers"):
        os.makedirs(f"{root}/var/lib/dpkg/{made}")
    write(f"{root}/var/lib/dpkg/status", "")
    for name, body in stand_ins(release, root).items():
        write(f"{folder}/bin/{name}", f"#!/bin/sh\n{body}\n")
        os.chmod(f"{folder}/bin/{name}", 0o755)
    for it in (release.archive, *release.packages):
        os.symlink(it, f"{folder}/{os.path.basename(it)}")
    shutil.copy(f"{release.folder}/first.c", folder)
    write(f"{folder}/FILE", TEXT.decode())
    chapter = read(f"{ROOT}/README.md").partition("\n## Install\n")[2].partition("\n## ")[0]
    chapter = chapter.replace("VERSION", read(f"{ROOT}/VERSION").strip())
    page = BLOCK.sub("", read(release.readme)).replace("FILE..", "FILE")
    python = read(release.faces).partition("\n## From Python\n")[2]
    scripts = [*INDENTED.findall(chapter), *re.findall("`(sudo .*?)`", chapter), *INDENTED.findall(page),
               *INDENTED.findall(python)[:1], *re.findall("`(pip .*?)`", page),
               *(f"cd RELEASE; {it}" for it in re.findall("`(sha256sum .*?)`", page))]
    path = f"{folder}/bin:{release.env['PATH']}"
    for script in scripts:
        words = re.sub(r"^\s*cc\b", compiler, script).replace("RELEASE", release.at)
        ran = subprocess.run(["sh", "-ec", words], cwd=folder, capture_output=True,
                             env={**release.env, "PATH": path}, text=True)
        release.built.append(" ".join(script.split()[:3]))
        if ran.returncode:
            fail(f"README's {script} says: {ran.stdout}{ran.stderr}")


def check_package(release, compiler):
    """The package for Debian, as README's command installed it, below a folder of its own."""
    root = f"{release.folder}/debian"
    for package in release.packages:
        check_installed(release, compiler, root, "/usr", "the package for Debian")
        if release.wheels:
            release.check("its Python", [sys.executable, "-c", block(release.readme, "python")], b"1:9 80\n1:13 443\n",
                          PYTHONPATH=f"{root}/usr/lib/python3/dist-packages")
        said = release.run(["lintian", package]) if shutil.which("lintian") else b""
        if re.search(rb"^E:", said if isinstance(said, bytes) else said.stdout, re.M):
            fail(f"lintian: {said}")
        for named in re.findall(r"dpkg -i tools/(\S+)", read(f"{ROOT}/docs/CI.md")):
            if not fnmatch.fnmatch(os.path.basename(package), named):
                fail(f"CI.md names {named}, and the package is {package}")


def install(prefix, **variables):
    """Runs `release.sh install`. No address is given, unless the variables do."""
    env = {**os.environ, "PREFIX": prefix, "REPOSITORY": "", **variables}
    return subprocess.run([f"{ROOT}/release.sh", "install"], env=env, capture_output=True, text=True)


def check_install(release):
    """A prefix has the same files. Without an address they name no repository, and a wrong one is refused."""
    prefix = f"{release.folder}/prefix"
    ran = install(prefix)
    # The page README stands with the other pages.
    moved = {"README.md", "PROVENANCE.txt"}
    there = sorted([*(f"share/saphyr_parser/{it}" for it in moved),
                    *(it for it in files_below(release.at) if it not in {*moved, "SHA256SUMS", "install.sh"})])
    if ran.returncode or files_below(prefix) != there:
        fail(f"release.sh install: {ran.stderr}")
    for wrong in wrong_links(prefix):
        fail(f"{wrong}, installed")
    if "names no repository" not in ran.stderr:
        fail(f"release.sh without an address says: {ran.stderr}")
    check_addresses(prefix, None)
    if "The source" in read(f"{prefix}/share/saphyr_parser/README.md"):
        fail("README.md has an address where none is given")
    for address in ("example.com/saphyr-parser", "ftp://example.com/it", "https://", 'https://example.com/"'):
        ran = install(f"{release.folder}/refused", REPOSITORY=address)
        if not ran.returncode or "REPOSITORY is not an address" not in ran.stderr:
            fail(f"release.sh takes the address {address}: {ran.stderr}")


def check_words():
    """What release.sh answers to `--help` and to wrong words, for which it makes nothing."""
    for words, status, said in ((["--help"], 0, "usage: .ci/run && ./release.sh"), (["instal"], 2, "can't take"),
                                (["install", "it"], 2, "can't take"), (["--out"], 2, "can't take"),
                                (["it", "--out"], 2, "can't take")):
        ran = subprocess.run([f"{ROOT}/release.sh", *words], cwd="/", capture_output=True, text=True)
        if ran.returncode != status or said not in ran.stdout + ran.stderr:
            fail(f"release.sh {' '.join(words)} has the status {ran.returncode}, and says {ran.stderr}")


def main():
    if sys.argv[1:]:
        print(__doc__)
        return 0 if sys.argv[1:] == ["--help"] else 2
    compiler = shutil.which("cc") or shutil.which("clang")
    if not compiler:
        return without("release", ["compiler of C"])
    os.environ.setdefault("CC", compiler)
    libraries()
    with tempfile.TemporaryDirectory() as folder:
        check_words()
        release = Release(folder)
        check_versions(release)
        check_addresses(release.at, ADDRESS)
        if (said := found("^The source and the proofs: (.*)", release.readme)) != ADDRESS:
            fail(f"README.md has the address {said}")
        check_names(release)
        check_sums(release)
        check_install(release)
        manuals = [f"saphyr_{it}" for it in CALLS + ["status_text", "parser"]]
        for wrong in (*wrong_links(release.at), *wrong_words(release.at), *wrong_manuals(release.at, manuals)):
            fail(wrong)
        tools = {name: shutil.which(name, path=release.env["PATH"]) for name in ("pkg-config", "cmake", "cargo")}
        tools |= {"cc": compiler, "c++": shutil.which("c++") or shutil.which("clang++")}
        check_c(release, tools)
        check_fault(release)
        check_shown(release, tools)
        check_installer(release, compiler)
        check_checker(release)
        tested = check_python(release)
        check_commands(release, compiler)
        check_package(release, compiler)
        check_coming_from(release, compiler)
        for name, check in (("pkg-config", check_pkg_config), ("cmake", check_cmake), ("cargo", check_cargo)):
            if tools[name]:
                check(release, tools)
    lacking = "".join(f"; there is no {name}" for name, tool in tools.items() if not tool)
    print(f"release: {len(release.built)} programs ({', '.join(release.built)}){lacking}; {len(FAILED)} faults")
    skipped = 0 if tools["cargo"] else without("the crate of the release", ["cargo"])
    if not tested:
        lacking = "Python that makes an environment" if release.wheels else "Python.h"
        skipped |= without("the package for Python", [lacking])
    return 1 if FAILED else skipped


if __name__ == "__main__":
    sys.exit(main())
