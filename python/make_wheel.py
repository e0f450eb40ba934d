#!/usr/bin/env python3
"""Makes a wheel of the package `saphyr_parser` with its extension. It needs Python and objdump, and no setuptools.

    make_wheel.py PACKAGE VERSION OUT LICENSE..

PACKAGE is the package's folder. Prints the path of the wheel, which goes into the folder OUT. Its name says from which
Python on it can be used (3.8, by the Limited API), and from which version of glibc on: the latest that a symbol of the
extension asks for. An extension that needs any other library is refused.
"""
import ast
import base64
import hashlib
import pathlib
import re
import subprocess
import sys
import zipfile

OLDEST = 17  # manylinux2014, the oldest glibc that is worth a name of its own
METADATA = """Metadata-Version: 2.1
Name: saphyr_parser
Version: {}
Summary: A proved parser of YAML 1.2
License: MIT OR Apache-2.0
Requires-Python: >=3.8
Classifier: Typing :: Typed
Description-Content-Type: text/plain

{}
"""
WHEEL = "Wheel-Version: 1.0\nGenerator: make_wheel\nRoot-Is-Purelib: false\n"


def platforms(extension):
    """The names of the systems that the extension runs on."""
    said = subprocess.run(["objdump", "-Tp", extension], capture_output=True, text=True, check=True).stdout
    needed = set(re.findall(r"^ *NEEDED +(\S+)", said, re.M))
    if needed != {"libc.so.6"}:
        sys.exit(f"make_wheel.py: {extension} needs {', '.join(sorted(needed))}")
    glibc = max(OLDEST, *(int(it) for it in re.findall(r"\bGLIBC_2\.(\d+)", said)))
    return [f"manylinux_2_{glibc}_x86_64"] + ["manylinux2014_x86_64"] * (glibc == OLDEST)


def record(files):
    """The list of a wheel's files, with their sums."""
    for name, data in files.items():
        digest = base64.urlsafe_b64encode(hashlib.sha256(data).digest()).rstrip(b"=").decode()
        yield f"{name},sha256={digest},{len(data)}\n"


def main():
    if len(sys.argv) < 5:
        sys.exit(__doc__)
    package, version, out, *licenses = sys.argv[1:]
    package = pathlib.Path(package)
    systems = platforms(next(package.glob("*.abi3.so")))
    tag, info = f"cp38-abi3-{'.'.join(systems)}", f"saphyr_parser-{version}.dist-info"
    files = {f"saphyr_parser/{it.name}": it.read_bytes() for it in sorted(package.iterdir()) if it.is_file()}
    doc = ast.get_docstring(ast.parse(files["saphyr_parser/__init__.py"]))
    tags = "".join(f"Tag: cp38-abi3-{it}\n" for it in systems)
    files[f"{info}/METADATA"] = METADATA.format(version, doc).encode()
    files[f"{info}/WHEEL"] = (WHEEL + tags).encode()
    files.update((f"{info}/{pathlib.Path(it).name}", pathlib.Path(it).read_bytes()) for it in licenses)
    files[f"{info}/RECORD"] = "".join([*record(files), f"{info}/RECORD,,\n"]).encode()
    path = f"{out}/saphyr_parser-{version}-{tag}.whl"
    with zipfile.ZipFile(path, "w", zipfile.ZIP_DEFLATED) as wheel:
        for name, data in files.items():
            it = zipfile.ZipInfo(name)  # with a fixed time, so that the same files make the same wheel
            it.external_attr = (0o755 if name.endswith(".so") else 0o644) << 16
            wheel.writestr(it, data, zipfile.ZIP_DEFLATED)
    print(path)


if __name__ == "__main__":
    main()
