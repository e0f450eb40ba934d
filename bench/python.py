#!/usr/bin/env python3
"""Compares the package for Python with PyYAML over libyaml: how many times as long PyYAML takes.

    PYTHON bench/python.py [--size MEGABYTES] [--memory] [KIND ..]

PYTHON is one that has both. Each call reads the whole text, as a `str`, and drops what it gets. The figures are ratios
of processor time, each the least of 14 rounds, in which the calls take turns: other programs slow all of them. With
--memory they are what a list of all that a call gives takes at most, in bytes for each byte of the text.
"""
import argparse
import os
import resource
import time

import yaml

import inputs
import saphyr_parser

KINDS = ("data.yaml", "data.json", "many_small")
ROUNDS = 14
CALLS = {
    "events": lambda text: saphyr_parser.events(text),
    "parse": lambda text: yaml.parse(text, Loader=yaml.CLoader),
    "trees": lambda text: saphyr_parser.load_all(text),
    "compose_all": lambda text: yaml.compose_all(text, Loader=yaml.CLoader),
    "load_all": lambda text: yaml.load_all(text, Loader=yaml.CBaseLoader),
}


def seconds(call, text):
    before = time.process_time()
    for _ in call(text):
        pass
    return time.process_time() - before


def memory(call, text):
    """What a list takes at most beyond what is there before, in a process of its own."""
    list(call("a"))
    reading, writing = os.pipe()
    if not os.fork():
        before = resource.getrusage(resource.RUSAGE_SELF).ru_maxrss
        kept = list(call(text))
        os.write(writing, b"%d" % (resource.getrusage(resource.RUSAGE_SELF).ru_maxrss - before if kept else 0))
        os._exit(0)
    os.wait()
    return 1024 * int(os.read(reading, 100)) / len(text.encode())


def main():
    options = argparse.ArgumentParser(description=__doc__, formatter_class=argparse.RawDescriptionHelpFormatter)
    options.add_argument("--size", type=float, default=0.3)
    options.add_argument("--memory", action="store_true")
    options.add_argument("kinds", nargs="*", default=KINDS)
    given = options.parse_args()
    if given.memory:
        print("| file | trees | `compose_all` | events | `parse` |\n|---|---|---|---|---|")
        for kind in given.kinds:
            text = inputs.KINDS[kind](int(given.size * 1e6))
            found = (memory(CALLS[it], text) for it in ("trees", "compose_all", "events", "parse"))
            print(f"| `{kind}` | {' | '.join(f'{it:.1f}' for it in found)} |", flush=True)
        return
    print("| file | `yaml.parse` to `events` | `yaml.compose_all` to `load_all` | `yaml.load_all`, texts alone |")
    print("|---|---|---|---|")
    for kind in given.kinds:
        text = inputs.KINDS[kind](int(given.size * 1e6))
        rounds = [{name: seconds(call, text) for name, call in CALLS.items()} for _ in range(ROUNDS)]
        least = {name: min(it[name] for it in rounds) for name in CALLS}
        ratios = (least["parse"] / least["events"], *(least[it] / least["trees"] for it in ("compose_all", "load_all")))
        print(f"| `{kind}` | {' | '.join(f'{it:.1f}' for it in ratios)} |")


if __name__ == "__main__":
    main()
