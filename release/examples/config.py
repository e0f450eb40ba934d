"""Reads a configuration, and says at which place a value is wrong.

    python3 config.py FILE
"""
import sys

import saphyr_parser


def ports_of(config):
    """The numbers of a mapping's `ports`, which are wanted from 1 to 65535."""
    for port in config["ports"]:
        if not port.isdecimal() or not 0 < int(port) < 65536:
            raise ValueError(f"{port.start}: {port} is no port")
        yield int(port)


path = sys.argv[1]
try:
    with open(path, "rb") as file:
        config = saphyr_parser.load(file)
    print(config["name"], *ports_of(config))
except (KeyError, TypeError) as error:
    sys.exit(f"{path}: {error}")
except ValueError as error:
    sys.exit(f"{path}:{error}")
