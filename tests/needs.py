"""Says which packages of Debian the tests need and this machine lacks, and ends with 1 if there is one.

usage: needs.py [--packages]

With --packages it prints all that they need, for apt-get.
"""

import importlib.util
import sys

import running

# The modules that the tests import, and the packages that have them.
NEEDED = {"pytest": "python3-pytest", "pytest_subtests": "python3-pytest-subtests",
          "pytest_timeout": "python3-pytest-timeout", "xdist": "python3-pytest-xdist",
          "hypothesis": "python3-hypothesis", "websocket": "python3-websocket"}


def main():
    if sys.argv[1:] == ["--packages"]:
        print(*NEEDED.values())
        return
    missing = [package for module, package in NEEDED.items() if importlib.util.find_spec(module) is None]
    if missing:
        running.end([("apt-get install --no-install-recommends " + " ".join(missing), False, "the tests need it")])


if __name__ == "__main__":
    main()
