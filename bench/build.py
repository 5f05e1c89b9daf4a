"""Proves and builds smi_bench, the program of the measures, at bin/smi_bench.

usage: build.py

No part of the gate proves it. Its files end in `.in` here, because the gate refuses sources of a crate that crates.txt
does not have. They are put among the other crates in a folder for this run, beside what `make smi` has proved of those.
"""

import os
import shutil
import subprocess
import sys
import tempfile

ROOT = os.path.dirname(os.path.dirname(os.path.abspath(__file__)))
HERE = os.path.join(ROOT, "bench")
NAME = "smi_bench"
# Its line of crates.txt; in a file of that name here, rt would read it.
LINE = ("smi_bench: smi_grant smi_message smi_tree smi_link smi_view smi_watchers smi_rows smi_stable smi_protocol"
        " smi_station_output smi_station smi_schedule smi_world sqlite\n")
# What is copied of a crate: what it is proved of, and its library as it was built.
PARTS = ("src", "specs", "proofs", os.path.join("out", "rlib"))


def read(*path):
    with open(os.path.join(*path), encoding="utf-8") as file:
        return file.read()


def copy_crates(folder):
    """The crates of the repository, as they stand."""
    for name in os.listdir(os.path.join(ROOT, "crates")):
        for part in PARTS:
            source = os.path.join(ROOT, "crates", name, part)
            if os.path.isdir(source):
                shutil.copytree(source, os.path.join(folder, "crates", name, part))
    shutil.copyfile(os.path.join(ROOT, "HANDLES"), os.path.join(folder, "HANDLES"))
    with open(os.path.join(folder, "crates.txt"), "w", encoding="utf-8") as file:
        file.write(read(ROOT, "crates.txt") + LINE)


def add_measures(folder):
    """The crate of the measures, its files without their ending `.in`."""
    made = os.path.join(folder, "crates", NAME)
    shutil.copytree(os.path.join(HERE, NAME), made)
    for at, _, names in os.walk(made):
        for name in names:
            os.rename(os.path.join(at, name), os.path.join(at, name.removesuffix(".in")))
    return made


def main():
    with tempfile.TemporaryDirectory() as folder:
        copy_crates(folder)
        made = add_measures(folder)
        done = subprocess.run(["rt", "run"], cwd=made, stdin=subprocess.DEVNULL, check=False)
        if done.returncode:
            sys.exit(done.returncode)
        os.makedirs(os.path.join(ROOT, "bin"), exist_ok=True)
        shutil.copy(os.path.join(made, "out", NAME), os.path.join(ROOT, "bin", NAME))


if __name__ == "__main__":
    main()
