"""Proves and builds the libraries below some crates side by side, each as soon as those that it needs are there.

usage: libraries.py [--lanes N] CRATE.. | libraries.py --program CRATE [--lanes N] | libraries.py --check CRATE
       libraries.py --one CRATE --jobs N

`rt lib` would do so one after the other, because it keeps others out of all crates below the one that it builds. Here
each library is built by a process of its own (--one). A library on the longest chain, by lines, is begun first and with
two jobs, because the whole run waits for that chain; all others yield to it (nice). Processors that no library needs
are jobs too. --program proves and builds a program whose libraries are there, and runs it on empty input. --check
proves one crate over what earlier checks kept.

What was built and has not changed is left as it is. The first library that fails ends the run once those beside it have
ended; an interrupted run keeps what it has proved.
"""

import argparse
import concurrent.futures
import os
import subprocess
import sys
import tempfile

import kit

# What a program is run with, so that it ends at once.
ARGUMENTS = {"smi": ("answer",)}
# The run waits for a library whose chain is at least this share of the longest.
NEARLY = 0.95


def chains(crates):
    """Returns for each crate the lines of the longest chain of crates that begins with it."""
    lines = {}
    for crate in reversed(crates):
        above = [lines[it.name] for it in crates if crate.name in {dep.name for dep in it.deps}]
        lines[crate.name] = crate.count(rb"\n") + max(above, default=0)
    return lines


def build(crate, jobs, is_awaited):
    """Proves and builds the library; returns whether that went well, its output, and the processor seconds used."""
    with tempfile.TemporaryFile("w+", encoding="utf-8", errors="replace") as said:
        words = [*([] if is_awaited else ["nice"]), sys.executable, __file__, "--one", crate.name, "--jobs", str(jobs)]
        child = subprocess.Popen(words, stdin=subprocess.DEVNULL, stdout=said, stderr=said)
        _, status, use = os.wait4(child.pid, 0)
        child.returncode = os.waitstatus_to_exitcode(status)
        said.seek(0)
        return child.returncode == 0, said.read(), use.ru_utime + use.ru_stime


def begun(ready, free, lines, longest):
    """Returns the libraries to begin on the free processors, each with its jobs: the longest chain first, with two if
    the run waits for it and another library can be built beside it, and with all that are free if no other needs them."""
    jobs, left = {}, sorted(ready, key=lambda it: -lines[it.name])
    while free and left:
        wanted = 2 if free > 2 and lines[left[0].name] >= NEARLY * longest else 1
        jobs[left[0]] = min(free, max(wanted, free // len(left)))
        free -= jobs[left.pop(0)]
    return jobs


def build_all(crates, lanes):
    """Builds the libraries on this many processors, and returns whether all are there."""
    waiting, running, ended, well, lines = list(crates), {}, 0, True, chains(crates)
    with concurrent.futures.ThreadPoolExecutor(lanes) as pool:
        while running or well and waiting:
            left = [*waiting, *(crate for crate, _ in running.values())]
            longest = max(lines[it.name] for it in left)
            missing = {it.name for it in left}
            ready = [it for it in waiting if missing.isdisjoint(dep.name for dep in it.deps)] if well else []
            free = lanes - sum(jobs for _, jobs in running.values())
            for crate, jobs in begun(ready, free, lines, longest).items():
                waiting.remove(crate)
                is_awaited = lines[crate.name] >= NEARLY * longest
                running[pool.submit(build, crate, jobs, is_awaited)] = crate, jobs
            for done in concurrent.futures.wait(running, return_when=concurrent.futures.FIRST_COMPLETED).done:
                (crate, _), (is_built, said, seconds) = running.pop(done), done.result()
                well, ended = well and is_built, ended + 1
                verdict = "proved" if is_built else "NOT PROVED\n" + said
                print("%s: %s, %.0f seconds (%d of %d)" % (crate.name, verdict, seconds, ended, len(crates)), flush=True)
    return well


def run_program(crate, jobs):
    """Proves, builds and runs the program on empty input, and returns its status."""
    os.chdir(crate.folder)
    with open(os.devnull, encoding="ascii") as nothing:
        os.dup2(nothing.fileno(), 0)
    return kit.rt.main(["run", "--jobs", str(jobs), "--", *ARGUMENTS.get(crate.name, ())])


def main():
    words = argparse.ArgumentParser(description=__doc__.split("\n\n")[0])
    words.add_argument("--lanes", type=int, default=1, help="how many processors to use")
    words.add_argument("--one", metavar="CRATE", help="build this library alone")
    words.add_argument("--program", metavar="CRATE", help="prove, build and run this program")
    words.add_argument("--check", metavar="CRATE", help="prove this crate over what earlier checks kept")
    words.add_argument("--jobs", type=int, default=1, help="by how many processes the one library is proved")
    words.add_argument("crates", nargs="*", metavar="CRATE")
    said = words.parse_args()
    if said.one:
        # (older toolchains have no such word, and do not keep others out)
        getattr(kit.rt, "share_work", lambda **_: None)(is_alone=True)
        sys.exit(kit.crates([said.one])[0].build_rlib(["--jobs", str(said.jobs)], anew=False))
    if said.program:
        sys.exit(run_program(kit.crates([said.program])[0], said.lanes))
    if said.check:
        os.chdir(kit.crates([said.check])[0].folder)
        sys.exit(kit.rt.main(["check", "--jobs", str(said.lanes)]))
    below = {it.name for crate in kit.crates(said.crates) for it in crate.below()}
    try:
        is_well = build_all([it for it in kit.crates() if it.name in below and not it.is_built()], said.lanes)
    except KeyboardInterrupt:
        print("interrupted: what is proved stays so, and the next run goes on from there", flush=True)
        os._exit(130)
    sys.exit(0 if is_well else 1)


if __name__ == "__main__":
    main()
