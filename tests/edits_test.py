"""Whether tools/edits.py tells apart what the prover refuses and what it does not.

The mutants of tests/edits/ are tried on smi_grant, all together: one is wrong, and none of the others may be told as
refused, though one of them is in a function that calls the refused one. The last line is 'N passed, M failed'.

usage: edits_test.py [SINCE]: a gate has proved all crates from nothing since that moment.
"""

import os
import sys

import running

# these are in tools/, which running.py puts on the path
import edits
import kit

WANTED = {"refused_argument": edits.REFUSED, "caller_of_a_refused_one": edits.PASSED, "harmless": edits.PASSED,
          "names_another_function": edits.PASSED, "does_not_compile": edits.BAD, "text_that_is_not_there": edits.BAD}


def main():
    os.chdir(kit.ROOT)
    since = float(sys.argv[1]) if len(sys.argv) > 1 else None
    tried = edits.try_all(kit.crates(["smi_grant"]), folder=os.path.join(running.HERE, "edits"), since=since)
    how = {edit.name: edit.how for edit in tried["smi_grant"] or []}
    done = [(name, how.get(name) == WANTED.get(name), how.get(name)) for name in sorted({*WANTED, *how})]
    # what was told of them has to end in a failed run
    summary = edits.summary(tried)
    running.end([*done, ("how many are refused", summary == (1, len(WANTED) - 1, 0), summary)])


if __name__ == "__main__":
    main()
