"""Drawn schedules under valgrind, which tells whether memory is used wrongly or not all of it is given back."""

import running

# How many items are drawn over each tree. Stations watch, start again and forget one another's watches all along.
DRAWN = {"worked.tree": 5_000, "detector.tree": 5_000}
VALGRIND = ["valgrind", "--quiet", "--leak-check=full", "--show-leak-kinds=all", "--errors-for-leak-kinds=all",
            "--error-exitcode=9"]


def drawn(program, tree):
    """Returns what a drawn schedule over a tree prints, tells and ends with, without valgrind and under it."""
    words = [program, "sim", running.example(tree), "--seed", "1", "--steps", str(DRAWN[tree])]
    return running.run(words, timeout=600), running.run(VALGRIND + words, timeout=600)
