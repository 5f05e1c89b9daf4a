"""Each growth of a run refused in turn: first the growths are counted, and then each of them is refused.

tests/growths.py has the runs, and says what each may do then.
"""

import os
import shutil

import pytest

import growths
import running
import stores

# The program is run once for each of thousands of allocations, which takes minutes on a busy machine.
pytestmark = pytest.mark.timeout(3600)


def named(run):
    return " ".join([run[0][0]] + [os.path.basename(word) for word in run[0][1:]])


@pytest.mark.parametrize("run", growths.RUNS, ids=named)
def test_run(program, folder, refusing, run, subtests):
    """The program does all that it does otherwise, or says that there was no memory."""
    stops, source = running.write(os.path.join(folder, "stops.schedule"), growths.SCHEDULE), run[1]
    words = [stops if it == "stops.schedule" else it for it in run[0]]
    count, whole = growths.counted(program, words, source, refusing, folder)
    told = 0
    for growth in range(1, count + 1):
        refused = growths.run(program, words, source, {"LD_PRELOAD": refusing, "REFUSE": str(growth)})
        told += refused != whole
        with subtests.test("growth %d" % growth):
            assert refused == whole or growths.is_told(whole, refused)
    with subtests.test("all %d, %d of them needed" % (count, told)):
        assert [whole[2], told > 0] == [0, True]


@pytest.mark.parametrize("rows", [pytest.param(stores.ROWS, id="rows"), pytest.param(None, id="rows to come")])
def test_store(program, folder, refusing, rows, subtests):
    """A store that is listed, or a file in which the table is still to be made, is left unchanged."""
    kept, path = os.path.join(folder, "kept"), os.path.join(folder, "listed")
    if rows is None:
        running.write(kept, "")
    else:
        stores.store(kept, stores.TABLE, rows)
    wanted = stores.rows_in(kept)
    count, whole = growths.counted(program, ["rows", kept], os.devnull, refusing, folder)
    with subtests.test("all %d" % count):
        assert [count > 0, whole] == [True, (stores.listing(rows or []).encode(), b"", 0)]
    for growth in range(1, count + 1):
        for left in [path, path + "-wal", path + "-shm"]:
            if os.path.exists(left):
                os.remove(left)
        shutil.copyfile(kept, path)
        refused = growths.run(program, ["rows", path], os.devnull, {"LD_PRELOAD": refusing, "REFUSE": str(growth)})
        with subtests.test("growth %d" % growth):
            assert refused == whole or growths.is_told(whole, refused)
            assert stores.rows_in(path) == wanted
