"""Stores of stable rows and what `smi rows` says of them, written down from docs/FORMATS.md, "Stable rows"."""

import os
import sqlite3

TABLE = ("CREATE TABLE stable_rows (station INTEGER NOT NULL, domain INTEGER NOT NULL, operator INTEGER NOT NULL, "
         "bytes BLOB NOT NULL, PRIMARY KEY (station, domain, operator)) STRICT")

# Station 1 in its second boot; its domain taken by operator 2; an operator that holds domain 2 at epoch 1.
ROWS = [
    ((1, 0, 0), "0200000000000002"),
    ((1, 1, 0), "020100020000000000000001000000000000000000000000"),
    ((2, 0, 2), "030000010002020000000000000000010000000000000000"),
]


def store(path, table, rows):
    """Writes a file with a table and rows in it, and returns its path."""
    with sqlite3.connect(path) as file:
        file.execute(table)
        file.executemany("INSERT INTO stable_rows VALUES (?, ?, ?, ?)",
                         [key + (bytes.fromhex(text),) for key, text in rows])
    file.close()
    return path


def listing(rows):
    """Returns what `smi rows` prints of these rows."""
    return "".join("%d %d %d %s\n" % (key + (text,)) for key, text in sorted(rows))


def rows_in(path):
    """Returns the rows of a store that SQLite finds whole. If there is no table, there are none."""
    with sqlite3.connect(path) as file:
        assert file.execute("PRAGMA integrity_check").fetchall() == [("ok",)]
        tables = file.execute("SELECT name FROM sqlite_master WHERE type = 'table'").fetchall()
        rows = file.execute("SELECT * FROM stable_rows ORDER BY station, domain, operator").fetchall() if tables else []
    file.close()
    return [(row[:3], row[3].hex()) for row in rows]


# What a node of station 2 has saved in its first boot, whose operator 2 has taken its domain 2 at epoch 1.
OURS = [
    ((2, 0, 0), "0200000000000001"),
    ((2, 0, 2), "030000010002020000000000000000010000000000000000"),
    ((2, 2, 0), "020100020000000000000001000000000000000000000000"),
]


def all_stores(folder):
    """Yields each store: its name, its path, standard output, standard error and status."""
    def path(name):
        return os.path.join(folder, name)

    fault = ("", "store fault\n", 3)
    for place, rows in enumerate([ROWS, ROWS[::-1], [ROWS[1], ROWS[0], ROWS[2]]]):
        yield ("rows in order %d" % place, store(path("store%d" % place), TABLE, rows), listing(rows), "", 0)
    yield ("no rows", store(path("empty"), TABLE, []), "", "", 0)
    yield ("a row that says nothing", store(path("odd"), TABLE, [((128, 128, 0), "")]), "128 128 0 \n", "", 0)
    many = [((station, domain, 0), "%02x" % domain) for domain in range(1, 129) for station in (3, 1, 2)]
    yield ("many rows", store(path("many"), TABLE, many), listing(many), "", 0)
    yield ("another table", store(path("other"), TABLE.replace(" STRICT", ""), ROWS)) + fault
    yield ("nothing there", path("nothing")) + fault
    yield ("a directory", folder) + fault
    with open(path("text"), "wb") as file:
        file.write(b"This is no database, and long enough to be seen as none.\n" * 20)
    yield ("a text", path("text")) + fault
