#!/usr/bin/env python3
"""Measures `pgq run` beside sqlite3, and how `translate`, `check` and `run` grow.

    bench/speed.py PROGRAM [--small] [--limits]

PROGRAM is the built program. Beside sqlite3: the query of one edge over 100,000 and 300,000 rows of KNOWS and that of one edge in any
direction over 16,000 and 48,000; both programs read the CSV files, join, sort and print, one after the other, three times, and the
least time counts. Then the growth of each command from n to 4n and 16n. --small takes a tenth of the rows. With --limits the status
is 1 where a ratio is above 1.0 or an exponent above 1.1. sqlite3 is left out where it is not installed.
"""
import math
import os
import shutil
import subprocess
import sys
import tempfile
import time

SCHEMA = """CREATE TABLE person (id INTEGER PRIMARY KEY, name VARCHAR(20), age INTEGER);
CREATE TABLE knows (id INTEGER PRIMARY KEY, a INTEGER REFERENCES person (id),
  b INTEGER REFERENCES person (id), since INTEGER);
CREATE PROPERTY GRAPH g VERTEX TABLES (person)
  EDGE TABLES (knows SOURCE KEY (a) REFERENCES person (id)
                     DESTINATION KEY (b) REFERENCES person (id));
"""
QUERY = "SELECT * FROM GRAPH_TABLE (G MATCH {} COLUMNS (x.name AS x, y.name AS y))\n"
CASES = (("one edge", "(x)-[e]->(y)", (100_000, 300_000)), ("one edge, any direction", "(x)-[e]-(y)", (16_000, 48_000)))
# What is lost in starting a program is not growth.
LEAST = 0.02
# As bin/pgq starts the program.
os.environ.setdefault("GLIBC_TUNABLES", "glibc.malloc.hugetlb=1:glibc.malloc.top_pad=16777216")


def write(path, text):
    with open(path, "w", encoding="utf-8") as file:
        file.write(text)


def make_tables(home, edges):
    """A third as many persons as edges; each is the start of three edges."""
    people = max(1, edges // 3)
    write(f"{home}/person.csv", "id,name,age\n" + "".join(f"{i},P{i},{7 * i % 90}\n" for i in range(1, people + 1)))
    lines = (f"{3 * (i - 1) + j + 1},{i},{((j + 2) * i + j) % people + 1},{2000 + (i + j) % 25}\n" for i in range(1, people + 1) for j in range(3))
    write(f"{home}/knows.csv", "id,a,b,since\n" + "".join(lines))


def least(times, *acts):
    """The least time of each act; they take turns, so that what else the machine does meets all of them."""
    found = [[] for _ in acts]
    for _ in range(times):
        for act, taken in zip(acts, found):
            began = time.perf_counter()
            act()
            taken.append(time.perf_counter() - began)
    return [min(taken) for taken in found]


def quiet(words, text=None):
    with open(os.devnull, "w") as nowhere:
        said = subprocess.run(words, input=text, text=True, stdout=nowhere, stderr=subprocess.PIPE)
    if said.returncode:
        sys.exit(f"{' '.join(words)}: {said.stderr}")


def run_words(program, home):
    return [program, "run", f"{home}/schema.sql", f"{home}/query.sql", f"person={home}/person.csv", f"knows={home}/knows.csv"]


def sqlite_text(home, sql):
    tables = SCHEMA.split("CREATE PROPERTY")[0]
    return f"{tables}.mode csv\n.import --skip 1 {home}/person.csv person\n.import --skip 1 {home}/knows.csv knows\nSELECT * FROM (\n{sql.strip()}\n) ORDER BY 1, 2;\n"


def exponent(sizes, times):
    return math.log(max(times[-1], LEAST) / max(times[0], LEAST)) / math.log(sizes[-1] / sizes[0])


def beside_sqlite(program, home, scale, faults):
    has_sqlite = shutil.which("sqlite3") is not None
    for what, pattern, sizes in CASES:
        sizes = [size // scale for size in sizes]
        times = []
        write(f"{home}/query.sql", QUERY.format(pattern))
        sql = subprocess.run([program, "translate", f"{home}/schema.sql", f"{home}/query.sql"], capture_output=True, text=True).stdout
        for size in sizes:
            make_tables(home, size)
            acts = [lambda: quiet(run_words(program, home))]
            if has_sqlite:
                acts.append(lambda: quiet(["sqlite3", "-bail", ":memory:"], sqlite_text(home, sql)))
            own, *others = least(9, *acts)
            times.append(own)
            line = f"{what}, {size} rows: run {own:.2f} s"
            for other in others:
                line += f", sqlite3 {other:.2f} s, ratio {own / other:.2f}"
                if own > other:
                    faults.append(line)
            print(line, flush=True)
        grown = exponent(sizes, times)
        print(f"{what}: growth exponent {grown:.2f}", flush=True)
        if grown > 1.1:
            faults.append(f"{what}: growth exponent {grown:.2f}")
    if not has_sqlite:
        print("sqlite3 is not installed: its times are left out")


def items(count):
    """A query of so many columns."""
    return "SELECT * FROM GRAPH_TABLE (g MATCH (x)-[e]->(y) COLUMNS (" + ", ".join(f"x.age AS c{i}" for i in range(count)) + "))\n"


def growth(program, home, scale, faults):
    """From n to 16n: the columns of a query, and the rows of a table."""
    sizes = [size // scale for size in (600, 2_400, 9_600)]
    for command in ("check", "translate"):
        times = []
        for size in sizes:
            write(f"{home}/query.sql", items(size))
            times += least(5, lambda: quiet([program, command, f"{home}/schema.sql", f"{home}/query.sql"]))
        told(command, "columns", sizes, times, faults)
    write(f"{home}/query.sql", QUERY.format("(x)-[e]->(y)"))
    sizes = [size // scale for size in (20_000, 80_000, 320_000)]
    times = []
    for size in sizes:
        make_tables(home, size)
        times += least(5, lambda: quiet(run_words(program, home)))
    told("run", "rows", sizes, times, faults)


def told(command, of, sizes, times, faults):
    grown = exponent(sizes, times)
    print(f"{command}: " + ", ".join(f"{size} {of} {taken:.3f} s" for size, taken in zip(sizes, times)) + f"; growth exponent {grown:.2f}", flush=True)
    if grown > 1.1:
        faults.append(f"{command}: growth exponent {grown:.2f}")


def main():
    program = os.path.abspath(sys.argv[1])
    scale = 10 if "--small" in sys.argv else 1
    faults = []
    with tempfile.TemporaryDirectory(prefix="pgq-speed-") as home:
        write(f"{home}/schema.sql", SCHEMA)
        beside_sqlite(program, home, scale, faults)
        growth(program, home, scale, faults)
    if "--limits" in sys.argv and faults:
        print("\n".join(["above the limits:", *faults]))
        sys.exit(1)


main()
