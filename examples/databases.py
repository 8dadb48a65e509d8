#!/usr/bin/env python3
"""Runs the SQL that pgq writes for the examples on SQLite and PostgreSQL, unchanged, and compares the rows with `pgq run`.

    examples/databases.py PROGRAM

PROGRAM is the built program. In each folder the tables are made by the CREATE TABLE statements of schema.sql and filled from the
CSV files; then each query's text is written by `PROGRAM translate` and run as it is. A database that is not installed is skipped, and
so is a text with a form that the database does not know (docs/DATABASES.md has these). The last line tells the counts; the status
is 1 where some rows differ.
"""
import csv
import decimal
import glob
import os
import re
import shutil
import subprocess
import sys
import tempfile

HERE = os.path.dirname(os.path.abspath(__file__))

# What SQLite does not know, in the texts that pgq writes.
UNKNOWN_TO_SQLITE = (("DATE literals", r"\bDATE '"), ("IS UNKNOWN", r"\bIS (NOT )?UNKNOWN\b"))


def statements(schema):
    """The CREATE TABLE statements of a schema text, in their order, with the names of their tables."""
    found = re.findall(r"CREATE TABLE\s+(\w+)\s.*?;", schema, re.S | re.I)
    texts = re.findall(r"CREATE TABLE\s+\w+\s.*?;", schema, re.S | re.I)
    return list(zip(found, texts))


def rows_of(path):
    """The header and the records of a CSV file; `\\N` is None."""
    with open(path, newline="", encoding="utf-8") as file:
        records = list(csv.reader(file))
    return records[0], [[None if field == "\\N" else field for field in record] for record in records[1:]]


def quoted(field):
    return "NULL" if field is None else "'" + field.replace("'", "''") + "'"


def inserts(table, statement, path, as_numbers):
    """An INSERT of the rows of a table's file. SQLite has no truth values: there they are the numbers 1 and 0."""
    header, records = rows_of(path)
    truths = {name.lower() for name in re.findall(r"(\w+)\s+BOOLEAN", statement, re.I)} if as_numbers else set()
    numbers = {"true": "1", "false": "0"}
    lines = []
    for record in records:
        fields = [numbers.get((field or "").lower(), "NULL") if name.lower() in truths else quoted(field) for name, field in zip(header, record)]
        lines.append("(" + ", ".join(fields) + ")")
    return f"INSERT INTO {table} ({', '.join(header)}) VALUES\n" + ",\n".join(lines) + ";\n" if lines else ""


def script_of(folder, as_numbers):
    """The statements that make and fill the tables of an example."""
    with open(f"{folder}/schema.sql", encoding="utf-8") as file:
        made = statements(file.read())
    script = ""
    for table, statement in made:
        script += statement + "\n"
        path = f"{folder}/{table.lower()}.csv"
        if os.path.exists(path):
            script += inserts(table, statement, path, as_numbers)
    return script


def plain(field):
    """A field as both sides can be compared: a number by its value, a truth value as a number."""
    if field in ("true", "t"):
        return decimal.Decimal(1)
    if field in ("false", "f"):
        return decimal.Decimal(0)
    try:
        return decimal.Decimal(field)
    except decimal.InvalidOperation:
        return field


def sorted_rows(records):
    return sorted([[str(plain(field)) if isinstance(plain(field), str) else str(plain(field).normalize()) for field in record] for record in records])


def own_rows(program, folder, query):
    """The rows that `pgq run` prints."""
    tables = [f"{os.path.basename(path)[:-4]}={path}" for path in sorted(glob.glob(f"{folder}/*.csv"))]
    said = subprocess.run([program, "run", f"{folder}/schema.sql", query, *tables], capture_output=True, text=True)
    if said.returncode:
        return None
    return list(csv.reader(said.stdout.splitlines()))[1:]


class Sqlite:
    name = "SQLite"

    def __init__(self, home):
        self.path = f"{home}/examples.db"

    @staticmethod
    def is_there():
        return shutil.which("sqlite3") is not None

    def cannot(self, text):
        return next((what for what, form in UNKNOWN_TO_SQLITE if re.search(form, text)), None)

    def load(self, folder):
        if os.path.exists(self.path):
            os.remove(self.path)
        subprocess.run(["sqlite3", "-bail", self.path], input=script_of(folder, True), text=True, check=True)

    def rows(self, text):
        said = subprocess.run(["sqlite3", "-bail", "-csv", "-nullvalue", "\\N", self.path], input=text.rstrip() + ";\n", text=True, capture_output=True)
        return (list(csv.reader(said.stdout.splitlines())), said.stderr)

    def end(self):
        pass


class Postgres:
    name = "PostgreSQL"

    def __init__(self, home):
        """A server of its own, in a folder of its own, that only a socket in that folder reaches."""
        self.home = f"{home}/postgres"
        self.bin = self.folder()
        os.makedirs(self.home)
        self.user = ["runuser", "-u", "postgres", "--"] if os.geteuid() == 0 else []
        if self.user:
            os.chmod(home, 0o755)
            shutil.chown(self.home, "postgres")
        self.command("initdb", "-D", f"{self.home}/data", "-A", "trust", "-E", "UTF8", "--no-sync")
        self.command("pg_ctl", "-D", f"{self.home}/data", "-w", "-l", f"{self.home}/log", "-o", f"-k {self.home} -c listen_addresses='' -F", "start")

    @staticmethod
    def folder():
        found = sorted(glob.glob("/usr/lib/postgresql/*/bin"))
        return found[-1] if found else os.path.dirname(shutil.which("initdb") or "")

    @staticmethod
    def is_there():
        return bool(Postgres.folder()) and (os.geteuid() != 0 or shutil.which("runuser") is not None)

    def command(self, name, *words, text=None):
        return subprocess.run([*self.user, f"{self.bin}/{name}", *words], input=text, text=True, check=True, capture_output=True, cwd="/")

    def ask(self, text):
        return subprocess.run([*self.user, f"{self.bin}/psql", "-h", self.home, "-d", "postgres", "-X", "-q", "-v", "ON_ERROR_STOP=1", "--csv", "-t", "-P", "null=\\N"],
                              input=text, text=True, capture_output=True, cwd="/")

    def cannot(self, text):
        return None

    def load(self, folder):
        said = self.ask("DROP SCHEMA public CASCADE; CREATE SCHEMA public;\n" + script_of(folder, False))
        if said.returncode:
            raise RuntimeError(said.stderr)

    def rows(self, text):
        said = self.ask(text.rstrip() + ";\n")
        return (list(csv.reader(said.stdout.splitlines())), said.stderr if said.returncode else "")

    def end(self):
        subprocess.run([*self.user, f"{self.bin}/pg_ctl", "-D", f"{self.home}/data", "-m", "immediate", "stop"], capture_output=True, cwd="/")


def compare(database, program, folder, counts):
    domain = os.path.basename(folder)
    database.load(folder)
    for query in sorted(glob.glob(f"{folder}/*.sql")):
        if query.endswith("/schema.sql"):
            continue
        what = f"{database.name}: {domain}/{os.path.basename(query)}"
        said = subprocess.run([program, "translate", f"{folder}/schema.sql", query], capture_output=True, text=True)
        own = own_rows(program, folder, query)
        if said.returncode or own is None:
            counts["differ"] += 1
            print(f"{what}: pgq refuses it: {said.stderr.strip()}")
            continue
        lacking = database.cannot(said.stdout)
        if lacking:
            counts["skipped"] += 1
            print(f"{what}: skipped, {database.name} does not know {lacking}")
            continue
        rows, fault = database.rows(said.stdout)
        if fault or sorted_rows(rows) != sorted_rows(own):
            counts["differ"] += 1
            print(f"{what}: {fault.strip() or 'other rows'}")
        else:
            counts["equal"] += 1


def main():
    program = os.path.abspath(sys.argv[1])
    counts = {"equal": 0, "skipped": 0, "differ": 0}
    with tempfile.TemporaryDirectory(prefix="pgq-examples-") as home:
        for kind in (Sqlite, Postgres):
            if not kind.is_there():
                print(f"{kind.name} is not installed: skipped")
                continue
            try:
                database = kind(home)
            except (OSError, subprocess.CalledProcessError) as fault:
                print(f"{kind.name} does not start: skipped ({fault})")
                continue
            try:
                for folder in sorted(glob.glob(f"{HERE}/*/")):
                    compare(database, program, folder.rstrip("/"), counts)
            finally:
                database.end()
    print(f"databases: {counts['equal']} equal, {counts['skipped']} skipped, {counts['differ']} differ")
    sys.exit(1 if counts["differ"] else 0)


main()
