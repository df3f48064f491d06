#!/usr/bin/env python3
"""Times './ltd pack', also with a map, 'study', 'check', 'years' and 'unpack', and columns of claims in Python, for docs/MEASURED.md.

All of it is on a load of 500,000 claims that anyone can rebuild.

Usage: python/measure.py [CLAIMS_COUNT]. It is no part of the gate.
"""

import os
import subprocess
import sys
import tempfile
import time
from csv import reader
from pathlib import Path
from typing import Iterator, List, Tuple

HERE = Path(__file__).resolve().parent
sys.dont_write_bytecode = True
sys.path.insert(0, str(HERE))

from ltd_study import Claim, ClaimFile, Claims, Rates, listings
from ltd_study.claim import COLUMNS
from ltd_study.dates import iso
from ltd_study.desk.csv_rows import writer
from ltd_study.shared_load import load

SEED = 1
WINDOW = ("2009-01-01", "2017-12-31")
EXTRACT_MAP = """\
keep = ["Region"]

[columns]
number = "Claim No"
disability = "DOD"
bcd = "BCD"
termination = "Term"
maximum = "Max"
status = "Status"
code = "Reason"
benefit = "Benefit"

[number]
kind = "text"

[dates]
format = "MM/DD/YYYY"

[status]
"A" = "open"
"T" = "closed"

[benefit]
unit = "dollars"
round = "half-up"
currency = "$"
thousands = ","

[cell]
columns = ["EP", "Class"]
rows = [["90 days", "A", 0]]
"""


def main(size: int) -> int:
    """Prints a row for each command."""
    with tempfile.TemporaryDirectory() as work:
        os.chdir(work)
        with open("load.csv", "w", newline="", encoding="utf-8") as text:
            out = writer(text)
            out.writerow(COLUMNS)
            for claim in load(SEED, size):
                dates = map(iso, (claim.disability, claim.bcd, claim.termination, claim.maximum))
                out.writerow((claim.number, *dates, claim.status_word, claim.code_word, claim.cell, claim.benefit))
        Path("load.rates").write_bytes(Rates.flat(10_000, 5_000).to_bytes())
        print(f"{size:,} rows, {Path('load.csv').stat().st_size:,} bytes of CSV\n\n| command | time | peak of memory |\n|---|---|---|")
        write_extract()
        for words in (
            ["pack", "load.csv", "load.claims", "--window", *WINDOW],
            ["pack", "extract.csv", "extract.claims", "--map", "extract.toml", "--window", *WINDOW],
            ["study", "load.claims", "load.rates"],
            ["check", "load.claims", "load.rates"],
            ["years", "load.claims", "load.rates"],
            ["unpack", "load.claims", "--out", "again.csv"],
        ):
            seconds, megabytes = measured(words)
            print(f"| `./ltd {' '.join(words)}` | {seconds:.2f} s | {megabytes:.0f} MB |", flush=True)
        for what, seconds in columns_measured():
            print(f"| {what} | {seconds:.2f} s | |", flush=True)
        same = Path("again.csv").read_bytes() == Path("load.csv").read_bytes()
        return 0 if same and Path("extract.claims").read_bytes() == Path("load.claims").read_bytes() else 1


def write_extract() -> None:
    """The load as an extract with its map: claim numbers and dates in another form, dollars, words, and a cell from two columns."""
    words = {"open": "A", "closed": "T"}
    with open("load.csv", newline="", encoding="utf-8") as text, open("extract.csv", "w", newline="", encoding="utf-8") as extract:
        out = writer(extract)
        out.writerow(["Claim No", "DOD", "BCD", "Term", "Max", "Status", "Reason", "EP", "Class", "Benefit", "Region"])
        rows = reader(text)
        next(rows)
        for number, *when, status, code, _, benefit in rows:
            dates = [f"{day[5:7]}/{day[8:]}/{day[:4]}" if day else "" for day in when]
            out.writerow([f"LTD-{number}", *dates, words[status], code, "90 days", "A", f"${int(benefit) * 100:,}.00", "North"])
    Path("extract.toml").write_text(EXTRACT_MAP, encoding="utf-8")


def columns_measured() -> Iterator[Tuple[str, float]]:
    """Claims and their months in Python, from lists of dates and words: at once as columns, and one by one."""
    claims = [record.claim for record in ClaimFile.read("load.claims").records()]
    columns = {name: [getattr(claim, name) for claim in claims] for name in COLUMNS}
    columns.update(status=[claim.status_word for claim in claims], code=[claim.code_word for claim in claims])
    start = time.monotonic()
    found = Claims(**columns)
    yield "`Claims` as columns", time.monotonic() - start
    start = time.monotonic()
    for row in zip(*columns.values()):
        Claim(*row)
    yield "the same as `Claim`s", time.monotonic() - start
    start = time.monotonic()
    months = len(listings(found, *WINDOW).claim)
    yield f"`listings` of them, {months:,} months", time.monotonic() - start


def measured(words: List[str]) -> Tuple[float, float]:
    """Wall time and peak of resident memory of a command."""
    start = time.monotonic()
    run = subprocess.Popen([sys.executable, str(HERE / "ltd.py"), *words], stdout=subprocess.DEVNULL)
    _, status, usage = os.wait4(run.pid, 0)
    if status != 0:
        sys.exit(f"'./ltd {' '.join(words)}' ended in {status}")
    return time.monotonic() - start, usage.ru_maxrss / 1000


if __name__ == "__main__":
    sys.exit(main(int(sys.argv[1]) if len(sys.argv) > 1 else 500_000))
