"""What the tests share: random claims and rates, files of them, and the command run as a user runs it."""

import argparse
import csv
import hashlib
import io
import os
import random
import subprocess
import sys
import tempfile
import time
import unittest
from contextlib import redirect_stderr, redirect_stdout
from datetime import date, timedelta
from pathlib import Path
from typing import Any, Callable, Dict, Iterable, List, NamedTuple, Optional, Sequence, Set, Tuple

from ltd_study import Claim, ClaimFile, NoDate, Rates, write_claims
from ltd_study.claim import COLUMNS
from ltd_study.dates import FIRST, LAST
from ltd_study.desk.command import main, parser
from ltd_study.desk.whole_files import forget_inputs
from ltd_study.rates import DURATIONS

ROOT = Path(__file__).resolve().parents[2]
LTD = ROOT / "python" / "ltd.py"
PORTFOLIO = ROOT / "examples" / "portfolio"
SECOND_STUDY = Path(os.environ.get("LTD_SECOND_STUDY", ROOT / "target" / "second" / "release" / "second_study"))
WINDOW = (date(2009, 1, 1), date(2017, 12, 31))
LONGEST_RUN = 120


def commands(of: Optional[argparse.ArgumentParser] = None, words: Tuple[str, ...] = ()) -> Dict[str, argparse.ArgumentParser]:
    """Every command of ./ltd by its words, with its parser."""
    of = of or parser()
    kinds = [action for action in of._actions if isinstance(action, argparse._SubParsersAction)]  # pylint: disable=protected-access
    if not kinds:
        return {" ".join(words): of}
    return {name: found for kind in kinds for word, own in kind.choices.items() for name, found in commands(own, (*words, word)).items()}


def with_option(option: str) -> Set[str]:
    """The commands that have an option."""
    return {name for name, found in commands().items() if option in found._option_string_actions}  # pylint: disable=protected-access


class Ended(NamedTuple):
    """What a run of the command left."""

    status: int
    out: str
    err: str


class DeskTest(unittest.TestCase):
    """A test with a folder of its own."""

    def setUp(self) -> None:
        folder = tempfile.TemporaryDirectory()
        self.addCleanup(folder.cleanup)
        self.folder = Path(folder.name)
        # A file of an earlier test may have had the same inode.
        forget_inputs()

    def ltd(self, *words: object, status: int = 0) -> Ended:
        """Runs the command in the test's folder, within this process; its status must be the one given."""
        out, err = (io.TextIOWrapper(io.BytesIO(), encoding="utf-8") for _ in range(2))
        before = os.getcwd()
        os.chdir(self.folder)
        try:
            with redirect_stdout(out), redirect_stderr(err):
                found = main([str(word) for word in words])
        except SystemExit as ended:
            found = int(ended.code or 0)
        finally:
            os.chdir(before)
        texts = []
        for stream in (out, err):
            stream.flush()
            texts.append(stream.buffer.getvalue().decode())  # type: ignore[attr-defined]
        self.assertEqual(found, status, texts)
        return Ended(found, *texts)

    def process(self, *words: object, status: Optional[int] = 0, env: Optional[Dict[str, str]] = None) -> Ended:
        """Runs what ./ltd runs in the test's folder, as a user does; its status must be the one given."""
        run = subprocess.run(
            [sys.executable, str(LTD), *map(str, words)],
            cwd=self.folder,
            capture_output=True,
            env={**os.environ, **(env or {})},
            stdin=subprocess.DEVNULL,
            timeout=LONGEST_RUN,
            check=False,
        )
        ended = Ended(run.returncode, run.stdout.decode(), run.stderr.decode())
        if status is not None:
            self.assertEqual(ended.status, status, ended)
        return ended

    def file(self, name: str, data: "bytes | str") -> Path:
        """A file in the test's folder."""
        path = self.folder / name
        path.write_bytes(data.encode() if isinstance(data, str) else data)
        return path

    def names(self) -> List[str]:
        """What is in the folder, hidden files too."""
        return sorted(os.listdir(self.folder))

    def packed(self, claims: Iterable[Claim], window: Sequence[object] = WINDOW, name: str = "x.claims") -> Path:
        """A claim file in the test's folder."""
        return self.file(name, claim_file(claims, window).data)

    def belongs(self, name: str) -> None:
        """Says of what stands beside a claim file that it is of this file, as 'pack --map' does."""
        self.file(f"{name}.how.toml", f'sha256 = "{hashlib.sha256((self.folder / name).read_bytes()).hexdigest()}"\n')

    def example(self) -> None:
        """The portfolio's files, packed by the command."""
        window = ("--window", "2010-03-01", "2014-12-31")
        for name in ("claims", "affiliate", "faulty"):
            self.ltd("pack", PORTFOLIO / f"{name}.csv", f"{name}.claims", *window)
        self.ltd("rates", "pack", PORTFOLIO / "rates.csv", "rates.bin")


def least_time(work: Callable[[], Any], tries: int = 3) -> Tuple[float, Any]:
    """The least of the processor's own time that work took, and what it gave: other work on the machine makes it seem longer."""
    taken = []
    for _ in range(tries):
        start = time.process_time()
        found = work()
        taken.append(time.process_time() - start)
    return min(taken), found


def claim_file(claims: Iterable[Claim], window: Sequence[object] = WINDOW) -> ClaimFile:
    """The claim file of some claims."""
    out = io.BytesIO()
    write_claims(out, *window, (claim.record for claim in claims))  # type: ignore[arg-type]
    return ClaimFile(out.getvalue())


def claims_csv(claims: Iterable[Claim], columns: Sequence[str] = COLUMNS) -> str:
    """Claims as a user's CSV, written without the desk's own writer."""
    text = io.StringIO()
    out = csv.writer(text)
    out.writerow(columns)
    for claim in claims:
        fields = {name: getattr(claim, name) for name in COLUMNS}
        fields.update(status=claim.status_word, code=claim.code_word)
        out.writerow("" if fields[name] is None else str(fields[name]) for name in columns)
    return text.getvalue()


def any_day(rng: random.Random, first: date, last: date) -> date:
    """A day from first to last."""
    return first + timedelta(days=rng.randint(0, (last - first).days))


def sound_claim(rng: random.Random, number: int, cells: int = 2) -> Claim:
    """A claim that a study takes, near the window or far from it, with all codes and edges of months."""
    disability = any_day(rng, date(1995, 1, 1), date(2018, 12, 31)) if rng.random() < 0.9 else any_day(rng, FIRST, date(2090, 1, 1))
    bcd = disability + timedelta(days=rng.choice([15, 30, 44, 45, 90, 90, 180, rng.randint(15, 400)]))
    maximum = bcd + timedelta(days=rng.randint(0, 4000)) if rng.random() < 0.5 and bcd.year < 2088 else None
    kept = {"maximum": maximum, "cell": rng.randrange(cells), "benefit": rng.choice([0, 1, 25, 200, rng.randint(0, 200)])}
    if rng.random() < 0.4:
        return Claim(number, disability, bcd, **kept)  # type: ignore[arg-type]
    termination = min(LAST, bcd + timedelta(days=rng.choice([0, 6, 27, 30, rng.randint(0, 3000)])))
    return Claim(number, disability, bcd, termination, status=1, code=rng.randint(1, 6), **kept)  # type: ignore[arg-type]


def sound_claims(rng: random.Random, count: int, cells: int = 2) -> List[Claim]:
    """Claims that a study takes; some numbers stand twice."""
    return [sound_claim(rng, rng.randint(1, 2 * count), cells) for _ in range(count)]


def any_claim(rng: random.Random, number: int, cells: int) -> Claim:
    """A claim with a fault, more often than not."""
    sound = sound_claim(rng, number, cells)
    fields = {name: getattr(sound, name) for name in COLUMNS}
    for _ in range(rng.choice([0, 1, 1, 1, 2])):
        name, value = rng.choice(
            [
                ("disability", NoDate(2001, 2, 29)),
                ("bcd", date(1949, 12, 31)),
                ("termination", None),
                ("termination", any_day(rng, date(1990, 1, 1), date(2020, 1, 1))),
                ("maximum", NoDate(2010, 13, 1)),
                ("status", rng.choice([0, 1, 2, 255])),
                ("code", rng.choice([0, 6, 7, 255])),
                ("disability", fields["bcd"] - timedelta(days=rng.randint(-3, 14)) if isinstance(fields["bcd"], date) else None),
                ("cell", rng.choice([cells, 255, 1023, 65535])),
                ("benefit", rng.choice([201, 255])),
            ]
        )
        fields[name] = value
    return Claim(**fields)


def any_rates(rng: random.Random, cells: int = 2) -> Rates:
    """A sound table; a rate of 0 and a pair that is 1,000,000 together are in it."""
    table = []
    for _ in range(cells):
        recovery = [rng.choice([0, rng.randint(0, 60_000), rng.randint(0, 900_000)]) for _ in range(DURATIONS)]
        death = [rng.choice([0, 1_000_000 - rate, rng.randint(0, min(30_000, 1_000_000 - rate))]) for rate in recovery]
        table.append((recovery, death))
    return Rates.of_cells(table)


def any_cuts(rng: random.Random, first: date, last: date) -> List[date]:
    """The last days of some parts of a window, in no order; some are one day long."""
    days = {any_day(rng, first, last - timedelta(days=1)) for _ in range(rng.randint(1, 12))}
    days |= {day + timedelta(days=1) for day in list(days) if rng.random() < 0.3 and day + timedelta(days=1) < last}
    found = list(days)
    rng.shuffle(found)
    return found
