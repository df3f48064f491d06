"""Claims as columns, and the values of numpy and pandas: stand-ins that behave as theirs do, since neither has to be installed."""

import random
import unittest
from array import array
from datetime import date, datetime
from typing import Any, Callable, Dict, Iterator, List, Optional, Tuple

from ltd_study import Claim, ClaimFile, Claims, NoDate, Rates, Refused, Study, factor, file_study, listing, listings, load, small_company
from ltd_study.claim import COLUMNS
from ltd_study.dates import is_missing, number_of, record_date

from .support import WINDOW, any_claim, any_rates, claim_file, least_time, sound_claims

ROWS = 500_000
MOST_SECONDS = 1.0
TIMES_QUICKER = 6
"""Half a million rows are asked for in a second where building as many claims takes six."""


class Whole:
    """An integer of numpy: no int, but with an index."""

    def __init__(self, number: int) -> None:
        self.number = number

    def __index__(self) -> int:
        return self.number


class Stamp:
    """A timestamp of pandas: a year, a month and a day among other things."""

    def __init__(self, text: str) -> None:
        when = datetime.fromisoformat(text)
        self.year, self.month, self.day, self.hour = when.year, when.month, when.day, when.hour


class NotATime:
    """NaT: not equal to itself, and without a day."""

    year = month = day = float("nan")

    def __eq__(self, other: object) -> bool:
        return False

    def __hash__(self) -> int:
        return 0

    def __str__(self) -> str:
        return "NaT"


class NotATimestamp(datetime):
    """NaT as it is made: a timestamp, on the first of all days."""

    __hash__ = datetime.__hash__

    def __eq__(self, other: object) -> bool:
        return False

    def __ne__(self, other: object) -> bool:
        return True


class NotAvailable:
    """NA of pandas: it can't be asked whether it is equal to anything."""

    def __ne__(self, other: object) -> Any:
        return self

    def __bool__(self) -> bool:
        raise TypeError("boolean value of NA is ambiguous")

    def __str__(self) -> str:
        return "<NA>"


class Kind:
    """The kind of an array's values: 'M' for times, 'i' for integers."""

    def __init__(self, kind: str) -> None:
        self.kind = kind


class Time64:
    """numpy's datetime64 in nanoseconds: as a plain value a number, and a date only when it is cast to days."""

    dtype = Kind("M")

    def __init__(self, text: str) -> None:
        self.text = text

    def astype(self, name: str) -> "Day64":
        """Cast to days."""
        assert name == "datetime64[D]"
        return Day64(self.text)


class Day64(Time64):
    """The same in days."""

    def item(self) -> date:
        """The date."""
        return date.fromisoformat(self.text)


class Array:
    """An array of numpy; one of times is a list of numbers, unless it is cast to days first."""

    def __init__(self, kind: str, values: List[Any]) -> None:
        self.dtype, self.values = Kind(kind), values

    def astype(self, name: str) -> "Array":
        """Times cast to days, which are listed as dates."""
        assert (self.dtype.kind, name) == ("M", "datetime64[D]")
        return Array("D", self.values)

    def tolist(self) -> List[Any]:
        """The values as Python's own."""
        return [hash(value) for value in self.values] if self.dtype.kind == "M" else self.values

    def __iter__(self) -> Iterator[Any]:
        raise AssertionError("an array is listed at once, not value by value")


class Series:
    """A data frame's column."""

    def __init__(self, values: Array) -> None:
        self.values = values

    def to_numpy(self) -> Array:
        """As an array."""
        return self.values


class Frame:
    """A data frame, as far as it is a mapping of columns."""

    def __init__(self, columns: "dict[str, Series]") -> None:
        self.columns = columns

    def keys(self) -> "List[str]":
        """The columns' names."""
        return list(self.columns)

    def __getitem__(self, name: str) -> Series:
        return self.columns[name]


def as_columns(claims: List[Claim]) -> "dict[str, list[Any]]":
    """The fields of claims, column by column."""
    return {name: [getattr(claim, name) for claim in claims] for name in COLUMNS}


def half_a_million() -> Tuple[List[date], List[str], List[Optional[date]], Dict[str, Any]]:
    """Days, the same as texts, those of closed claims, and the other columns by name."""
    days = [date(1990 + i % 20, 1 + i % 12, 1 + i % 28) for i in range(ROWS)]
    words = [("closed", "open")[i % 2] for i in range(ROWS)]
    closed = [None if i % 2 else day for i, day in enumerate(days)]
    others = {"status": words, "code": ["recovery"] * ROWS, "cell": array("H", bytes(2 * ROWS)), "benefit": [25] * ROWS}
    return days, list(map(str, days)), closed, others


class OtherValues(unittest.TestCase):
    """What numpy and pandas have for integers, dates and what is missing."""

    def test_a_claim(self) -> None:
        want = Claim(17, date(2009, 3, 13), date(2009, 6, 11), None, None, 1, 0, 3, 25)
        for missing in (NotATime(), float("nan"), None, NotAvailable()):
            dates = Stamp("2009-03-13 14:30"), Time64("2009-06-11"), missing, ""
            found = Claim(Whole(17), *dates, "closed", missing, Whole(3), Whole(25))  # type: ignore[arg-type]
            self.assertEqual((found, found.record), (want, want.record))
            self.assertTrue(all(type(getattr(found, name)) is int for name in ("number", "status", "code", "cell", "benefit")))
            self.assertIs(type(found.disability), date)
        self.assertEqual(Claim(1, datetime(2009, 3, 13, 8), "2009-06-11"), Claim(1, "2009-03-13", "2009-06-11"))

    def test_what_is_no_value(self) -> None:
        good = {"number": 1, "disability": "2010-01-01", "bcd": "2010-04-01"}
        for name, value, reason in (
            ("number", 1.0, "number must be a whole number from 0 to 4294967295, not 1.0"),
            ("number", float("nan"), "number must be a whole number"),
            ("benefit", Whole(256), "benefit must be a whole number from 0 to 255"),
            ("benefit", NotATime(), "benefit must be a whole number"),
            ("cell", "1", "cell must be a whole number"),
            ("status", None, "status must be a whole number"),
            ("status", "Closed", "status 'Closed' is none of open, closed"),
            ("code", "", "code '' is none of none, recovery"),
            ("bcd", Whole(20100401), "bcd: .* is no date, ISO text or None"),
            ("bcd", 20100401.0, "bcd: 20100401.0 is no date"),
            ("maximum", "04/01/2010", "maximum: '04/01/2010' is no date as 2011-02-28"),
        ):
            with self.assertRaisesRegex(ValueError, f"^{reason}"):
                Claim(**{**good, name: value})  # type: ignore[arg-type]

    def test_calls(self) -> None:
        rates = Rates.flat(10_000, 5_000)
        self.assertEqual(factor(Whole(2), Whole(1_000), Whole(99_000_000_000)), factor(2, 1_000, 99_000_000_000))  # type: ignore[arg-type]
        self.assertEqual(list(load(Whole(1), Whole(3))), list(load(1, 3)))  # type: ignore[arg-type]
        study = Study.open(Stamp("2010-01-01"), Time64("2014-12-31"))  # type: ignore[arg-type]
        self.assertEqual(study, Study.open("2010-01-01", "2014-12-31"))
        with self.assertRaisesRegex(Refused, "window"):
            Study.open("2010-01-01", NotATime())  # type: ignore[arg-type]
        claim = Claim(1, "2009-03-13", "2009-06-11")
        self.assertEqual(listing(claim, Stamp("2010-01-01"), "2014-12-31"), listing(claim, "2010-01-01", "2014-12-31"))  # type: ignore[arg-type]
        self.assertEqual(rates.numbers, Rates(map(Whole, rates.numbers)).numbers)  # type: ignore[arg-type]

    def test_missing_values(self) -> None:
        self.assertTrue(all(map(is_missing, (None, float("nan"), NotATime(), NotAvailable()))))
        self.assertFalse(any(map(is_missing, (0, "", "NaT", date(2010, 1, 1), Stamp("2010-01-01")))))
        self.assertEqual((number_of(NotATime()), record_date(NotATime())), (0, None))  # type: ignore[arg-type]
        self.assertEqual(record_date(NoDate(2001, 2, 29)), NoDate(2001, 2, 29))


class Columns(unittest.TestCase):
    """Claims from columns are those that are made one by one."""

    def setUp(self) -> None:
        rng = random.Random(9)
        self.claims = [any_claim(rng, rng.randrange(2**32), 70_000 if i % 9 == 0 else 3) for i in range(400) if i % 9 or i == 0]
        self.claims = [claim for claim in self.claims if claim.cell < 65_536]
        self.want = b"".join(claim.record for claim in self.claims)

    def test_lists_of_any_form(self) -> None:
        columns = as_columns(self.claims)
        self.assertEqual(Claims(**columns).data, self.want)
        self.assertEqual(Claims(**{name: iter(column) for name, column in columns.items()}).data, self.want)
        numbers: List[Callable[[int], Any]] = [int, Whole, lambda number: number]
        for i, name in enumerate(("number", "status", "code", "cell", "benefit")):
            columns[name] = [numbers[i % 3](number) for number in columns[name]]
        columns["number"] = array("I", columns["number"])  # type: ignore[assignment]
        self.assertEqual(Claims(**columns).data, self.want)

    def test_words_and_texts(self) -> None:
        claims = sound_claims(random.Random(10), 300)
        want = b"".join(claim.record for claim in claims)
        columns = as_columns(claims)
        for name in ("disability", "bcd", "termination", "maximum"):
            columns[name] = ["" if when is None else str(when) for when in columns[name]]
        columns["status"] = [claim.status_word for claim in claims]
        columns["code"] = [claim.code_word for claim in claims]
        self.assertEqual(Claims(**columns).data, want)
        columns["code"] = [None if claim.code == 0 else claim.code_word if i % 2 else claim.code for i, claim in enumerate(claims)]
        columns["status"][::2] = [claim.status for claim in claims[::2]]
        self.assertEqual(Claims(**columns).data, want)

    def test_a_frame(self) -> None:
        claims = sound_claims(random.Random(11), 300)
        columns = as_columns(claims)
        columns["number"] = list(map(Whole, columns["number"]))
        dated = ("disability", "bcd", "termination")
        frame = Frame({name: Series(Array("M" if name in dated else "i", columns[name])) for name in COLUMNS if name != "maximum"})
        want = b"".join(Claim(*[None if name == "maximum" else getattr(claim, name) for name in COLUMNS]).record for claim in claims)
        self.assertEqual(Claims(**frame).data, want)  # type: ignore[arg-type]
        self.assertEqual(Claims(**{name: frame[name].values for name in frame.keys()}).data, want)

    def test_stamps_and_what_is_missing(self) -> None:
        days = [Stamp("2010-03-04"), NotATime(), float("nan"), None, "", "2010-03-04", date(2010, 3, 4), NoDate(2001, 2, 29), Time64("2010-03-04")]
        count = len(days)
        found = Claims(range(count), ["2009-01-01"] * count, ["2009-04-01"] * count, days)
        self.assertEqual([found.claim(row).termination for row in range(5)], [date(2010, 3, 4), None, None, None, None])
        self.assertEqual([found.claim(row).termination for row in range(5, count)], [date(2010, 3, 4)] * 2 + [NoDate(2001, 2, 29), date(2010, 3, 4)])

    def test_a_list_of_timestamps(self) -> None:
        days = [datetime(2010, 3, 4, 23, 59), NotATimestamp(1, 1, 1), datetime(1, 1, 1), date(2010, 3, 4), NotATimestamp(1, 1, 1)]
        found = Claims(range(5), ["2009-01-01"] * 5, ["2009-04-01"] * 5, days)
        self.assertEqual([found.claim(row).termination for row in range(5)], [date(2010, 3, 4), None, date(1, 1, 1), date(2010, 3, 4), None])

    def test_defaults(self) -> None:
        found = Claims([5], ["2009-01-01"], ["2009-04-01"])
        self.assertEqual((len(found), found.claim(0), repr(found)), (1, Claim(5, "2009-01-01", "2009-04-01"), "<Claims: 1>"))
        self.assertEqual((len(Claims([], [], [])), list(Claims([], [], []))), (0, []))

    def test_what_is_no_column(self) -> None:
        good = {"number": [1, 2], "disability": ["2010-01-01"] * 2, "bcd": ["2010-04-01"] * 2}
        for name, column, reason in (
            ("number", [1, -1], "row 1: number must be a whole number from 0 to 4294967295, not -1"),
            ("number", [1, 2**32], "row 1: number must be"),
            ("number", [1, 2.0], "row 1: number must be a whole number .*, not 2.0"),
            ("number", "12", "number must be a column of values, not the one value '12'"),
            ("status", [1, 1.0], "row 1: status must be a whole number from 0 to 255, not 1.0"),
            ("status", [True, 1.0], "row 1: status must be"),
            ("status", ["open", "ajar"], "row 1: status 'ajar' is none of open, closed"),
            ("code", ["none", "recovered"], "row 1: code 'recovered' is none of none"),
            ("code", ["none", 256], "row 1: code must be"),
            ("cell", [65_536, 0], "row 0: cell must be"),
            ("benefit", [None, 1], "row 0: benefit must be"),
            ("bcd", ["2010-04-01", "4/1/2010"], "row 1: bcd: '4/1/2010' is no date as 2011-02-28"),
            ("bcd", ["2010-02-30", None], "row 0: bcd: '2010-02-30' is not in the calendar"),
            ("maximum", [None, 40_000], "row 1: maximum: 40000 is no date"),
            ("maximum", [None], "maximum has 1 rows, where number has 2"),
        ):
            with self.assertRaisesRegex(ValueError, f"^{reason}"):
                Claims(**{**good, name: column})  # type: ignore[arg-type]
        with self.assertRaisesRegex(TypeError, "^Claims has no column Region, region; it has number, disability"):
            Claims(**good, region=[1, 2], Region=[1, 2])

    def test_records(self) -> None:
        found = Claims.of_records(self.want)
        self.assertEqual(found, Claims(**as_columns(self.claims)))
        self.assertEqual(list(found), [claim.record for claim in self.claims])
        self.assertEqual([found.claim(row) for row in range(len(found))], self.claims)
        self.assertRaisesRegex(ValueError, "33 bytes are no records of 32", Claims.of_records, bytes(33))
        for row in (-1, len(found)):
            self.assertRaises(IndexError, found.claim, row)

    def test_half_a_million_within_a_second(self) -> None:
        days, texts, closed, others = half_a_million()
        seconds, found = least_time(lambda: Claims(range(ROWS), days, texts, closed, **others))
        self.assertLess(seconds, MOST_SECONDS)
        last = Claim(ROWS - 1, days[-1], days[-1], None, None, "open", "recovery", 0, 25)
        self.assertEqual((len(found), found.claim(ROWS - 1)), (ROWS, last))

    def test_half_a_million_six_times_quicker_than_one_by_one(self) -> None:
        days, texts, closed, others = half_a_million()

        def one_by_one() -> bytes:
            rows = zip(range(ROWS // 10), days, texts, closed, others["status"])
            return b"".join(Claim(i, day, text, end, None, word, "recovery", 0, 25).record for i, day, text, end, word in rows)

        tenth, records = least_time(one_by_one)
        seconds, found = least_time(lambda: Claims(range(ROWS), days, texts, closed, **others))
        self.assertLess(seconds * TIMES_QUICKER, tenth * 10)
        last = Claim(ROWS - 1, days[-1], days[-1], None, None, "open", "recovery", 0, 25)
        self.assertEqual((len(found), found.claim(ROWS - 1)), (ROWS, last))
        self.assertEqual(found.data[: len(records)], records)


class ColumnsInCalls(unittest.TestCase):
    """What takes claims takes columns of them."""

    def setUp(self) -> None:
        rng = random.Random(12)
        self.rates = any_rates(rng)
        self.claims = [any_claim(rng, i, 2) for i in range(300)]
        self.columns = Claims(**as_columns(self.claims))

    def test_studies(self) -> None:
        one, all_of_them = Study.open(*WINDOW), Study.open(*WINDOW)
        self.assertEqual(all_of_them.add_all(self.columns, self.rates), one.add_all(self.claims, self.rates))
        self.assertEqual(all_of_them, one)
        sound = sound_claims(random.Random(13), 200)
        file = ClaimFile.of(*WINDOW, Claims(**as_columns(sound)))
        self.assertEqual(file.data, claim_file(sound).data)
        self.assertEqual(ClaimFile.of(*WINDOW, sound).data, file.data)
        self.assertEqual(file_study(file, self.rates), file_study(claim_file(sound), self.rates))
        t = [1_000_000] * 5
        self.assertEqual(small_company("2016-12-31", Claims(**as_columns(sound)), t, t), small_company("2016-12-31", sound, t, t))

    def test_listings(self) -> None:
        found = listings(self.columns, *WINDOW)
        rows = list(zip(found.claim, found.duration, found.first, found.last, *found[5:]))
        self.assertEqual(len(found.refused), len(self.claims))
        wanted = []
        for row, claim in enumerate(self.claims):
            try:
                months = listing(claim, *WINDOW)
                self.assertEqual(found.refused[row], 0)
            except Refused as refused:
                months = []
                self.assertEqual(found.refused[row], refused.number)
            wanted += [(row, *month) for month in months]
        self.assertEqual(rows, wanted)
        self.assertTrue(wanted and any(found.refused))
        self.assertEqual(listings(self.claims, *WINDOW), found)

    def test_listings_of_no_window(self) -> None:
        self.assertRaisesRegex(Refused, "window", listings, self.columns, "2014-01-01", "2013-01-01")
        self.assertEqual(list(map(len, listings([], *WINDOW))), [0] * 8)
