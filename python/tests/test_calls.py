"""The package's calls: document 01's marked figures, document 02's requests, and what is refused."""

import doctest
import importlib
import pkgutil
import random
import unittest
from datetime import date, timedelta
from typing import Callable, List

import ltd_study
from ltd_study import (
    Claim,
    NoDate,
    Rates,
    Refused,
    Study,
    factor,
    listing,
    load,
    reserve_factor,
    reserve_limit,
    small_company,
    valuation_rate,
    wanted_count,
)
from ltd_study.claim import RECORD_LENGTH

from .support import WINDOW, any_rates, sound_claims

RATES = Rates.flat(10_000, 5_000)
ONE = 1_000_000


def closed(code: str, bcd: str, termination: str, maximum: "str | None" = None, elimination: int = 90) -> Claim:
    """A closed claim with an elimination period."""
    disability = date.fromisoformat(bcd) - timedelta(days=elimination)
    return Claim(1, disability, bcd, termination, maximum, "closed", code)


def opened(bcd: str, elimination: int = 90) -> Claim:
    """An open claim with an elimination period."""
    return Claim(1, date.fromisoformat(bcd) - timedelta(days=elimination), bcd)


def thirtieths(claim: Claim) -> List[int]:
    """Of each month in the usual window."""
    return [month.thirtieths for month in listing(claim, *WINDOW)]


class MarkedFigures(unittest.TestCase):
    """Document 01's figures, through the package."""

    def refused(self, number: int, call: Callable[..., object], *arguments: object) -> None:
        """Expects a refusal."""
        with self.assertRaises(Refused) as caught:
            call(*arguments)
        self.assertEqual((caught.exception.number, caught.exception.word), (number, ltd_study.WORDS[number]))

    def test_dates(self) -> None:
        listing(opened("2000-05-29", 90), *WINDOW)
        self.refused(2, listing, Claim(1, NoDate(2001, 2, 29), "2001-06-01"), *WINDOW)

    def test_months_relative_to_the_end(self) -> None:
        starts = [str(month.first) for month in listing(opened("2011-01-29"), *WINDOW)[1:4]]
        self.assertEqual(starts, ["2011-02-26", "2011-03-29", "2011-04-28"])

    def test_first_durations(self) -> None:
        found = [listing(opened("2011-01-10", days), *WINDOW)[0].duration for days in (15, 44, 45, 90, 180)]
        self.assertEqual(found, [2, 2, 3, 4, 7])
        self.refused(5, listing, opened("2011-01-10", 14), *WINDOW)

    def test_exposure(self) -> None:
        months = thirtieths(opened("2008-01-10"))
        self.assertEqual((months[0], months[-1], sum(months)), (9, 21, 3_240))
        self.assertEqual(thirtieths(closed("settlement", "2008-01-10", "2012-05-20"))[-1], 11)
        self.assertEqual(thirtieths(closed("settlement", "2008-01-10", "2012-03-29"))[-1], 19)
        months = thirtieths(opened("2008-06-28"))
        self.assertEqual((months[0], months[-1]), (28, 2))

    def test_a_month_of_minus_one(self) -> None:
        claim = closed("settlement", "2011-02-10", "2011-02-16")
        self.assertEqual(thirtieths(claim), [7])
        parts = [listing(claim, WINDOW[0], "2011-02-15"), listing(claim, "2011-02-16", WINDOW[1])]
        self.assertEqual([[month.thirtieths for month in part] for part in parts], [[8], [-1]])

    def test_max_out_near_the_maximum_date(self) -> None:
        for days, word in ((45, "max-out"), (46, "recovery")):
            maximum = str(date(2012, 4, 29) + timedelta(days=days))
            self.assertEqual(listing(closed("recovery", "2009-06-11", "2012-04-29", maximum), *WINDOW)[-1].category_word, word)

    def test_factors(self) -> None:
        self.assertEqual(factor(2, 0, 24_750_000_000).z, 500_000)
        self.assertEqual([factor(2, 0, e).z for e in (99_000_000_000, 98_999_999_999)], [ONE, 999_999])
        self.assertEqual(factor(2, 1_000, 0).m, 95_143)
        for group in (0, 6, 255):
            self.refused(12, factor, group, 0, 0)
        self.refused(12, factor, 2, 500_001, 0)

    def test_reserve_factor(self) -> None:
        half = Rates.flat(300_000, 200_000)
        self.assertEqual(reserve_factor(half, 0, 30, [ONE] * 5, 2, 0.5), 0.3125)
        for v in (0.0, -0.5, 1.5, float("nan")):
            self.refused(13, reserve_factor, half, 0, 30, [ONE] * 5, 2, v)
        self.refused(12, reserve_factor, half, 0, 30, [ONE] * 5, 481, 0.5)
        self.refused(7, reserve_factor, half, 1, 30, [ONE] * 5, 2, 0.5)

    def test_the_example_table(self) -> None:
        study = Study.open(*WINDOW)
        study.add(closed("recovery", "2009-06-11", "2012-04-29"), RATES)
        rows = [(*study.groups[i], study.factor(i + 1).t) for i in range(5)]
        self.assertEqual(rows[1], (630, 0, 0, 0, 0, 0, 6_300_000, 3_150_000, 990_230))
        self.assertEqual(rows[2], (420, 1, 0, 0, 0, 0, 4_200_000, 2_100_000, 1_027_931))
        self.assertTrue(all(rows[i] == (0,) * 8 + (ONE,) for i in (0, 3, 4)))
        self.assertEqual(study.groups[2].months, 14.0)
        self.assertEqual(study.groups[2].actual_to_expected, 30_000_000 / 6_300_000)
        self.assertIsNone(study.groups[0].actual_to_expected)


class Requests(unittest.TestCase):
    """Document 02's calls."""

    def test_withdrawn_claims_leave_no_trace(self) -> None:
        rng = random.Random(10)
        rates, claims = any_rates(rng), sound_claims(rng, 60)
        kept, study = Study.open(*WINDOW), Study.open(*WINDOW)
        for i, claim in enumerate(claims):
            study.add(claim, rates)
            if i % 3:
                kept.add(claim, rates)
        for claim in claims[::3]:
            study.withdraw(claim, rates)
        self.assertEqual(study, kept)
        self.assertEqual(Study.open(*WINDOW).try_withdraw(claims[0], rates), 18)

    def test_joined_studies_are_the_study_of_both_lists(self) -> None:
        rng = random.Random(3)
        rates, claims = any_rates(rng), sound_claims(rng, 80)
        whole, halves = Study.open(*WINDOW), [Study.open(*WINDOW), Study.open(*WINDOW)]
        for i, claim in enumerate(claims):
            whole.add(claim, rates)
            halves[i % 2].add(claim, rates)
        halves[0].join(halves[1])
        self.assertEqual(halves[0], whole)
        self.assertEqual(whole.copy(), whole)
        twice = whole.copy()
        twice.join(twice)
        self.assertEqual(twice.numbers[2:], [2 * number for number in whole.numbers[2:]])
        with self.assertRaises(Refused) as caught:
            whole.join(Study.open(WINDOW[0], "2017-12-30"))
        self.assertEqual((caught.exception.number, caught.exception.word), (15, "other window"))
        full = Study([*whole.numbers[:2], 499_950, *whole.numbers[3:]])
        with self.assertRaisesRegex(Refused, r"^refused 9 \(full\)$"):
            full.join(whole)

    def test_a_full_study(self) -> None:
        numbers = Study.open(*WINDOW).numbers
        numbers[2] = 500_000
        self.assertEqual(Study(numbers).try_add(opened("2010-01-10"), RATES), 9)

    def test_many_additions_answer_their_numbers(self) -> None:
        claims = [opened("2010-01-10"), opened("2010-01-10", 14), Claim(1, "2010-01-01", "2010-04-01", benefit=201)]
        study = Study.open(*WINDOW)
        self.assertEqual(study.add_all([*claims, claims[0]], RATES), [0, 5, 16, 0])
        self.assertEqual(study.claims_taken, 2)

    def test_weighted_sums(self) -> None:
        study = Study.open(*WINDOW)
        for benefit in (0, 1, 25):
            study.add(Claim(1, "2009-03-13", "2009-06-11", "2012-04-29", status=1, code=1, benefit=benefit), RATES)
        self.assertEqual(study.weighted[2].recovery, 27)
        self.assertEqual(study.weighted[1].thirtieths, 27 * 630)

    def test_wanted_counts(self) -> None:
        rng = random.Random(11)
        for _ in range(50):
            group, expected, wanted = rng.randint(2, 5), rng.randint(1, 10**13), rng.randint(900_000, 1_500_000)
            try:
                count = wanted_count(group, expected, wanted)
            except Refused as refused:
                self.assertEqual(refused.number, 19)
                self.assertLess(factor(group, 500_000, expected).t, wanted)
                continue
            self.assertGreaterEqual(factor(group, count, expected).t, wanted)
            if count:
                self.assertLess(factor(group, count - 1, expected).t, wanted)

    def test_valuation_rates(self) -> None:
        self.assertEqual(valuation_rate(RATES, 0, 1_100_000, 30), 16_500)
        for cell, duration, number in ((1, 30, 7), (0, 1, 12), (0, 481, 12)):
            with self.assertRaises(Refused) as caught:
                valuation_rate(RATES, cell, ONE, duration)
            self.assertEqual(caught.exception.number, number)
        with self.assertRaisesRegex(Refused, "rate table"):
            valuation_rate(Rates([1, 2, 3]), 0, ONE, 30)

    def test_reserve_limits(self) -> None:
        high = [ONE, ONE, 1_400_000, 1_500_000, 1_600_000]
        limited = reserve_limit(RATES, [(0, 30, 120), (0, 200, 60)], high, 10, 0.99)
        self.assertEqual(limited.t, (ONE, ONE, 1_300_000, 1_300_000, 1_300_000))
        self.assertLess(limited.given, limited.replaced)
        self.assertEqual(reserve_limit(RATES, [(0, 30, 120)], high, 5_000, 0.99).t[2], 1_400_000)
        self.assertEqual(reserve_limit(RATES, [], high, 10, 0.99), (tuple(high), 0.0, 0.0))
        with self.assertRaisesRegex(Refused, "17 .open claims"):
            reserve_limit(RATES, [(0, 24, 120)], high, 10, 0.99)
        # As one list these would be read as other claims.
        for claims in ([(0, 30), (120, 0, 200, 60)], [(0, 30, 120, 0)], [()], [7], ["abc"], [(0, 30, 120), None]):
            with self.assertRaises(ValueError) as caught:
                reserve_limit(RATES, claims, high, 10, 0.99)  # type: ignore[arg-type]
            self.assertNotIsInstance(caught.exception, Refused)
        self.assertEqual(reserve_limit(RATES, [[0, 30, 120]], high, 10, 0.99).t[2], 1_300_000)  # type: ignore[list-item]

    def test_small_companies(self) -> None:
        recent = [Claim(i, "2015-06-01", "2015-08-30") for i in range(50)]
        new, old = [ONE, ONE, 1_200_000, ONE, ONE], [ONE] * 5
        self.assertEqual(small_company("2016-12-31", recent[:49], new, old), (True, 49, 0, 0, (ONE,) * 5))
        self.assertEqual(small_company("2016-12-31", recent, new, old), (False, 50, 0, 3, tuple(new)))
        self.assertEqual(small_company("2017-06-02", recent, new, old)[:3], (True, 0, 50))
        with self.assertRaisesRegex(Refused, "date"):
            small_company(NoDate(2016, 2, 30), recent, new, old)

    def test_a_load_that_anyone_can_rebuild(self) -> None:
        x = 2_147_483_646
        for number, claim in enumerate(load(x, 200), 1):
            draws = []
            for _ in range(5):
                x = 48_271 * x % 2_147_483_647
                draws.append(x)
            disability = date(1950, 1, 1) + timedelta(days=draws[0] % 20_000)
            bcd = disability + timedelta(days=15 + draws[1] % 351)
            ended = (bcd + timedelta(days=draws[3] % 4_000), 1, 1 + draws[4] % 5) if draws[2] % 2 else (None, 0, 0)
            self.assertEqual(claim, Claim(number, disability, bcd, ended[0], None, ended[1], ended[2]))
        self.assertEqual(list(load(1, 0)), [])
        for seed, size in ((0, 1), (2_147_483_647, 1), (0, 0), (1, 500_001)):
            with self.assertRaisesRegex(Refused, "20 .load"):
                load(seed, size)


class Values(unittest.TestCase):
    """What the package's own types take."""

    def test_records_and_back(self) -> None:
        rng = random.Random(1)
        for claim in sound_claims(rng, 200):
            self.assertEqual(len(claim.record), RECORD_LENGTH)
            self.assertEqual(Claim.of_record(claim.record), claim)
        odd = Claim(4_294_967_295, NoDate(2001, 2, 29), None, NoDate(65535, 255, 255), date(9999, 12, 31), 255, 255, 65535, 255)
        self.assertEqual(Claim.of_record(odd.record), odd)

    def test_values_that_c_would_cut(self) -> None:
        for wrong in (
            lambda: Claim(2**32, "2010-01-01", "2010-04-01"),
            lambda: Claim(1, "2010-01-01", "2010-04-01", cell=65_536),
            lambda: Claim(1, "2010-01-01", "2010-04-01", status="ajar"),
            lambda: Claim(1, "2010-1-1", "2010-04-01"),
            lambda: Claim(1, 20100101, "2010-04-01"),  # type: ignore[arg-type]
            lambda: Rates([-1]),
            lambda: Rates([2**32]),
            lambda: Rates.of_cells([([1], [2])]),
            lambda: Study([0] * 82),
            lambda: Study([2**63] + [0] * 82),
            lambda: factor(257, 0, 0),
            lambda: factor(2, 2**32, 0),
            lambda: factor(2, 0, 2**63),
            lambda: valuation_rate(RATES, 2**32, ONE, 30),
            lambda: reserve_factor(RATES, 0, 30, [ONE] * 4, 2, 0.5),
            lambda: Study.open(*WINDOW).add(b"short", RATES),
            lambda: load(-1, 10),
        ):
            with self.assertRaises(ValueError) as caught:
                wrong()
            self.assertNotIsInstance(caught.exception, Refused)

    def test_windows(self) -> None:
        for window in (("2017-12-31", "2009-01-01"), ("1949-12-31", "2009-01-01"), (None, "2009-01-01"), ("2009-01-01", "2100-01-01")):
            with self.assertRaises(Refused) as caught:
                Study.open(*window)
            self.assertEqual((caught.exception.number, caught.exception.word, caught.exception.where), (1, "window", ""))
        study = Study.open("1950-01-01", "2099-12-31")
        self.assertEqual((study.first, study.last, repr(study)), (date(1950, 1, 1), date(2099, 12, 31), "<Study of 1950-01-01 to 2099-12-31: 0 claims>"))

    def test_rates(self) -> None:
        rates = any_rates(random.Random(2), 3)
        self.assertEqual(Rates.of_bytes(rates.to_bytes()), rates)
        self.assertEqual(rates.recovery(2, 480), rates.recovery(2, 700))
        self.assertEqual((rates.cells, rates.unsound_cells), (3, []))
        numbers = list(rates.numbers)
        numbers[958] = numbers[958 + 479] = 600_000
        self.assertEqual(Rates(numbers).unsound_cells, [1])
        self.assertEqual(len(Rates.of_bytes(b"12345")), 0)
        with self.assertRaises(IndexError):
            rates.death(3, 2)

    def test_examples_of_the_documentation(self) -> None:
        attempted = 0
        for module in pkgutil.walk_packages(ltd_study.__path__, "ltd_study."):
            result = doctest.testmod(importlib.import_module(module.name))
            self.assertEqual(result.failed, 0, module.name)
            attempted += result.attempted
        self.assertGreater(attempted, 5)

    def test_everything_public_is_explained(self) -> None:
        for name in ltd_study.__all__:
            thing = getattr(ltd_study, name)
            self.assertTrue(thing.__doc__, name)
