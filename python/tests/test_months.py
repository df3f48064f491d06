"""months: the listing of one claim, with the rule that decided each part month."""

import csv
import io
import random
from datetime import date, timedelta

from ltd_study import Claim, listing
from ltd_study.desk.month_rules import claim_month, explain

from .support import WINDOW, DeskTest, any_day, sound_claim


class Rules(DeskTest):
    """The rule's own result is the engine's."""

    def test_random_claims_and_windows(self) -> None:
        rng = random.Random(30)
        part_months = 0
        for i in range(1500):
            claim = sound_claim(rng, i)
            first = any_day(rng, date(1995, 1, 1), date(2019, 1, 1))
            last = first + timedelta(days=rng.choice([0, 1, 27, 364, 3000]))
            for window in ((first, last), (claim.bcd, last), (first, claim.termination or last)):
                if window[0] <= window[1]:  # type: ignore[operator]
                    # Explaining raises where the rule and the listing differ.
                    months = explain(claim, *window).months  # type: ignore[arg-type]
                    self.assertEqual([month.record for month in months], listing(claim, *window))
                    part_months += sum(month.rule != "a full month" for month in months)
        self.assertGreater(part_months, 500)

    def test_claim_months(self) -> None:
        self.assertEqual(claim_month(date(2011, 1, 29), 2), (date(2011, 2, 26), date(2011, 3, 28)))
        self.assertEqual(claim_month(date(2011, 1, 26), 2), (date(2011, 2, 26), date(2011, 3, 25)))
        self.assertEqual(claim_month(date(2099, 12, 31), 1), (date(2099, 12, 31), date(2100, 1, 30)))

    def test_the_last_month_of_the_calendar(self) -> None:
        for day in (1, 26, 27, 31):
            claim = Claim(1, date(2090, 1, 1), date(2090, 12, day))
            self.assertEqual(explain(claim, date(2090, 1, 1), date(2099, 12, 31)).months[-1].record.last, date(2099, 12, 31))

    def test_words(self) -> None:
        settled = Claim(1, "2010-11-12", "2011-02-10", "2011-02-16", status=1, code=3)
        for window, thirtieths, rule in (
            ((date(2011, 1, 1), date(2011, 12, 31)), 7, "closed before day 27: U = 7 days from 2011-02-10 on"),
            ((date(2011, 1, 1), date(2011, 2, 15)), 8, "window ends 22 days before 2011-03-09: U = 30 - 22"),
            (
                (date(2011, 2, 16), date(2011, 12, 31)),
                -1,
                "closed before day 27: U = 7 days from 2011-02-10 on; began 2011-02-10, before the window: B = 30 - 22 days up to 2011-03-09",
            ),
        ):
            month = explain(settled, *window).months[0]
            self.assertEqual((month.record.thirtieths, month.upper - month.lower, month.rule), (thirtieths, thirtieths, rule))
        late = Claim(1, "2007-10-12", "2008-01-10", "2012-03-29", status=1, code=3)
        self.assertEqual(explain(late, *WINDOW).months[-1].rule, "closed on day 29, 27 or later: U = 30 - 11 days left to 2012-04-09")
        dead = Claim(1, "2007-10-12", "2008-01-10", "2012-03-29", status=1, code=2)
        self.assertEqual(explain(dead, *WINDOW).months[-1].rule, "closed by death: U = 30, the whole month")
        limited = Claim(1, "2010-10-02", "2011-01-01", "2011-01-31", status=1, code=5)
        self.assertEqual(explain(limited, *WINDOW).months[-1].rule, "closed on day 31, 27 or later: U = 30 - 0 days left to 2011-01-31")


class Output(DeskTest):
    """What the command prints."""

    def setUp(self) -> None:
        super().setUp()
        self.example()

    def test_a_month_of_minus_one(self) -> None:
        text = self.ltd("months", "claims.claims", 1, 2).out
        self.assertIn("Claim 1002, block 1, place 2: closed, cell 0, benefit 18\n", text)
        self.assertRegex(text, r"\n +9  2010-03-01  2010-03-01 +-1  settlement  closed before day 27: U = 20 days from 2010-02-10 on; began 2010-02-10")
        self.assertIn("elimination period 90 days, first duration 4", text)

    def test_a_reclassed_max_out(self) -> None:
        text = self.ltd("months", "claims.claims", 1, 4).out
        self.assertIn("closed 2013-05-20 with code recovery, maximum 2013-06-30\n", text)
        self.assertIn("category max-out: closed 41 days before the maximum date, which is 45 days or less\n", text)
        self.assertIn("category recovery\n", self.ltd("months", "claims.claims", 1, 5).out)

    def test_another_window_and_csv(self) -> None:
        words = ("months", "claims.claims", 1, 3, "--csv", "--window")
        for window, want in ((("2010-03-01", "2011-02-15"), ["8"]), (("2011-02-16", "2014-12-31"), ["-1"]), (("2014-01-01", "2014-12-31"), [])):
            rows = list(csv.DictReader(io.StringIO(self.ltd(*words, *window).out)))
            self.assertEqual([row["thirtieths"] for row in rows], want)
            self.assertTrue(all(int(row["u"]) - int(row["b"]) == int(row["thirtieths"]) for row in rows))
        self.assertIn("No months of exposure in the window.", self.ltd("months", "claims.claims", 1, 3, "--window", "2014-01-01", "2014-12-31").out)

    def test_places_that_are_not_there(self) -> None:
        for block, place, message in (
            (9, 1, "there is no claim block 9: the file has claim blocks 1 to 4"),
            (0, 1, "there is no claim block 0: the file has claim blocks 1 to 4"),
            (4, 3, "there is no place 3 in block 4: it has 2 claims"),
            (1, 0, "there is no place 0 in block 1: it has 15 claims"),
        ):
            self.assertEqual(self.ltd("months", "claims.claims", block, place, status=2).err, f"ltd: {message}\n")
        self.ltd("months", "claims.claims", "one", 1, status=2)

    def test_claims_by_number(self) -> None:
        self.assertEqual(self.ltd("months", "claims.claims", "--number", 1003).out, self.ltd("months", "claims.claims", 1, 3).out)
        twice = "claim number 1006 stands 2 times: name one by block 1, place 6 and block 4, place 1"
        for number, message in ((77, "there is no claim number 77"), (1006, twice)):
            self.assertEqual(self.ltd("months", "claims.claims", "--number", number, status=2).err, f"ltd: {message}\n")
        for words in ((), (1,), (1, 2, "--number", 1003), (1, "--number", 1003), ("--number", "-1"), ("--number", "4294967296")):
            ended = self.ltd("months", "claims.claims", *words, status=2)
            self.assertTrue(ended.err.startswith("usage: ltd months"), ended)
        self.packed([self.rows_of(9)] * 40)
        message = self.ltd("months", "x.claims", "--number", 9, status=2).err
        self.assertIn("stands 40 times: name one by block 1, place 1 and", message)
        self.assertTrue(message.endswith("block 1, place 5 and 35 more\n"), message)

    def rows_of(self, number: int) -> Claim:
        """A sound claim of a number."""
        return sound_claim(random.Random(number), number)

    def test_refused_claims(self) -> None:
        words = "BCD 2010-01-18 is 14 days after disability 2010-01-04, and 15 are the fewest"
        for named in ((1, 6), ("--number", 9006)):
            ended = self.ltd("months", "faulty.claims", *named, status=1)
            self.assertEqual(ended.err, f"ltd: 'faulty.claims': refused 5 (short elimination) at block 1, place 6: {words}\n")
        ended = self.ltd("months", "claims.claims", 1, 1, "--window", "2012-01-01", "2011-01-01", status=1)
        self.assertIn("refused 1 (window)", ended.err)
