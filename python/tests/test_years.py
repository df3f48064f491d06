"""years on random cuts against one study, and which part counts each closing."""

import csv
import io
import json
import random
from datetime import date, timedelta
from typing import List
from unittest import mock

from ltd_study import Study, file_study, listing
from ltd_study.desk import parts as cutting
from ltd_study.desk.parts import Divided, Part, calendar_years, cut
from ltd_study.desk.studies import MOST_CLOSINGS_SHOWN
from ltd_study.study import SUM_NAMES

from .support import WINDOW, DeskTest, any_cuts, any_rates, claim_file, sound_claims


class Cuts(DeskTest):
    """The parts of a window."""

    def test_calendar_years(self) -> None:
        parts = calendar_years(date(2010, 3, 1), date(2012, 2, 29))
        self.assertEqual([part.label for part in parts], ["2010-03-01 to 2010-12-31", "2011", "2012-01-01 to 2012-02-29"])
        self.assertEqual(len(calendar_years(date(1950, 1, 1), date(2099, 12, 31))), 150)
        self.assertEqual(calendar_years(date(2010, 3, 1), date(2010, 3, 1)), [(date(2010, 3, 1), date(2010, 3, 1))])

    def test_random_cuts_are_consecutive(self) -> None:
        rng = random.Random(12)
        for _ in range(100):
            parts = cut(*WINDOW, any_cuts(rng, *WINDOW))
            self.assertEqual((parts[0].first, parts[-1].last), WINDOW)
            self.assertTrue(all(earlier.last + timedelta(days=1) == later.first for earlier, later in zip(parts, parts[1:])))
            self.assertTrue(all(part.first <= part.last for part in parts))

    def test_days_that_end_no_part(self) -> None:
        for day in (WINDOW[1], WINDOW[0] - timedelta(days=1), WINDOW[1] + timedelta(days=1)):
            self.assertRaisesRegex(ValueError, f"no part can end on {day}", cut, *WINDOW, [day])
        self.assertRaisesRegex(ValueError, "given twice", cut, *WINDOW, [date(2010, 1, 1)] * 2)


class Years(DeskTest):
    """The command on random claims and cuts."""

    def setUp(self) -> None:
        super().setUp()
        self.rng = random.Random(1950)
        self.rates = any_rates(self.rng)
        self.file("r.bin", self.rates.to_bytes())

    def windows(self, cuts: List[date]) -> List[Part]:
        """The parts, worked out here."""
        ends = sorted(cuts) + [WINDOW[1]]
        starts = [WINDOW[0]] + [end + timedelta(days=1) for end in ends[:-1]]
        return [Part(*both) for both in zip(starts, ends)]

    def test_random_cuts_against_one_study(self) -> None:
        for corrected in (False, True, False):
            claims, cuts = sound_claims(self.rng, 150), any_cuts(self.rng, *WINDOW)
            self.packed(claims)
            words = ["years", "x.claims", "r.bin", "--json", *["--corrected"] * corrected, "--cut", *cuts]
            found = json.loads(self.ltd(*words).out)
            whole = file_study(claim_file(claims), self.rates, corrected)
            studies = [file_study(claim_file(claims, window), self.rates, corrected) for window in self.windows(cuts)]
            self.assertTrue(found["adds_up"])
            self.assertEqual([(part["first"], part["last"]) for part in found["parts"]], [tuple(map(str, part)) for part in self.windows(cuts)])
            self.assertEqual(found["claims_taken"], whole.claims_taken)
            for name, attribute in (("groups", "groups"), ("weighted", "weighted")):
                for i, group in enumerate(found[name]):
                    want = [getattr(study, attribute)[i] for study in studies]
                    self.assertEqual([[part[field] for field in SUM_NAMES] for part in group["parts"]], [list(sums) for sums in want])
                    together = [sum(sums[j] for sums in want) for j in range(len(SUM_NAMES))]
                    self.assertEqual([group["together"][field] for field in SUM_NAMES], together)
                    self.assertEqual([group["undivided"][field] for field in SUM_NAMES], together)
                    self.assertEqual(list(getattr(whole, attribute)[i]), together)
                    self.assertEqual(set(group["difference"].values()), {0})

    def test_csv(self) -> None:
        claims = sound_claims(self.rng, 100)
        self.packed(claims)
        rows = list(csv.DictReader(io.StringIO(self.ltd("years", "x.claims", "r.bin", "--csv", "--weighted").out)))
        whole = file_study(claim_file(claims), self.rates)
        for name, groups in (("count", whole.groups), ("weighted", whole.weighted)):
            for i, group in enumerate(groups, 1):
                own = [row for row in rows if row["set"] == name and row["group"] == str(i)]
                self.assertEqual([row["part"] for row in own], ["part"] * 9 + ["parts together", "undivided", "difference"])
                for j, field in enumerate(SUM_NAMES):
                    self.assertEqual(sum(int(row[field]) for row in own[:9]), group[j])
                    self.assertEqual([int(row[field]) for row in own[9:]], [group[j], group[j], 0])
                self.assertEqual((own[0]["first_day"], own[8]["last_day"]), tuple(map(str, WINDOW)))
        self.assertEqual(len(rows), 2 * 5 * 12)

    def test_each_closing_is_counted_once(self) -> None:
        claims, cuts = sound_claims(self.rng, 400), any_cuts(self.rng, *WINDOW)
        self.packed(claims)
        ended = self.ltd("years", "x.claims", "r.bin", "--closings", "closings.csv", "--cut", *cuts)
        rows = list(csv.DictReader((self.folder / "closings.csv").open(newline="")))
        by_label = {part.label: part for part in self.windows(cuts)}
        whole = file_study(claim_file(claims), self.rates)
        self.assertEqual(len(rows), sum(group.closings for group in whole.groups))
        for row in rows:
            claim = claims[15 * (int(row["block"]) - 1) + int(row["place"]) - 1]
            part = by_label[row["counted_in"]]
            self.assertEqual((claim.number, str(claim.termination)), (int(row["number"]), row["closed_on"]))
            self.assertTrue(part.first <= claim.termination <= part.last)  # type: ignore[operator]
            self.assertEqual(listing(claim, *part)[-1].category_word, row["category"])
        self.assertIn(f"{len(rows)} closings are counted in exactly one part each.", ended.out)
        # Too many to print, but said where they can be had.
        self.assertGreater(len(rows), MOST_CLOSINGS_SHOWN)
        self.assertFalse("Which part counts each closing\n" in ended.out)
        self.assertIn("'--closings FILE' writes it", self.ltd("years", "x.claims", "r.bin").out)

    def test_the_example(self) -> None:
        self.example()
        text = self.ltd("years", "claims.claims", "rates.bin").out
        self.assertIn("The 5 parts add up", text)
        self.assertIn("Which part counts each closing\n", text)
        self.assertRegex(text, r"1 +4 +1004  2013-05-20  max-out +61  2013\n")
        cut_after = self.ltd("years", "claims.claims", "rates.bin", "--cut", "2011-02-15").out
        self.assertIn("The 2 parts add up", cut_after)
        self.assertIn("45 claims taken in each study\nwith corrections", self.ltd("years", "claims.claims", "rates.bin", "--corrected").out)

    def test_a_single_part(self) -> None:
        self.packed(sound_claims(self.rng, 20), ("2010-02-01", "2010-11-30"))
        self.assertIn("The one part is the window", self.ltd("years", "x.claims", "r.bin").out)

    def test_wrong_cuts(self) -> None:
        self.packed([])
        ended = self.ltd("years", "x.claims", "r.bin", "--cut", "2017-12-31", status=2)
        self.assertIn("ltd: --cut: no part can end on 2017-12-31", ended.err)
        self.ltd("years", "x.claims", "r.bin", "--cut", "soon", status=2)

    def test_refused_files(self) -> None:
        self.packed([], ("2012-01-01", "2011-01-01"))
        self.assertIn("refused 1 (window) at block 0", self.ltd("years", "x.claims", "r.bin", status=1).err)
        self.file("x.claims", b"")
        self.assertIn("refused 11 (block) at block 0", self.ltd("years", "x.claims", "r.bin", status=1).err)

    def test_a_broken_theorem_is_told(self) -> None:
        self.packed(sound_claims(self.rng, 60))
        sound = cutting.divide

        for place, wrong in ((3 + 8, 1), (3 + 40 + 8 + 1, 1), (2, 1)):
            def divide(*arguments: object) -> Divided:
                divided = sound(*arguments)  # type: ignore[arg-type]
                part, study = divided.parts[4]
                numbers = study.numbers
                numbers[place] += wrong
                divided.parts[4] = (part, Study(numbers))
                return divided

            with mock.patch.object(cutting, "divide", divide):
                ended = self.ltd("years", "x.claims", "r.bin", "--html", "x.html", status=1)
            self.assertIn("ltd: The parts do not add up", ended.err)
            self.assertIn("The parts do not add up", ended.out)
            self.assertIn('class="verdict bad"', (self.folder / "x.html").read_text())

    def test_a_closing_counted_twice_is_told(self) -> None:
        self.packed(sound_claims(self.rng, 100))
        sound = cutting.closing_month
        with mock.patch.object(cutting, "closing_month", lambda record, part: sound(record, Part(*WINDOW))):
            ended = self.ltd("years", "x.claims", "r.bin", "--closings", "c.csv", status=1)
        self.assertIn("That contradicts the engine's theorem", ended.err)
