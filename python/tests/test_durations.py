"""durations: the rows of each month of duration, beside the listings of the claims and the study; years, forms, refusals, and carriers' totals."""

import csv
import io
import json
import random
from datetime import date
from typing import Any, Dict, List
from unittest import mock

from ltd_study import Claim, ClaimFile, Durations, GroupSums, Rates, Refused, RefusedDurations, durations, file_study, listing
from ltd_study.desk import by_duration
from ltd_study.desk.crude_rates import crude_rates
from ltd_study.desk.intervals import wilson
from ltd_study.study import GROUPS, SUM_NAMES, total

from .support import WINDOW, DeskTest, any_claim, any_rates, claim_file, sound_claims
from .test_page import Page


def rows_by_listings(claims: List[Claim], rates: Rates, last: int, window: "tuple[date, date]" = WINDOW) -> List[GroupSums]:
    """The rows added up month by month, from each claim's listing."""
    rows = [[0] * len(SUM_NAMES) for _ in range(last)]
    for claim in claims:
        for month in listing(claim, *window):
            row = rows[min(month.duration, last) - 1]
            row[0] += month.thirtieths
            row[6] += month.thirtieths * rates.recovery(claim.cell, month.duration)
            row[7] += month.thirtieths * rates.death(claim.cell, month.duration)
            if month.category:
                row[month.category] += 1
    return [GroupSums(*row) for row in rows]


class Calls(DeskTest):
    """The engine's call, from Python."""

    def setUp(self) -> None:
        super().setUp()
        self.rng = random.Random(91)
        self.rates = any_rates(self.rng)

    def test_rows_are_those_of_the_listings(self) -> None:
        claims = sound_claims(self.rng, 150)
        for last in (1, 2, 24, 60, 121, 480, 2000):
            found = durations(claim_file(claims), self.rates, last)
            self.assertEqual((found.claims_taken, len(found.rows)), (len(claims), last))
            self.assertEqual(found.rows, rows_by_listings(claims, self.rates, last), last)

    def test_groups_are_their_totals(self) -> None:
        claims = sound_claims(self.rng, 200)
        file, rows = claim_file(claims), durations(claim_file(claims), self.rates).rows
        for (first, end), group in zip(GROUPS, file_study(file, self.rates).groups):
            self.assertEqual(total(rows[first - 1 : end]), group)

    def test_plain_rates_and_no_table(self) -> None:
        claims = sound_claims(self.rng, 30)
        path = self.packed(claims)
        self.assertEqual(durations(path, self.rates, 30), durations(path.read_bytes(), self.rates, 30))
        with self.assertRaises(RefusedDurations) as caught:
            durations(path, Rates([1, 2, 3]), 30)
        self.assertEqual((caught.exception.number, caught.exception.block, caught.exception.place), (6, 1, 1))
        self.assertEqual(caught.exception.durations, Durations(0, [GroupSums()] * 30))

    def test_a_refused_run_has_the_rows_so_far(self) -> None:
        for _ in range(20):
            claims = [any_claim(self.rng, i, 2) if self.rng.random() < 0.05 else claim for i, claim in enumerate(sound_claims(self.rng, 80))]
            file = claim_file(claims)
            try:
                study = file_study(file, self.rates)
            except Refused as refused:
                with self.assertRaises(RefusedDurations) as caught:
                    durations(file, self.rates, 50)
                one = caught.exception
                self.assertEqual((one.number, one.block, one.place), (refused.number, refused.block, refused.place))
                taken = refused.study.claims_taken  # type: ignore[attr-defined]
                self.assertEqual(one.durations, Durations(taken, rows_by_listings(claims[:taken], self.rates, 50)))
            else:
                self.assertEqual(durations(file, self.rates, 50).claims_taken, study.claims_taken)

    def test_wrong_use(self) -> None:
        for last in (0, -1, 2001):
            with self.assertRaisesRegex(ValueError, "the last duration must be from 1 to 2,000"):
                durations(ClaimFile(b""), self.rates, last)


class Command(DeskTest):
    """./ltd durations."""

    def setUp(self) -> None:
        super().setUp()
        self.rng = random.Random(92)
        self.rates, self.claims = any_rates(self.rng), sound_claims(self.rng, 200)
        self.file("r.bin", self.rates.to_bytes())
        self.packed(self.claims)
        self.rows = rows_by_listings(self.claims, self.rates, 121)

    def json(self, *words: object) -> Dict[str, Any]:
        """What is printed with --json."""
        found = json.loads(self.ltd("durations", "x.claims", "r.bin", "--json", *words).out)
        assert isinstance(found, dict)
        return found

    def test_json(self) -> None:
        found = self.json("--carrier", "One")
        self.assertEqual([GroupSums(*(row[name] for name in SUM_NAMES)) for row in found["rows"]], self.rows)
        self.assertEqual([(row["first_duration"], row["last_duration"]) for row in found["rows"]][-2:], [(120, 120), (121, None)])
        groups = file_study(claim_file(self.claims), self.rates).groups
        self.assertEqual([GroupSums(*(row[name] for name in SUM_NAMES)) for row in found["groups"]], groups)
        self.assertEqual((found["format"], found["adds_up"], found["carrier"], found["claims_taken"]), ("ltd durations 1", True, "One", 200))
        self.assertEqual(GroupSums(**found["all"]), total(self.rows))

    def test_csv_with_rates_and_intervals(self) -> None:
        rows = list(csv.DictReader(io.StringIO(self.ltd("durations", "x.claims", "r.bin", "--to", "61", "--csv").out)))
        self.assertEqual([row["row"] for row in rows], ["duration"] * 61 + ["group 1", "group 2", "group 3", "all"])
        want = rows_by_listings(self.claims, self.rates, 61)
        exposed = 0
        for row, sums in zip(rows, want):
            self.assertEqual([int(row[name]) for name in SUM_NAMES], list(sums))
            if sums.thirtieths <= 0:
                self.assertEqual((row["recovery_rate"], row["recovery_rate_low"]), ("", ""))
                continue
            exposed += 1
            self.assertAlmostEqual(float(row["death_rate"]), 30 * sums.death / sums.thirtieths, delta=1e-6)
            self.assertAlmostEqual(float(row["recovery_rate_expected"]), sums.expected_recoveries / sums.thirtieths / 1e6, delta=1e-6)
            interval = wilson(sums.recovery, sums.thirtieths / 30)
            self.assertEqual((row["recovery_rate_low"], row["recovery_rate_high"]), tuple(map(str, interval or ("", ""))))
        self.assertGreater(exposed, 40)

    def test_text_and_page(self) -> None:
        ended = self.ltd("durations", "x.claims", "r.bin", "--to", "25", "--html", "x.html", "--title", "By <month>")
        self.assertIn("The rows add up: those of each of the first 2 groups total the study's sums; every difference is 0.", ended.out)
        self.assertIn("Wilson's", ended.out)
        page = Page((self.folder / "x.html").read_text())
        table = page.tables["Sums by duration"]
        names = [*map(str, range(1, 25)), "over 24", "group 1: 1 to 3", "group 2: 4 to 24", "all"]
        self.assertEqual([row[0] for row in table[1:]], names)
        rates = page.tables["Crude monthly rates by duration"]
        self.assertEqual([row[0] for row in rates[1:]], names)
        want = rows_by_listings(self.claims, self.rates, 25)[23]
        self.assertEqual(table[24][2:4], [f"{want.recovery:,}", f"{want.death:,}"])
        self.assertEqual(table[24][4], f"{want.settlement + want.max_out + want.limit:,}")
        self.assertEqual(rates[24][1:], [text for rate in crude_rates(want) for text in (rate.text, rate.interval_text, rate.expected_text)])
        self.assertEqual(len(page.drawings), 2)
        for drawing, rate in zip(page.drawings, crude_rates(want)):
            self.assertIn("95 % interval", drawing)
            self.assertIn("the table", drawing)
            self.assertIn(f"{rate.expected_text} expected", drawing)

    def test_by_year(self) -> None:
        found = self.json("--by-year", "--to", "130")
        self.assertEqual([part["label"] for part in found["parts"]], [str(year) for year in range(2009, 2018)])
        for part in found["parts"]:
            year = date.fromisoformat(part["first"]), date.fromisoformat(part["last"])
            want = rows_by_listings(self.claims, self.rates, 130, year)
            self.assertEqual([GroupSums(*(row[name] for name in SUM_NAMES)) for row in part["rows"]], want)
        for i, row in enumerate(found["rows"]):
            for name in SUM_NAMES:
                self.assertEqual(sum(part["rows"][i][name] for part in found["parts"]), row[name])
        self.assertIn("The 9 parts add up too", self.ltd("durations", "x.claims", "r.bin", "--by-year", "--to", "3").out)

    def test_what_does_not_add_up_is_told(self) -> None:
        sound = by_duration.duration_rows
        for part, row, wrong in ((0, 30, "recovery"), (4, 30, "thirtieths"), (4, 121, "expected_deaths")):
            calls = []

            def of_a_part(file: ClaimFile, rates: Rates, last: int) -> Durations:
                found = sound(file, rates, last)
                calls.append(file)
                if len(calls) == part + 1:
                    sums = found.rows[row - 1]
                    found.rows[row - 1] = sums._replace(**{wrong: getattr(sums, wrong) + 1})
                return found

            with mock.patch.object(by_duration, "duration_rows", of_a_part):
                ended = self.ltd("durations", "x.claims", "r.bin", "--by-year", "--html", "x.html", status=1)
            self.assertIn("ltd: The rows do not add up to the study's groups", ended.err)
            self.assertIn('class="verdict bad"', (self.folder / "x.html").read_text())

    def test_refused_and_accepted(self) -> None:
        claims = [*self.claims[:40], Claim(7, "2010-01-10", "2010-01-11"), *self.claims[40:]]
        self.packed(claims)
        self.assertIn("refused 5 (short elimination) at block 3, place 11", self.ltd("durations", "x.claims", "r.bin", status=1).err)
        found = self.json("--accepted")
        self.assertEqual([GroupSums(*(row[name] for name in SUM_NAMES)) for row in found["rows"]], self.rows)
        self.assertEqual([one["number"] for one in found["left_out"]], [7])
        self.assertIn("Refused and left out", self.ltd("durations", "x.claims", "r.bin", "--accepted", "--html", "x.html").out)
        self.assertIn("Refused and left out", (self.folder / "x.html").read_text())

    def test_another_window(self) -> None:
        window = date(2011, 3, 4), date(2012, 5, 6)
        found = self.json("--window", *window, "--to", "40")
        want = rows_by_listings(self.claims, self.rates, 40, window)
        self.assertEqual([GroupSums(*(row[name] for name in SUM_NAMES)) for row in found["rows"]], want)

    def test_wrong_use(self) -> None:
        for words in (("--to", "0"), ("--to", "2001")):
            self.assertIn("the last row's duration is from 1 to 2,000", self.ltd("durations", "x.claims", "r.bin", *words, status=2).err)
        self.ltd("durations", "x.claims", "r.bin", "--to", "some", status=2)
        self.ltd("durations", "x.claims", "r.bin", "--csv", "--json", status=2)

    def test_no_claims(self) -> None:
        self.packed([])
        ended = self.ltd("durations", "x.claims", "r.bin", "--to", "4", "--html", "x.html")
        self.assertIn("0 claims taken", ended.out)
        self.assertIn("no exposure", (self.folder / "x.html").read_text())


class OfCarriers(DeskTest):
    """total over what 'durations --json' prints."""

    def setUp(self) -> None:
        super().setUp()
        rng = random.Random(93)
        self.rates, self.claims = any_rates(rng), sound_claims(rng, 150)
        self.file("r.bin", self.rates.to_bytes())
        for i in range(3):
            self.packed(self.claims[i::3], name=f"{i}.claims")
            more = ["--by-year"] * (i > 0)
            self.file(f"{i}.json", self.ltd("durations", f"{i}.claims", "r.bin", "--carrier", f"Carrier {i}", "--json", *more).out)

    def test_the_rows_are_those_of_all_claims(self) -> None:
        rows = list(csv.DictReader(io.StringIO(self.ltd("total", "0.json", "1.json", "2.json", "--csv").out)))
        want = durations(claim_file(self.claims), self.rates).rows
        self.assertEqual([[int(row[name]) for name in SUM_NAMES] for row in rows], [list(sums) for sums in [*want, total(want)]])
        self.assertEqual({row["set"] for row in rows}, {"count"})

    def test_text_json_and_page(self) -> None:
        ended = self.ltd("total", "0.json", "1.json", "2.json", "--html", "x.html")
        self.assertIn("for each of the 2 carriers that sent their years, and in total, every sum of the 9 parts totals the window's, in every row", ended.out)
        self.assertIn("at every duration; every difference is 0.", ended.out)
        page = Page((self.folder / "x.html").read_text())
        self.assertEqual([row[0] for row in page.tables["Sums by duration"][1:]], [*map(str, range(1, 121)), "over 120", "all"])
        head, *rows = page.tables["What was added"]
        self.assertEqual([row[head.index("published")] for row in rows], ["durations", "durations by year", "durations by year", ""])
        self.assertEqual(len(page.drawings), 2)
        found = json.loads(self.ltd("total", "0.json", "1.json", "--json").out)
        self.assertEqual(len(found["rows"]), 122)

    def test_what_is_refused(self) -> None:
        self.file("study.json", self.ltd("study", "0.claims", "r.bin", "--json").out)
        self.assertIn("has other rows of durations", self.ltd("total", "study.json", "1.json", status=1).err)
        self.file("short.json", self.ltd("durations", "0.claims", "r.bin", "--to", "60", "--json").out)
        self.assertIn("has other rows of durations", self.ltd("total", "short.json", "1.json", status=1).err)
        self.assertIn("rows by duration go by count", self.ltd("total", "0.json", "1.json", "--weighted", status=2).err)
        sound = json.loads((self.folder / "1.json").read_text())
        for place, value, reason in (
            (("rows", 30, "recovery"), -1, "no count is negative|from the sums follows"),
            (("rows", 30, "recovery_rate"), 0.5, "from the sums follows"),
            (("groups", 1, "death"), 999, "groups 2: death is 999, and from the sums follows"),
            (("groups", 2, "recovery_rate"), 0.5, "groups 3: recovery_rate is 0.5, and from the sums follows"),
            (("all", "thirtieths"), 5, "all: thirtieths is 5, and from the sums follows"),
            (("parts", 2, "groups", 3, "expected"), 7, "groups 4: expected is 7, and from the sums follows"),
            (("claims_taken",), 0, "a claim closes once"),
            (("parts", 2, "rows", 40, "thirtieths"), 1, "from the sums follows|do not total"),
            (("parts", 2, "first"), "2011-01-02", "do not follow one another"),
            (("adds_up",), False, "do not add up"),
        ):
            edited = json.loads(json.dumps(sound))
            at = edited
            for step in place[:-1]:
                at = at[step]
            at[place[-1]] = value
            self.file("edited.json", json.dumps(edited))
            self.assertRegex(self.ltd("total", "0.json", "edited.json", status=1).err, reason)
