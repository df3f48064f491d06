"""study: tables, CSV and JSON parsed again, corrections, refusals."""

import csv
import io
import json
import random
from fractions import Fraction
from hashlib import sha256
from typing import Dict, List

from ltd_study import GROUPS, Claim, GroupSums, Rates, RefusedFile, Study, file_study
from ltd_study.desk import figures
from ltd_study.desk.side_files import Kept
from ltd_study.desk.study_json import SavedStudy, of_json
from ltd_study.study import SUM_NAMES

from .support import ROOT, WINDOW, DeskTest, any_rates, claim_file, sound_claims


def total(sums: List[GroupSums]) -> List[int]:
    """Of each sum, over the groups."""
    return [sum(group[i] for group in sums) for i in range(len(SUM_NAMES))]


def expected_ratio(sums: List[int]) -> "Fraction | None":
    """30,000,000 × C / E of eight sums."""
    expected = sums[6] + sums[7]
    return Fraction(30_000_000 * (sums[1] + sums[2]), expected) if expected > 0 else None


DOCUMENT_01 = """\
Study of 2009-01-01 to 2017-12-31: 1 claim taken

Exposure and closings
group  durations    exposure  exposure  recovery  death  settlement  max-out  limit
       months     thirtieths    months
-----------------------------------------------------------------------------------
1      1 to 3              0     0.000         0      0           0        0      0
2      4 to 24           630    21.000         0      0           0        0      0
3      25 to 60          420    14.000         1      0           0        0      0
4      61 to 120           0     0.000         0      0           0        0      0
5      over 120            0     0.000         0      0           0        0      0
all                    1,050    35.000         1      0           0        0      0

Actual to expected, credibility z, margin m and factor T
group  durations                 actual  expected  actual to expected         interval         z         m         T
       months     recoveries and deaths                                           95 %
--------------------------------------------------------------------------------------------------------------------
1      1 to 3                         0    0.0000                                       0.000000  0.000000  1.000000
2      4 to 24                        0    0.3150              0.0000  0.000 to 11.711  0.009770  0.150000  0.990230
3      25 to 60                       1    0.2100              4.7619  0.121 to 26.532  0.009165  0.150000  1.027931
4      61 to 120                      0    0.0000                                       0.000000  0.150000  1.000000
5      over 120                       0    0.0000                                       0.000000  0.150000  1.000000
all                                   1    0.5250              1.9048  0.048 to 10.613

Recoveries and deaths apart
group  durations  recoveries  recoveries          recoveries       recoveries  deaths    deaths              deaths           deaths
       months         actual    expected  actual to expected    95 % interval  actual  expected  actual to expected    95 % interval
------------------------------------------------------------------------------------------------------------------------
1      1 to 3              0      0.0000                                            0    0.0000
2      4 to 24             0      0.2100              0.0000  0.000 to 17.566       0    0.1050              0.0000  0.000 to 35.132
3      25 to 60            1      0.1400              7.1429  0.181 to 39.797       0    0.0700              0.0000  0.000 to 52.698
4      61 to 120           0      0.0000                                            0    0.0000
5      over 120            0      0.0000                                            0    0.0000
all                        1      0.3500              2.8571  0.072 to 15.919       0    0.1750              0.0000  0.000 to 21.079

Expected closings
group  durations  expected recoveries  expected deaths  expected recoveries  expected deaths
       months            1/30,000,000     1/30,000,000             closings         closings
--------------------------------------------------------------------------------------------
1      1 to 3                       0                0               0.0000           0.0000
2      4 to 24              6,300,000        3,150,000               0.2100           0.1050
3      25 to 60             4,200,000        2,100,000               0.1400           0.0700
4      61 to 120                    0                0               0.0000           0.0000
5      over 120                     0                0               0.0000           0.0000
all                        10,500,000        5,250,000               0.3500           0.1750

95 % interval: exact limits of a Poisson count (Garwood's), what is expected taken as known.
"""


class DocumentsExample(DeskTest):
    """Document 01's example, as ./study has it, to the letter."""

    def test_the_tables(self) -> None:
        example = ROOT / "crates" / "ltd_study"
        self.assertEqual(self.ltd("study", example / "stdin", example / "data" / "rates.bin").out, DOCUMENT_01)


class Studies(DeskTest):
    """The study of a file, in every form."""

    def setUp(self) -> None:
        super().setUp()
        self.rng = random.Random(83)
        self.claims, self.rates = sound_claims(self.rng, 250), any_rates(self.rng)
        self.packed(self.claims)
        self.file("r.bin", self.rates.to_bytes())
        self.study = Study.open(*WINDOW)
        self.assertFalse(any(self.study.add_all(self.claims, self.rates)))

    def test_a_file_is_the_study_of_its_claims(self) -> None:
        self.assertEqual(file_study(self.folder / "x.claims", self.rates), self.study)
        self.assertEqual(file_study((self.folder / "x.claims").read_bytes(), self.rates), self.study)

    def test_corrections(self) -> None:
        last = {claim.number: i for i, claim in enumerate(self.claims)}
        self.assertLess(len(last), len(self.claims))
        kept = Study.open(*WINDOW)
        kept.add_all([claim for i, claim in enumerate(self.claims) if last[claim.number] == i], self.rates)
        self.assertEqual(file_study(self.folder / "x.claims", self.rates, corrected=True), kept)
        ended = self.ltd("study", "x.claims", "r.bin", "--corrected", "--json")
        claims = sha256((self.folder / "x.claims").read_bytes()).hexdigest()
        sources = Kept("claims", "x.claims", claims), Kept("rates", "r.bin", self.rates.sha256)
        self.assertEqual(of_json(ended.out), SavedStudy(kept, True, self.rates.sha256, claims, sources=sources))
        self.assertEqual(ended.err, "")

    def test_json(self) -> None:
        found = json.loads(self.ltd("study", "x.claims", "r.bin", "--json").out)
        self.assertEqual(found["window"], {"first": str(WINDOW[0]), "last": str(WINDOW[1])})
        self.assertEqual((found["claims_taken"], found["corrected"]), (250, False))
        for name, sums in (("groups", self.study.groups), ("weighted", self.study.weighted)):
            for i, group in enumerate(found[name]):
                self.assertEqual([group[field] for field in SUM_NAMES], list(sums[i]))
                self.assertEqual((group["first_duration"], group["last_duration"]), GROUPS[i])
                ratio = expected_ratio(list(sums[i]))
                self.assertEqual(group["actual_to_expected"], None if ratio is None else float(ratio))
                self.assertEqual(group["months"], sums[i].thirtieths / 30)
        for i, group in enumerate(found["groups"], 1):
            self.assertEqual((group["z"], group["m"], group["t"]), self.study.factor(i))
        self.assertNotIn("t", found["weighted"][0])
        self.assertEqual([found["total"][field] for field in SUM_NAMES], total(self.study.groups))
        self.assertEqual([found["weighted_total"][field] for field in SUM_NAMES], total(self.study.weighted))

    def test_a_carrier(self) -> None:
        text = self.ltd("study", "x.claims", "r.bin", "--carrier", "Mutual of Examplia", "--html", "x.html").out
        self.assertIn("250 claims taken\ncarrier: Mutual of Examplia\n", text)
        self.assertIn("<p class=\"muted\">carrier: Mutual of Examplia</p>", (self.folder / "x.html").read_text())
        self.assertEqual(json.loads(self.ltd("study", "x.claims", "r.bin", "--carrier", "Mutual", "--json").out)["carrier"], "Mutual")

    def test_words_that_are_no_utf_8(self) -> None:
        for command in ("study", "years"):
            self.ltd(command, "x.claims", "r.bin", "--title", "caf\udce9", "--html", "x.html")
            self.assertIn("<h1>caf\\udce9</h1>", (self.folder / "x.html").read_text())

    def test_csv(self) -> None:
        rows = list(csv.DictReader(io.StringIO(self.ltd("study", "x.claims", "r.bin", "--csv", "--weighted").out)))
        self.assertEqual([(row["set"], row["group"]) for row in rows], [(s, g) for s in ("count", "weighted") for g in ("1", "2", "3", "4", "5", "all")])
        self.assertEqual(len(self.ltd("study", "x.claims", "r.bin", "--csv").out.splitlines()), 7)
        sets = {"count": self.study.groups, "weighted": self.study.weighted}
        for row in rows:
            self.check_csv_row(row, sets[row["set"]])

    def check_csv_row(self, row: Dict[str, str], groups: List[GroupSums]) -> None:
        """A row's sums are the engine's, and the rest follows from them."""
        sums = total(groups) if row["group"] == "all" else list(groups[int(row["group"]) - 1])
        self.assertEqual([int(row[name]) for name in SUM_NAMES], sums)
        self.assertEqual((int(row["actual"]), int(row["expected"])), (sums[1] + sums[2], sums[6] + sums[7]))
        self.assertLessEqual(abs(Fraction(row["months"]) - Fraction(sums[0], 30)), Fraction(1, 2000))
        ratio = expected_ratio(sums)
        if ratio is None:
            self.assertEqual(row["actual_to_expected"], "")
        else:
            self.assertLessEqual(abs(Fraction(row["actual_to_expected"]) - ratio), Fraction(1, 20_000))
        own = row["set"] == "count" and row["group"] != "all"
        factor = tuple(map(str, self.study.factor(int(row["group"])))) if own else ("", "", "")
        self.assertEqual((row["z"], row["m"], row["t"]), factor)

    def test_every_figure_is_printed(self) -> None:
        text = self.ltd("study", "x.claims", "r.bin", "--weighted").out
        words = set(text.split())
        for sums in (self.study.groups, self.study.weighted):
            for group in [*sums, GroupSums(*total(sums))]:
                for number in group:
                    self.assertIn(f"{number:,}", words)
                self.assertIn(figures.months(group.thirtieths), words)
                self.assertIn(figures.closings(group.expected_deaths), words)
                self.assertIn(figures.closings(group.expected), words)
                if group.expected > 0:
                    self.assertIn(figures.actual_to_expected(group), words)
        for i in range(1, 6):
            for millionths in self.study.factor(i):
                self.assertIn(f"{millionths // 1_000_000:,}.{millionths % 1_000_000:06}", words)
        self.assertIn(f"Study of {WINDOW[0]} to {WINDOW[1]}: 250 claims taken", text)

    def test_refusals(self) -> None:
        self.claims[20] = Claim(77, "2010-01-01", "2010-01-10")
        self.packed(self.claims)
        ended = self.ltd("study", "x.claims", "r.bin", status=1)
        self.assertEqual(
            ended.err,
            "ltd: 'x.claims': refused 5 (short elimination) at block 2, place 6 (claim number 77: BCD 2010-01-10 is 9 days after disability 2010-01-01, "
            "and 15 are the fewest); './ltd check' names every claim that would be refused, and --accepted leaves them out\n",
        )
        self.assertEqual(ended.out, "")
        with self.assertRaises(RefusedFile) as caught:
            file_study(self.folder / "x.claims", self.rates)
        so_far = Study.open(*WINDOW)
        so_far.add_all(self.claims[:20], self.rates)
        self.assertEqual((caught.exception.number, caught.exception.block, caught.exception.place), (5, 2, 6))
        self.assertEqual(caught.exception.study, so_far)
        self.file("x.claims", claim_file(self.claims).data[:-1])
        self.assertIn("refused 5", self.ltd("study", "x.claims", "r.bin", status=1).err)
        ended = self.ltd("study", "x.claims", "r.bin", "--corrected", status=1)
        self.assertIn("refused 11 (block) at block 17; './ltd check --corrected' names every claim", ended.err)
        self.packed(self.claims, ("2012-01-01", "2011-01-01"))
        self.assertIn("refused 1 (window) at block 0;", self.ltd("study", "x.claims", "r.bin", status=1).err)

    def test_rates_of_which_no_table_is_prepared(self) -> None:
        twice = claim_file([self.claims[0]] * 2)
        for corrected, place in ((False, 1), (True, 2)):
            with self.assertRaises(RefusedFile) as caught:
                file_study(twice, Rates([1] * 957), corrected)
            self.assertEqual((caught.exception.number, caught.exception.block, caught.exception.place), (6, 1, place))

    def test_too_many_records_to_correct(self) -> None:
        self.packed([self.claims[0]] * 60_001)
        ended = self.ltd("study", "x.claims", "r.bin", "--corrected", status=1)
        words = "the file has 60,001 records, and with corrections 60,000 are the most"
        self.assertEqual(ended.err, f"ltd: 'x.claims': refused 14 (too many records) at block 0: {words}\n")
        self.assertIn(words, self.ltd("check", "x.claims", "r.bin", "--corrected", status=1).out)

    def test_rate_files_that_are_no_table(self) -> None:
        for data in (b"", self.rates.to_bytes()[:-4], self.rates.to_bytes()[:-1]):
            self.file("r.bin", data)
            ended = self.ltd("study", "x.claims", "r.bin", status=1)
            self.assertIn("refused 6 (rate table) at block 1, place 1", ended.err)
        self.assertIn("the rate table 'r.bin' has a part of a number at its end", ended.err)
        self.packed([])
        self.assertIn("0 claims taken", self.ltd("study", "x.claims", "r.bin").out)


class Figures(DeskTest):
    """How figures are written."""

    def test_rounding(self) -> None:
        for numerator, denominator, places, want in ((1, 3, 3, "0.333"), (-1, 30, 3, "-0.033"), (1, 8, 2, "0.13"), (-1, 8, 2, "-0.13"), (-1, 10**9, 3, "0.000")):
            self.assertEqual(figures.quotient(numerator, denominator, places), want)
        self.assertEqual(figures.months(37_037_030), "1,234,567.667")
        self.assertEqual(figures.millionths(1_027_931), "1.027931")
        self.assertEqual(figures.actual_to_expected(GroupSums(recovery=1, expected_deaths=-5)), "")
        self.assertEqual(figures.actual_to_expected(GroupSums(recovery=1, expected_deaths=30_000_000)), "1.0000")
