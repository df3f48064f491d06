"""study --by: a study for each value of a column, and that they total the whole."""

import csv
import io
import json
import random
from typing import Dict, List
from unittest import mock

from ltd_study import Claim, Study, file_study
from ltd_study.desk import values as desk_values
from ltd_study.desk.study_json import of_json
from ltd_study.study import SUM_NAMES

from .support import WINDOW, DeskTest, any_rates, claim_file, sound_claims
from .test_page import Page

REGIONS = ("north", "south", "east, by the sea", "")


class ByValue(DeskTest):
    """The command on random claims and values."""

    def setUp(self) -> None:
        super().setUp()
        rng = random.Random(8)
        self.claims, self.rates = sound_claims(rng, 160), any_rates(rng)
        self.regions = [rng.choice(REGIONS) for _ in self.claims]
        self.packed(self.claims)
        self.file("r.bin", self.rates.to_bytes())
        self.column(self.regions)

    def column(self, values: List[str], name: str = "region") -> None:
        """The column's CSV."""
        text = io.StringIO()
        csv.writer(text).writerows([value] for value in [name, *values])
        self.file("by.csv", text.getvalue())

    def by(self, *words: object, status: int = 0) -> str:
        """What study prints by the column."""
        return self.ltd("study", "x.claims", "r.bin", "--by", "by.csv", *words, status=status).out

    def studies(self, claims: List[Claim], regions: List[str]) -> Dict[str, Study]:
        """The study of each region, worked out here."""
        found = {}
        for region in sorted({region or "(empty)" for region in self.regions}):
            found[region] = file_study(claim_file(claim for claim, own in zip(claims, regions) if (own or "(empty)") == region), self.rates)
        return found

    def same(self, found: Dict[str, object], study: Study) -> None:
        """Claims taken and every sum of both sets."""
        self.assertEqual(found["claims_taken"], study.claims_taken)
        for name, groups in (("groups", study.groups), ("weighted", study.weighted)):
            self.assertEqual([[group[field] for field in SUM_NAMES] for group in found[name]], [list(group) for group in groups])  # type: ignore[attr-defined]

    def test_json(self) -> None:
        found = json.loads(self.by("--json"))
        studies = self.studies(self.claims, self.regions)
        self.assertEqual((found["by"]["column"], found["by"]["adds_up"]), ("region", True))
        self.assertEqual([one["value"] for one in found["by"]["values"]], list(studies))
        for one, study in zip(found["by"]["values"], studies.values()):
            self.same(one, study)
            self.assertEqual([(group["z"], group["m"], group["t"]) for group in one["groups"]], [study.factor(i) for i in range(1, 6)])
        whole = file_study(claim_file(self.claims), self.rates)
        self.same(found, whole)
        self.same(found["by"]["joined"], whole)

    def test_a_study_by_value_is_pooled_as_any(self) -> None:
        self.file("a.json", self.by("--json"))
        self.assertEqual(of_json(self.ltd("pool", "a.json", "--json").out).study, file_study(claim_file(self.claims), self.rates))

    def test_corrections_and_claims_left_out(self) -> None:
        # The last record of a number decides, also where its region is another.
        self.claims[20] = Claim(self.claims[30].number, "2010-01-01", "2010-01-10")
        self.claims[50] = Claim(999, "2010-01-01", "2010-01-10")
        self.packed(self.claims)
        last = {claim.number: i for i, claim in enumerate(self.claims)}
        for corrected in (False, True):
            kept = [i for i, claim in enumerate(self.claims) if not corrected or last[claim.number] == i]
            kept = [i for i in kept if Study.open(*WINDOW).try_add(self.claims[i], self.rates) == 0]
            studies = self.studies([self.claims[i] for i in kept], [self.regions[i] for i in kept])
            found = json.loads(self.by("--json", "--accepted", *["--corrected"] * corrected))
            self.assertTrue(found["by"]["adds_up"])
            for one in found["by"]["values"]:
                self.same(one, studies[one["value"]])
            self.assertEqual(len(found["left_out"]), 1 if corrected else 2)

    def test_another_window(self) -> None:
        found = json.loads(self.by("--json", "--window", "2011-01-01", "2012-06-30"))
        self.assertEqual((found["by"]["adds_up"], found["window"]["last"]), (True, "2012-06-30"))

    def test_text_and_page(self) -> None:
        text = self.by("--weighted", "--html", "x.html")
        page = Page((self.folder / "x.html").read_text(encoding="utf-8"))
        words = "The 4 studies by region, joined by the engine, are the whole study: claims taken and every sum, by count and weighted."
        self.assertTrue(text.endswith(words + "\n"))
        self.assertIn(words, page.texts["p"])
        self.assertRegex(page.texts["p"], r"values: by\.csv, sha256 [0-9a-f]{64}")
        studies = self.studies(self.claims, self.regions)
        rows = page.tables["All groups, by region"][1:]
        self.assertEqual([row[:2] for row in rows[:4]], [[region, str(study.claims_taken)] for region, study in studies.items()])
        self.assertEqual([row[0] for row in rows[4:]], ["joined", "whole"])
        self.assertEqual(rows[4][1:], rows[5][1:])
        for group in range(1, 6):
            table = next(rows for title, rows in page.tables.items() if title.startswith(f"Group {group}: ") and title.endswith("months, by region"))
            for row, study in zip(table[1:], studies.values()):
                self.assertEqual(row[1:9], [f"{number:,}" for number in study.groups[group - 1]])
                self.assertEqual(row[-3:], [f"{figure / 1_000_000:.6f}" for figure in study.factor(group)])
            self.assertEqual(table[-3][1:], table[-2][1:])
            self.assertEqual(table[-1][1:9], ["0"] * 8)
            self.assertRegex(text, rf"(?m)^Group {group}: durations .* months, by region$")
        self.assertEqual(sum("weighted" in title and title.endswith(", by region") for title in page.tables), 5)

    def test_csv(self) -> None:
        rows = list(csv.DictReader(io.StringIO(self.by("--csv"))))
        studies = self.studies(self.claims, self.regions)
        self.assertEqual([(row["study"], row["value"]) for row in rows[::6]], [("whole", ""), *(("value", region) for region in studies), ("joined", "")])
        for region, study in studies.items():
            own = [row for row in rows if row["value"] == region]
            self.assertEqual([int(row["thirtieths"]) for row in own[:5]], [group.thirtieths for group in study.groups])

    def test_values_that_are_numbers_are_in_their_order(self) -> None:
        self.column([str(i % 12) for i in range(160)], "band")
        self.assertEqual([one["value"] for one in json.loads(self.by("--json"))["by"]["values"]], [str(i) for i in range(12)])

    def test_a_column_that_a_map_kept(self) -> None:
        want = self.by("--csv")
        (self.folder / "by.csv").rename(self.folder / "x.claims.region.csv")
        ended = self.ltd("study", "x.claims", "r.bin", "--by", "region", status=1)
        self.assertEqual(ended.err, "ltd: 'x.claims.region.csv' is not of the claim file 'x.claims'\n")
        self.belongs("x.claims")
        self.assertEqual(self.ltd("study", "x.claims", "r.bin", "--by", "region", "--csv").out, want)
        # A file of that name comes first.
        self.file("region", "other\n" + "a\n" * 160)
        self.assertIn("The 1 study by other", self.ltd("study", "x.claims", "r.bin", "--by", "region").out)

    def test_columns_that_dont_fit(self) -> None:
        for text, words in (
            ("", "'by.csv' has 0 values for 160 claims: after its name it has one for each, in file order"),
            ("region\n" + "a\n" * 159, "'by.csv' has 159 values for 160 claims"),
            ("region\n" + "a\n" * 161, "'by.csv' has 161 values for 160 claims"),
            ("region\n" + "a\n" * 80 + "\n" * 80, 'in file order; an empty value is written as ""'),
            ("region,size\n" + "a,b\n" * 160, "'by.csv': line 1: 2 fields, where a value stands alone"),
            ("region\n" + "a\n" * 100 + "a,b\n" * 60, "'by.csv': line 102: 2 fields, where a value stands alone"),
            ("region\n" + '"a"b\n' * 160, "'by.csv': line 2: no CSV row: "),
            (b"region\n" + b"\xe9st\n" * 160, "'by.csv': line 2: '\xe9st' is Latin-1 (or Windows-1252) and not UTF-8"),
        ):
            self.file("by.csv", text)
            ended = self.ltd("study", "x.claims", "r.bin", "--by", "by.csv", "--html", "x.html", status=1)
            self.assertIn(words, ended.err)
            self.assertEqual(ended.out, "")
        self.assertNotIn("x.html", self.names())
        self.assertIn("there is no column of values 'no.csv'", self.ltd("study", "x.claims", "r.bin", "--by", "no.csv", status=2).err)

    def test_too_many_values(self) -> None:
        claims = sound_claims(random.Random(1), 201)
        self.packed(claims)
        self.column([str(i) for i in range(201)])
        ended = self.ltd("study", "x.claims", "r.bin", "--by", "by.csv", status=1)
        self.assertIn("'by.csv' has 201 different values, and 200 are the most that are studied", ended.err)
        self.column([str(i % 200) for i in range(201)])
        self.assertIn("The 200 studies by region", self.by())

    def test_a_join_that_is_not_the_whole_is_told(self) -> None:
        sound = desk_values.file_study
        # A study that lost a claim.
        with mock.patch.object(desk_values, "file_study", lambda file, rates: sound(claim_file([], WINDOW), rates)):
            ended = self.ltd("study", "x.claims", "r.bin", "--by", "by.csv", "--html", "x.html", status=1)
        self.assertIn("ltd: The 4 studies by region, joined, are not the whole study", ended.err)
        self.assertIn('class="verdict bad"', (self.folder / "x.html").read_text())
        self.assertIn("are not the whole study", ended.out)
