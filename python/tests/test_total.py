"""total: what carriers publish, added up past the limit of one study, each file checked and the years verified."""

import csv
import hashlib
import io
import json
import random
from math import exp
from typing import Any, Callable, Dict, List, Tuple

from ltd_study import Claim, GroupSums, Rates, file_study
from ltd_study.desk.intervals import poisson, wilson
from ltd_study.study import SUM_NAMES, total

from .support import DeskTest, any_rates, claim_file, sound_claims
from .test_page import Page

FILES = ("0.json", "1.json", "2.json")


class Carriers(DeskTest):
    """Three carriers, each with a study and its years."""

    def setUp(self) -> None:
        super().setUp()
        rng = random.Random(77)
        self.rates, self.claims = any_rates(rng), sound_claims(rng, 240)
        self.file("r.bin", self.rates.to_bytes())
        for i in range(3):
            self.packed(self.claims[i::3], name=f"{i}.claims")
            for command, name in (("study", f"{i}.json"), ("years", f"{i}y.json")):
                self.file(name, self.ltd(command, f"{i}.claims", "r.bin", "--carrier", f"Carrier {i}", "--json").out)
        self.whole = file_study(claim_file(self.claims), self.rates)

    def saved(self, name: str) -> Dict[str, Any]:
        """A file's JSON."""
        return json.loads((self.folder / name).read_text())  # type: ignore[no-any-return]

    def refused(self, *words: object) -> str:
        """What a refused total says; nothing is printed."""
        ended = self.ltd("total", *words, status=1)
        self.assertEqual(ended.out, "")
        return ended.err


class Totals(Carriers):
    """What is added up, and how it is shown."""

    def test_the_sums_are_those_of_all_claims(self) -> None:
        rows = list(csv.DictReader(io.StringIO(self.ltd("total", *FILES, "--csv", "--weighted").out)))
        for name, groups in (("count", self.whole.groups), ("weighted", self.whole.weighted)):
            own = [row for row in rows if row["set"] == name]
            self.assertEqual([row["row"] for row in own], ["1", "2", "3", "4", "5", "all"])
            for row, sums in zip(own, [*groups, total(groups)]):
                self.assertEqual([int(row[field]) for field in SUM_NAMES], list(sums))
                self.assertEqual(int(row["actual"]), sums.recovery + sums.death)
        self.intervals_are_right(rows, self.whole.groups)
        self.assertTrue(all(row["actual_to_expected_low"] == row["recovery_rate"] == "" for row in rows if row["set"] == "weighted"))

    def intervals_are_right(self, rows: List[Dict[str, str]], groups: List[GroupSums]) -> None:
        """Garwood's limits over what is expected, and Wilson's of the monthly rates."""
        for row, sums in zip(rows, groups):
            if not sums.expected > 0:
                continue
            for end, mean in zip(("low", "high"), poisson(sums.terminations)):
                self.assertAlmostEqual(float(row[f"actual_to_expected_{end}"]), 30_000_000 * mean / sums.expected)
            for end, limit in zip(("low", "high"), wilson(sums.death, sums.months) or ()):
                self.assertAlmostEqual(float(row[f"death_rate_{end}"]), limit)
            self.assertAlmostEqual(float(row["death_rate"]), sums.death / sums.months, delta=5.1e-7)

    def test_there_is_no_z_m_and_t(self) -> None:
        text = self.ltd("total", *FILES).out
        self.assertIn("A total has no z, m and T", text)
        found = json.loads(self.ltd("total", *FILES, "--json").out)
        self.assertIn("A total has no z, m and T", found["note"])
        self.assertTrue(all({"z", "m", "t"}.isdisjoint(row) for row in found["rows"]))
        self.assertNotIn("credibility z", text)

    def test_past_the_limit_of_one_study(self) -> None:
        large = self.saved("0.json")
        large["claims_taken"] = 500_000
        for i in range(3):
            self.file(f"large{i}.json", json.dumps({**large, "claims_sha256": f"{i:064}", "carrier": f"Large {i}"}))
        names = [f"large{i}.json" for i in range(3)]
        self.assertIn("refused 9 (full)", self.ltd("pool", *names, status=1).err)
        self.assertEqual(json.loads(self.ltd("total", *names, "--json").out)["claims_taken"], 1_500_000)

    def test_files_are_listed(self) -> None:
        found = json.loads(self.ltd("total", *FILES, "1y.json", "--json").out)
        self.assertEqual([carrier["carrier"] for carrier in found["carriers"]], ["Carrier 0", "Carrier 1", "Carrier 2"])
        self.assertEqual([carrier["claims_taken"] for carrier in found["carriers"]], [80, 80, 80])
        self.assertEqual([file["name"] for file in found["carriers"][1]["files"]], ["1.json", "1y.json"])
        text = self.ltd("total", *FILES, "1y.json").out
        for carrier in found["carriers"]:
            for file in carrier["files"]:
                self.assertIn(f"{file['name']} {file['sha256'][:16]}", text)
        self.assertIn("240 claims taken by 3 carriers", text)

    def test_years_beside_the_window(self) -> None:
        years = ("0y.json", "1y.json", "2y.json")
        both = json.loads(self.ltd("total", *FILES, *years, "--json").out)
        alone = json.loads(self.ltd("total", *years, "--json").out)
        self.assertEqual((both["rows"], both["years"]), (alone["rows"], alone["years"]))
        self.assertEqual((both["claims_taken"], both["years"]["adds_up"]), (240, True))
        self.assertEqual([one["carrier"] for one in both["years"]["beside"]], ["Carrier 0", "Carrier 1", "Carrier 2", None])
        want = total(self.whole.groups)
        for name in ("together", "window"):
            self.assertEqual([both["years"]["beside"][3][name][field] for field in SUM_NAMES], list(want))
        self.assertTrue(all(set(one["difference"].values()) == {0} for one in both["years"]["beside"]))
        text = self.ltd("total", *FILES, *years).out
        self.assertIn("for each of the 3 carriers that sent their years, and in total, every sum of the 9 parts totals the window's", text)
        self.assertIn("Years beside the window: all carriers that sent their years", text)
        self.assertIn("for the carrier that sent its years, every sum", self.ltd("total", *FILES, "2y.json").out)
        self.assertNotIn("Years beside", self.ltd("total", *FILES).out)

    def test_the_page(self) -> None:
        self.ltd("total", *FILES, "0y.json", "--weighted", "--html", "t.html", "--title", "Industry <1>")
        page = Page((self.folder / "t.html").read_text(encoding="utf-8"))
        self.assertEqual(page.texts["h1"], "Industry <1>")
        for title in ("What was added", "Exposure and closings", "Actual to expected", "Recoveries and deaths apart", "Crude monthly rates"):
            self.assertIn(title, page.tables)
        self.assertIn("Years beside the window, weighted by benefit: Carrier 0", page.tables)
        cells = {cell for rows in page.tables.values() for row in rows for cell in row}
        for sums in [*self.whole.groups, *self.whole.weighted]:
            self.assertTrue({f"{number:,}" for number in sums} <= cells)
        self.assertIn("Wilson's", page.texts["p"])
        self.assertIn("A total has no z, m and T", page.texts["p"])
        self.assertIn("Rate table: sha256 " + self.rates.sha256, page.texts["p"])
        self.assertEqual(len(page.drawings), 6)

    def test_the_same_claims_twice(self) -> None:
        self.assertIn("'0.json' is of the same claims as '0.json': with --again both count", self.refused("0.json", "1.json", "0.json"))
        self.file("renamed.json", json.dumps({**self.saved("0.json"), "carrier": "Another"}))
        self.assertIn("'renamed.json' is of the same claims as '0.json'", self.refused("0.json", "renamed.json"))
        self.file("c.json", self.ltd("study", "0.claims", "r.bin", "--corrected", "--json").out)
        self.assertIn("'c.json' is of the same claims as '0.json'", self.refused("0.json", "c.json"))
        self.file("pool.json", self.ltd("pool", "0.json", "1.json", "--json").out)
        self.assertIn("'pool.json' is of the same claims as '0.json'", self.refused("0.json", "pool.json"))
        self.assertIn("240 claims taken by 2 carriers", self.ltd("total", "pool.json", "2.json").out)
        found = json.loads(self.ltd("total", "0.json", "renamed.json", "--again", "--json").out)
        self.assertEqual((found["claims_taken"], len(found["carriers"])), (160, 2))

    def test_other_windows_rates_and_parts(self) -> None:
        self.packed(self.claims, ("2009-01-01", "2010-12-31"), name="w.claims")
        self.file("w.json", self.ltd("study", "w.claims", "r.bin", "--json").out)
        message = "'w.json' is of the window 2009-01-01 to 2010-12-31, '0.json' of 2009-01-01 to 2017-12-31: a total is of one window"
        self.assertIn(message, self.refused("0.json", "w.json"))
        self.file("s.bin", Rates.flat(1, 1, 2).to_bytes())
        self.file("z.json", self.ltd("study", "1.claims", "s.bin", "--json").out)
        self.assertIn("'z.json' was made with another rate table than '0.json'", self.refused("0.json", "z.json"))
        self.file("cut.json", self.ltd("years", "1.claims", "r.bin", "--cut", "2012-02-29", "--json").out)
        self.assertIn("'cut.json' is cut into other parts than '0y.json'", self.refused("0y.json", "cut.json"))

    def test_a_study_and_years_that_differ(self) -> None:
        other = self.saved("1y.json")
        self.file("other.json", json.dumps({**other, "claims_sha256": self.saved("0.json")["claims_sha256"]}))
        self.assertIn("'0.json' and 'other.json' are of the same claims, and their sums of the window differ", self.refused("0.json", "other.json"))


class LeftOut(DeskTest):
    """Claims left out and numbers repeated are told as study and pool tell them, carrier by carrier."""

    KINDS = (("study",), ("years",), ("durations",), ("durations", "--by-year"))
    NOTES = (
        "6 claims are refused and left out, as its study lists",
        "2 claim numbers stand more than once in one study, and every record counts",
    )

    def setUp(self) -> None:
        super().setUp()
        self.example()
        for i, words in enumerate(self.KINDS):
            self.saved(f"first{i}.json", *words, "claims.claims", "--carrier", "First")
            self.saved(f"second{i}.json", *words, "faulty.claims", "--accepted")
            self.saved(f"third{i}.json", *words, "affiliate.claims")

    def saved(self, name: str, *words: str) -> None:
        """What a carrier publishes."""
        self.file(name, self.ltd(*words, "rates.bin", "--json").out)

    def counts(self, *words: str) -> List[Tuple[str, int, int]]:
        """By carrier, of the JSON."""
        found = json.loads(self.ltd("total", *words, "--json").out)["carriers"]
        return [(one["carrier"], one["repeated_numbers"], one["left_out"]) for one in found]

    def test_each_kind(self) -> None:
        for i, words in enumerate(self.KINDS):
            names = [f"{name}{i}.json" for name in ("first", "second", "third")]
            self.assertEqual(self.counts(*names), [("First", 2, 0), (names[1], 0, 6), (names[2], 0, 0)], words)
            for form in ((), ("--csv",), ("--json",)):
                ended = self.ltd("total", *names, *form, "--html", "t.html")
                self.assertEqual([line for line in ended.err.splitlines() if "note: " in line], [f"ltd: note: {note}" for note in self.NOTES])
                self.assertEqual([line for line in ended.out.splitlines() if "note: " in line], [] if form else [f"note: {note}" for note in self.NOTES])
            page = Page((self.folder / "t.html").read_text(encoding="utf-8"))
            for note in self.NOTES:
                self.assertIn(f"Note: {note}.", page.texts["p"])
            head, *rows = page.tables["What was added"]
            named = [dict(zip(head, row)) for row in rows]
            self.assertEqual([(row["carrier"], row["numbers repeated"], row["left out"]) for row in named],
                             [("First", "2", "0"), (names[1], "0", "6"), (names[2], "0", "0"), ("all", "2", "6")])
            self.assertRegex(self.ltd("total", *names).out, r"(?m)^First +47 +\d+  without +2 +0  ")

    def test_the_words_are_those_of_a_pool(self) -> None:
        names = ("first0.json", "second0.json")
        self.assertEqual(self.ltd("total", *names).err, self.ltd("pool", *names).err)
        self.assertIn(self.NOTES[0], self.ltd("total", *names).err)

    def test_a_pool(self) -> None:
        self.file("pool.json", self.ltd("pool", "first0.json", "second0.json", "--json").out)
        self.assertEqual(self.counts("pool.json", "third0.json"), [("pool.json", 2, 6), ("third0.json", 0, 0)])

    def test_a_study_and_its_years_count_once(self) -> None:
        for first, second in ((0, 1), (2, 3)):
            self.assertEqual(self.counts(f"first{first}.json", f"first{second}.json", f"second{second}.json"), [("First", 2, 0), (f"second{second}.json", 0, 6)])

    def test_nothing_to_tell(self) -> None:
        for i in range(len(self.KINDS)):
            ended = self.ltd("total", f"third{i}.json", "--html", "t.html")
            self.assertEqual(("note: " in ended.out, ended.err), (False, ""))
            self.assertNotIn('class="note"', (self.folder / "t.html").read_text(encoding="utf-8"))

    def test_the_same_claims_again(self) -> None:
        ended = self.ltd("total", "third0.json", "third0.json", "--again", "--html", "t.html")
        note = "1 study is of a claim file that is in the total already (--again), and its claims count again"
        self.assertEqual(ended.err, f"ltd: note: {note}\n")
        self.assertIn(f"\nnote: {note}\n", ended.out)
        self.assertIn(f"Note: {note}.", (self.folder / "t.html").read_text(encoding="utf-8"))

    EDITS: Tuple[Tuple[Callable[[Dict[str, Any]], Any], str], ...] = (
        (lambda found: found.pop("repeated_numbers"), "missing or not as it was saved: 'repeated_numbers'"),
        (lambda found: found.pop("left_out"), "missing or not as it was saved: 'left_out'"),
        (lambda found: found.update(repeated_numbers=["x"]), "a repeated number is no whole number"),
        (lambda found: found.update(repeated_numbers=2), "missing or not as it was saved"),
        (lambda found: found.update(left_out=6), "missing or not as it was saved"),
        (lambda found: found["left_out"][1].update(word="full"), "left_out 2: word is "),
        (lambda found: found["left_out"][0].update(refused=99), "missing or not as it was saved: 99"),
    )

    def test_edits_are_refused(self) -> None:
        for i in range(len(self.KINDS)):
            for edit, message in self.EDITS:
                found = json.loads((self.folder / f"second{i}.json").read_text())
                edit(found)
                self.file("edited.json", json.dumps(found))
                ended = self.ltd("total", "edited.json", status=1)
                self.assertIn("ltd: 'edited.json': ", ended.err)
                self.assertIn(message, ended.err)

    def test_a_study_and_years_that_differ(self) -> None:
        for name, value in (("repeated_numbers", [5]), ("left_out", [])):
            found = json.loads((self.folder / "second1.json").read_text())
            self.file("edited.json", json.dumps({**found, name: value}))
            ended = self.ltd("total", "second0.json", "edited.json", status=1)
            said = "'second0.json' and 'edited.json' are of the same claims, and their claims left out or numbers repeated differ"
            self.assertEqual((ended.out, ended.err), ("", f"ltd: {said}\n"))


class EditedFiles(Carriers):
    """Every figure of a file is checked against its sums."""

    EDITS: Tuple[Tuple[str, Callable[[Dict[str, Any]], Any], str], ...] = (
        ("0.json", lambda found: found["total"].update(recovery=found["total"]["recovery"] + 1), "total: recovery is"),
        ("0.json", lambda found: found["groups"][2].update(t=1_000_000), "groups 3: t is 1000000, and from the sums follows"),
        ("0.json", lambda found: found["groups"][2].update(z=7), "groups 3: z is 7"),
        ("0.json", lambda found: found["groups"][1].update(m=7), "groups 2: m is 7"),
        ("0.json", lambda found: found["groups"][1].update(thirtieths=found["groups"][1]["thirtieths"] + 30), "groups 2: months is"),
        ("0.json", lambda found: found["weighted_total"].update(expected=1), "weighted_total: expected is 1"),
        ("0.json", lambda found: found["groups"][2].update(actual_to_expected="1"), "groups 3: actual_to_expected is"),
        ("0.json", lambda found: found["groups"][3].update(limit=-1), "limit of group 4 is -1, and no count is negative"),
        ("0.json", lambda found: found["weighted"][1].update(recovery=0), "0 weighted: that is not 1 to 200 times the count"),
        ("0.json", lambda found: found["weighted"][1].update(recovery=10**7), "10,000,000 weighted: that is not 1 to 200 times the count"),
        ("0.json", lambda found: found.update(claims_taken=3), "closings of 3 claims taken, and a claim closes once"),
        ("0.json", lambda found: found.update(claims_taken=-1), "claims_taken is -1, and no count is negative"),
        ("0.json", lambda found: found.update(claims_taken="80"), "claims_taken is no whole number"),
        ("0.json", lambda found: found.update(window={"first": "2018-01-01", "last": "2017-12-31"}), "refused 1 (window)"),
        ("0.json", lambda found: found.update(groups=found["groups"][:4]), "not the five groups in their order"),
        ("0.json", lambda found: found.pop("corrected"), "missing or not as it was saved: 'corrected'"),
        ("0.json", lambda found: found.pop("rates_sha256"), "missing or not as it was saved: 'rates_sha256'"),
        ("0.json", lambda found: found.update(carrier=5), "carrier is no text"),
        ("0.json", lambda found: found.update(format="ltd study 3"), 'its "format" is none of'),
        ("0.json", lambda found: found.update(format="ltd study 1"), "by an older ./ltd, which kept no hash of its claims: save it again"),
        ("0.json", lambda found: found.update(claims_sha256="0"), "claims_sha256 is no sha256"),
        ("0y.json", lambda found: found.update(claims_sha256=None), "claims_sha256 is no text"),
        ("0y.json", lambda found: found["groups"][1]["parts"][4].update(thirtieths=999), "groups 2: parts 5: months is"),
        ("0y.json", lambda found: found["groups"][1]["together"].update(death=999), "groups 2: together: death is 999"),
        ("0y.json", lambda found: found["groups"][1]["difference"].update(death=1), "groups 2: difference: death is 1"),
        ("0y.json", lambda found: found["parts"].pop(), "parts"),
        ("0y.json", lambda found: found["parts"][3].update(last="2012-12-30"), "do not follow one another"),
        ("0y.json", lambda found: found.update(adds_up=False), "its parts do not add up"),
        ("0y.json", lambda found: found.update(claims_taken=3), "a claim closes once"),
    )

    def test_each_edit_is_refused(self) -> None:
        for name, edit, message in self.EDITS:
            found = self.saved(name)
            edit(found)
            self.file("edited.json", json.dumps(found))
            said = self.refused("1.json", "edited.json")
            self.assertIn("ltd: 'edited.json': ", said)
            self.assertIn(message, said)

    def test_years_that_were_edited_alike_throughout(self) -> None:
        """Parts, together and difference changed alike: the parts no longer total the window."""
        found = self.saved("0y.json")
        group = found["groups"][1]
        group["parts"][0].update(thirtieths=group["parts"][0]["thirtieths"] + 30, months=group["parts"][0]["months"] + 1)
        group["together"].update(thirtieths=group["together"]["thirtieths"] + 30, months=(group["together"]["thirtieths"] + 30) / 30)
        group["difference"]["thirtieths"] = 30
        self.file("edited.json", json.dumps(found))
        self.assertRegex(self.refused("edited.json"), "its parts do not add up to its window|months is")

    def test_files_that_are_nothing(self) -> None:
        for data in (b"", b"{", b"[]", b"null", b'"x"', b"\xff\xfe", b'{"format": "ltd years 1"}', b'{"format": []}'):
            self.file("bad.json", data)
            self.assertIn("ltd: 'bad.json': ", self.refused("1.json", "bad.json"))
        self.assertIn("there is no published file 'nowhere'", self.ltd("total", "nowhere", status=2).err)

    def test_a_study_of_nothing(self) -> None:
        self.packed([], name="none.claims")
        self.file("none.json", self.ltd("study", "none.claims", "r.bin", "--json").out)
        self.ltd("total", "none.json", "--html", "none.html")
        page = Page((self.folder / "none.html").read_text(encoding="utf-8"))
        self.assertEqual([row[:2] for row in page.tables["Crude monthly rates"][1:]], [["1, 2, 3, 4, 5", "no exposure"], ["all", ""]])


class Intervals(DeskTest):
    """The intervals, by what they mean and by published figures."""

    def test_poisson(self) -> None:
        for count, low, high in ((0, 0.0, 3.6889), (1, 0.0253, 5.5716), (6, 2.2019, 13.0595), (10, 4.7954, 18.3904), (100, 81.3640, 121.6268)):
            self.assertEqual(tuple(round(end, 4) for end in poisson(count)), (low, high))

    def test_poisson_has_its_tails(self) -> None:
        """At its limits a count so low, or so high, has a chance of 2.5 %."""
        for count in (1, 2, 17, 250):
            low, high = poisson(count)
            self.assertAlmostEqual(1 - self.at_most(count - 1, low), 0.025, places=9)
            self.assertAlmostEqual(self.at_most(count, high), 0.025, places=9)

    def at_most(self, count: int, mean: float) -> float:
        """The chance of at most so many, by adding up."""
        term = together = exp(-mean)
        for i in range(1, count + 1):
            term *= mean / i
            together += term
        return together

    def test_many_closings_have_a_narrow_one(self) -> None:
        low, high = poisson(48_487)
        self.assertTrue(0.991 < low / 48_487 < 0.992 and 1.008 < high / 48_487 < 1.009)

    def test_wilson(self) -> None:
        found = wilson(5, 50)
        assert found is not None
        self.assertEqual(tuple(round(end, 4) for end in found), (0.0435, 0.2136))
        self.assertEqual((wilson(0, 0), wilson(1, -1), wilson(3, 2.5)), (None, None, None))
        assert wilson(0, 10) is not None
        self.assertEqual(wilson(0, 10)[0], 0.0)  # type: ignore[index]


class Studies(DeskTest):
    """--carrier in study and years."""

    def test_carrier_and_claims(self) -> None:
        self.packed([Claim(1, "2009-03-13", "2009-06-11")])
        self.file("r.bin", Rates.flat(10_000, 5_000).to_bytes())
        wanted = hashlib.sha256((self.folder / "x.claims").read_bytes()).hexdigest()
        for command in ("study", "years"):
            found = json.loads(self.ltd(command, "x.claims", "r.bin", "--carrier", "Bérénice <Life>", "--json").out)
            self.assertEqual((found["carrier"], found["claims_sha256"]), ("Bérénice <Life>", wanted))
            self.assertEqual(json.loads(self.ltd(command, "x.claims", "r.bin", "--json").out)["carrier"], "")
