"""pool: studies joined in any grouping, what it says of them, and saved studies that were edited."""

import copy
import json
import random
from typing import Any, Callable, Dict

from ltd_study import Rates
from ltd_study.desk.study_json import of_json, to_json

from .support import DeskTest, any_rates, sound_claims
from .test_page import Page


class PoolTest(DeskTest):
    """Four studies of one window with one table."""

    def setUp(self) -> None:
        super().setUp()
        rng = random.Random(3)
        self.rates, self.claims = any_rates(rng), sound_claims(rng, 120)
        self.file("r.bin", self.rates.to_bytes())
        for i in range(4):
            self.packed(self.claims[i::4], name=f"{i}.claims")
            self.saved(f"{i}.json", f"{i}.claims", "--carrier", f"Carrier {i}")
        self.packed(self.claims)
        self.whole = of_json(self.ltd("study", "x.claims", "r.bin", "--json").out)

    def saved(self, name: str, *words: object) -> None:
        """A study kept as JSON."""
        self.file(name, self.ltd("study", words[0], "r.bin", "--json", *words[1:]).out)

    def pooled(self, name: str, *names: str) -> str:
        """Pools studies into another saved one."""
        self.file(name, self.ltd("pool", *names, "--json").out)
        return name

    def page(self, *words: object) -> Page:
        """The page of a pool."""
        self.ltd("pool", *words, "--html", "pool.html")
        return Page((self.folder / "pool.html").read_text(encoding="utf-8"))


class Pools(PoolTest):
    """Studies saved as JSON and joined."""

    def test_any_order_and_grouping(self) -> None:
        at_once = self.pooled("a.json", "0.json", "1.json", "2.json", "3.json")
        by_pairs = self.pooled("b.json", self.pooled("c.json", "3.json", "1.json"), self.pooled("d.json", "2.json", "0.json"))
        for name in (at_once, by_pairs):
            found = of_json((self.folder / name).read_text())
            self.assertEqual((found.study, found.rates_sha256), (self.whole.study, self.whole.rates_sha256))
            self.assertEqual(sorted(one.carrier for one in found.pooled), [f"Carrier {i}" for i in range(4)])
        self.assertEqual(self.ltd("pool", "a.json", "--csv", "--weighted").out, self.ltd("study", "x.claims", "r.bin", "--csv", "--weighted").out)
        tables = self.ltd("study", "x.claims", "r.bin").out.split("\n\n", 1)[1]
        self.assertIn(tables, self.ltd("pool", "a.json").out)

    def test_saved_and_read_again(self) -> None:
        self.assertEqual(of_json(to_json(self.whole)), self.whole)
        found = of_json((self.folder / self.pooled("a.json", "0.json", "1.json")).read_text())
        self.assertEqual(of_json(to_json(found)), found)

    def test_the_pooled_files_are_listed(self) -> None:
        self.pooled("a.json", "0.json", "1.json")
        page = self.page("a.json", "2.json")
        head, *rows = page.tables["Pooled studies"]
        named = [dict(zip(head, row)) for row in rows]
        self.assertEqual([row["file"] for row in named], ["a.json: 0.json", "a.json: 1.json", "2.json"])
        for i, row in enumerate(named):
            saved = of_json((self.folder / f"{i}.json").read_text())
            self.assertEqual((row["carrier"], row["claims taken"], row["sha256 of the claims"]), (f"Carrier {i}", "30", saved.claims_sha256))
            self.assertEqual(row["numbers repeated"], str(len(saved.repeated_numbers)))
        self.assertEqual(page.texts["h1"], "Disability study, 3 studies pooled")
        self.assertIn(f"Rate table: sha256 {self.rates.sha256}", page.texts["p"])
        text = self.ltd("pool", "0.json", "1.json").out
        self.assertRegex(text, r"(?m)^1\.json  Carrier 1 +30  no ")

    def test_corrections_in_some(self) -> None:
        self.saved("c.json", "3.claims", "--corrected")
        words = "with corrections: of each claim number only the last record counts"
        for names, line in ((("0.json", "1.json", "c.json"), f"in 1 of 3 studies {words}"), (("c.json",), words), (("0.json",), None)):
            text, page = self.ltd("pool", *names).out, self.page(*names)
            found = [one for one in text.splitlines() if "with corrections" in one]
            self.assertEqual(found, [line] if line else [])
            self.assertTrue(line is None or line in page.texts["p"])
        self.assertFalse(of_json(self.ltd("pool", "0.json", "c.json", "--json").out).corrected)
        self.assertTrue(of_json(self.ltd("pool", "c.json", "--json").out).corrected)

    def test_the_same_claims_twice(self) -> None:
        self.file("copy.json", (self.folder / "0.json").read_bytes())
        self.saved("corrected.json", "0.claims", "--corrected")
        self.pooled("a.json", "0.json", "1.json")
        for names in (("0.json", "0.json"), ("0.json", "copy.json"), ("1.json", "0.json", "corrected.json"), ("a.json", "0.json"), ("0.json", "a.json")):
            ended = self.ltd("pool", *names, status=1)
            self.assertRegex(ended.err, r"^ltd: '.*' is a study of the same claim file as '.*' \(claims_sha256 [0-9a-f]{64}\): its claims would count twice")
            self.assertEqual(ended.out, "")
        ended = self.ltd("pool", "0.json", "copy.json", "--again")
        self.assertIn("60 claims taken", ended.out)
        self.assertIn("note: 1 study is of a claim file that is in the pool already", ended.err)

    def test_notes_of_the_studies(self) -> None:
        repeated = sum(len(of_json((self.folder / f"{i}.json").read_text()).repeated_numbers) for i in range(4))
        self.assertGreater(repeated, 1)
        page = self.page("0.json", "1.json", "2.json", "3.json")
        self.assertIn(f"{repeated} claim numbers stand more than once in one study, and every record counts", page.texts["p"])

    def test_other_windows_and_rates(self) -> None:
        self.packed(self.claims, ("2009-01-01", "2010-12-31"), name="y.claims")
        self.saved("y.json", "y.claims")
        self.assertEqual(self.ltd("pool", "0.json", "y.json", status=1).err, "ltd: 'y.json': refused 15 (other window)\n")
        self.file("s.bin", Rates.flat(1, 1, 2).to_bytes())
        self.file("z.json", self.ltd("study", "1.claims", "s.bin", "--json").out)
        self.assertIn("'z.json' was made with another rate table than '0.json'", self.ltd("pool", "0.json", "z.json", status=1).err)


class EditedStudies(PoolTest):
    """What is no study, or no longer the one that was saved, is refused by name."""

    def refused(self, reason: str, content: object) -> None:
        """A file of this content, the first of a pool."""
        self.file("bad.json", content if isinstance(content, str) else json.dumps(content))
        ended = self.ltd("pool", "bad.json", "1.json", status=1)
        self.assertIn("ltd: 'bad.json': ", ended.err)
        self.assertIn(reason, ended.err)
        self.assertEqual((ended.out, len(ended.err.splitlines())), ("", 1))

    def test_files_that_are_no_study(self) -> None:
        good = json.loads((self.folder / "0.json").read_text())
        groups = good["groups"]
        broken: Dict[str, object] = {
            "no JSON": "{",
            'no "format"': "[]",
            'saved as "ltd study 1" by an older ./ltd': {**good, "format": "ltd study 1"},
            "missing or not as it was saved: 'claims_taken'": {key: good[key] for key in good if key != "claims_taken"},
            "missing or not as it was saved: 'claims_sha256'": {key: good[key] for key in good if key != "claims_sha256"},
            "thirtieths is no whole number": {**good, "groups": [{**groups[0], "thirtieths": 1.5}, *groups[1:]]},
            "not the five groups": {**good, "weighted": good["weighted"][:4]},
            "refused 1 (window)": {**good, "window": {"first": "2010-01-01", "last": "2009-01-01"}},
            "Invalid isoformat": {**good, "window": {"first": "then", "last": "2009-01-01"}},
            "from -9223372036854775808": {**good, "groups": [{**groups[0], "thirtieths": 2**63}, *groups[1:]]},
            "refused 9 (full)": {**good, "claims_taken": 500_001},
            "carrier is no text": {**good, "carrier": 7},
            "a repeated number is no whole number": {**good, "repeated_numbers": ["x"]},
            "not as it was saved: 99": {**good, "left_out": [{**dict.fromkeys(("block", "place", "line", "number", "why"), 1), "refused": 99}]},
            "claims_taken is no whole number": {**good, "pooled": [{"file": "", "carrier": "", "claims_sha256": good["claims_sha256"], "claims_taken": ""}]},
            "rates_sha256 is no sha256": {**good, "rates_sha256": "x"},
        }
        for reason, content in broken.items():
            self.refused(reason, content)
        self.file("bad.json", b"\xff\xfe")
        self.assertIn("ltd: 'bad.json': ", self.ltd("pool", "bad.json", status=1).err)

    def edited(self, reason: str, edit: Callable[[Dict[str, Any]], None]) -> None:
        """A saved study with one edit."""
        study = copy.deepcopy(json.loads((self.folder / "0.json").read_text()))
        edit(study)
        self.refused(reason, study)

    def test_counts(self) -> None:
        self.edited("claims_taken is -1, and no count is negative", lambda study: study.update(claims_taken=-1))
        self.edited("recovery of group 2 is -1, and no count is negative", lambda study: study["groups"][1].update(recovery=-1))
        self.edited("death of group 3 is -2, and no count is negative", lambda study: study["weighted"][2].update(death=-2))
        self.edited("limit of group 5 is 0, and 1 weighted: that is not 1 to 200 times", lambda study: study["weighted"][4].update(limit=1))
        closings = sum(json.loads((self.folder / "0.json").read_text())["total"][name] for name in ("recovery", "death", "settlement", "max_out", "limit"))
        self.assertGreater(closings, 3)
        self.edited(f"{closings} closings of 3 claims taken, and a claim closes once", lambda study: study.update(claims_taken=3))

    def test_what_follows_from_the_sums(self) -> None:
        found = json.loads((self.folder / "0.json").read_text())
        for name in ("z", "m", "t"):
            figure = found["groups"][1][name]
            self.edited(f"groups 2: {name} is {figure + 1}, and from the sums follows {figure}", lambda study: study["groups"][1].update({name: figure + 1}))
        for part in ("total", "weighted_total"):
            for name in ("thirtieths", "recovery", "expected_deaths", "expected"):
                figure = found[part][name]
                self.edited(f"{part}: {name} is {figure + 30}, and from the sums follows {figure}", lambda study: study[part].update({name: figure + 30}))
        self.edited("groups 3: actual is ", lambda study: study["groups"][2].update(actual=77))
        self.edited("weighted 3: months is ", lambda study: study["weighted"][2].update(months=0.5))
        self.edited("groups 4: t is missing", lambda study: study["groups"][3].pop("t"))
        self.edited("corrected is ", lambda study: study.update(corrected="yes"))

    def test_a_sum_changed_alone(self) -> None:
        found = json.loads((self.folder / "0.json").read_text())
        for group in range(5):
            for name in ("thirtieths", "expected_recoveries", "expected_deaths"):
                for part in ("groups", "weighted"):
                    self.edited(f"{part} {group + 1}: ", lambda study: study[part][group].update({name: found[part][group][name] + 1}))

    def test_claims_of_a_pool(self) -> None:
        self.pooled("a.json", "2.json", "3.json")
        study = json.loads((self.folder / "a.json").read_text())
        study["pooled"][0]["claims_taken"] += 1
        self.refused("claims_taken is 60, and that of its pooled studies together 61", study)
        study["pooled"] = []
        self.refused("claims_sha256 is no sha256", study)
