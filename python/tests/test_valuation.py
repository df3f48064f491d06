"""valuation, reserve, limit, wanted, small-company and withdraw, against the papers' rules worked out here, and as users get them wrong."""

import csv
import io
import json
import random
from datetime import date, timedelta
from typing import Any, List, Sequence, Tuple

from ltd_study import Claim, Rates, factor, file_study

from .support import PORTFOLIO, DeskTest, any_rates, claim_file, claims_csv, sound_claims

T = (1_000_000, 900_000, 1_500_000, 2_000_000, 1_234_567)
T_WORDS = ("1.0", "0.9", "1.5", "2.0", "1.234567")


def group_of(duration: int) -> int:
    """Document 01's groups: 1 to 3 months; 4 to 24; 25 to 60; 61 to 120; above."""
    return 1 + (duration > 3) + (duration > 24) + (duration > 60) + (duration > 120)


def rate_of(rates: Rates, cell: int, t: Sequence[int], duration: int) -> int:
    """min(1,000,000, floor(T × S / 1,000,000))."""
    return min(1_000_000, t[group_of(duration) - 1] * (rates.recovery(cell, duration) + rates.death(cell, duration)) // 1_000_000)


def reserve_of(rates: Rates, claim: Tuple[int, int, int], t: Sequence[int], v: float) -> float:
    """The loop of document 01, one rounding an operation."""
    cell, first, months = claim
    p, d, together = 1.0, 1.0, 0.0
    for n in range(1, months + 1):
        p *= (1_000_000 - rate_of(rates, cell, t, min(480, first + n - 1))) / 1_000_000
        d *= v
        together += p * d
    return together


class Valuation(DeskTest):
    """A table of random rates, and a study saved with it."""

    def setUp(self) -> None:
        super().setUp()
        self.rng = random.Random(9)
        self.rates = any_rates(self.rng)
        self.file("r.bin", self.rates.to_bytes())
        self.claims = sound_claims(self.rng, 300)
        self.packed(self.claims)
        self.file("s.json", self.ltd("study", "x.claims", "r.bin", "--json").out)
        self.study = file_study(claim_file(self.claims), self.rates)
        self.study_t = [self.study.factor(group).t for group in range(1, 6)]

    def asked(self, *words: object) -> Any:
        """What a command prints as JSON."""
        return json.loads(self.ltd(*words, "--json").out)


class ValuationRates(Valuation):
    """valuation."""

    def test_csv_of_a_study(self) -> None:
        rows = list(csv.DictReader(io.StringIO(self.ltd("valuation", "r.bin", "--t-of", "s.json", "--csv").out)))
        self.assertEqual(len(rows), 2 * 479)
        for row in rows:
            cell, duration = int(row["cell"]), int(row["duration"])
            self.assertEqual(int(row["group"]), group_of(duration))
            self.assertEqual(int(row["t"]), self.study_t[group_of(duration) - 1])
            self.assertEqual(int(row["rate"]), self.rates.recovery(cell, duration) + self.rates.death(cell, duration))
            self.assertEqual(int(row["valuation_rate"]), rate_of(self.rates, cell, self.study_t, duration))
        self.assertIn("1000000", {row["valuation_rate"] for row in rows})

    def test_json_and_words(self) -> None:
        found = self.asked("valuation", "r.bin", "--t", *T_WORDS, "--cell", 1, "--durations", 24, 25)
        self.assertEqual((found["t"], [rate["duration"] for rate in found["rates"]]), (list(T), [24, 25]))
        self.assertEqual(found["rates"][1]["valuation_rate"], rate_of(self.rates, 1, T, 25))
        text = self.ltd("valuation", "r.bin", "--t", *T_WORDS, "--cell", 1, "--durations", 24, 25).out
        self.assertIn("with the T as given: 1.000000, 0.900000, 1.500000, 2.000000, 1.234567", text)
        self.assertIn("recovery plus death rate times the T of the duration's group", text)
        self.assertRegex(text, rf"1 +25 +3 +1\.500000 .* {rate_of(self.rates, 1, T, 25) / 1e6:.6f}\n")

    def test_wrong_use(self) -> None:
        for words, message in (
            (("--t", "1.0"), "expected 5 arguments"),
            (("--t", "1", "1", "1", "1", "1"), "'1' is no T as 1.027931"),
            (("--t", "1.0", "1.0", "1.0", "1.0", "-1.0"), "'-1.0' is no T"),
            (("--t", "1.0", "1.0", "1.0", "1.0", "1.0000001"), "'1.0000001' is no T"),
            ((), "one of the arguments --t --t-of is required"),
            (("--t-of", "nowhere"), "there is no saved file 'nowhere'"),
            (("--t-of", "s.json", "--durations", "1", "3"), "within 2 to 480"),
            (("--t-of", "s.json", "--durations", "9", "8"), "within 2 to 480"),
        ):
            self.assertIn(message, self.ltd("valuation", "r.bin", *words, status=2).err)

    def test_data_refused(self) -> None:
        self.file("other.bin", Rates.flat(1, 1, 2).to_bytes())
        self.file("short.bin", self.rates.to_bytes()[:-4])
        self.file("unsound.bin", Rates.flat(900_000, 200_000).to_bytes())
        self.file("bad.json", "{}")
        saved = json.loads((self.folder / "s.json").read_text())
        saved["groups"][1]["t"] += 1
        self.file("edited.json", json.dumps(saved))
        for words, message in (
            (("other.bin", "--t-of", "s.json"), "were made with another rate table than 'other.bin'"),
            (("short.bin", "--t", *T_WORDS), "refused 6 (rate table)"),
            (("unsound.bin", "--t", *T_WORDS), "cell 0: refused 8 (rate)"),
            (("r.bin", "--t", *T_WORDS, "--cell", 2), "cell 2: refused 7 (cell)"),
            (("r.bin", "--t-of", "bad.json"), "'bad.json': no five T can be read from it"),
            (("r.bin", "--t-of", "edited.json"), "groups 2: t is"),
        ):
            ended = self.ltd("valuation", *words, status=1)
            self.assertIn(message, ended.err)
            self.assertEqual(ended.out, "")


class Reserves(Valuation):
    """reserve and limit."""

    def open_file(self, claims: Sequence[Tuple[int, int, int]]) -> None:
        """Open claims as CSV."""
        self.file("open.csv", "cell,duration,months\n" + "".join(f"{cell},{duration},{months}\n" for cell, duration, months in claims))

    def test_reserve(self) -> None:
        for _ in range(20):
            claim = self.rng.randrange(2), self.rng.randint(2, 480), self.rng.randint(0, 480)
            v = self.rng.choice([1.0, 0.5, 0.99754, self.rng.random()])
            words = ("reserve", "r.bin", "--cell", claim[0], "--first", claim[1], "--months", claim[2], "--v", repr(v), "--t", *T_WORDS)
            self.assertEqual(self.asked(*words)["factor"], reserve_of(self.rates, claim, T, v))
        text = self.ltd(*words).out
        self.assertIn(f"Reserve factor {reserve_of(self.rates, claim, T, v)!r}\n", text)
        self.assertIn("the share still disabled times the discount", text)

    def test_the_papers_figure(self) -> None:
        self.file("flat.bin", Rates.flat(250_000, 250_000).to_bytes())
        words = ("--cell", 0, "--first", 4, "--months", 2, "--v", 0.5, "--t", *["1.0"] * 5)
        self.assertIn("Reserve factor 0.3125\n", self.ltd("reserve", "flat.bin", *words).out)

    def test_reserve_refused(self) -> None:
        for change, message in ((("--first", 1), "refused 12"), (("--months", 481), "refused 12"), (("--v", "0"), "refused 13"), (("--v", "1.01"), "refused 13"),
                                (("--v", "nan"), "refused 13"), (("--cell", 9), "refused 7")):
            words = {"--cell": 0, "--first": 4, "--months": 2, "--v": 0.5}
            words[change[0]] = change[1]  # type: ignore[assignment]
            flat = [word for pair in words.items() for word in pair]
            self.assertIn(message, self.ltd("reserve", "r.bin", *flat, "--t", *T_WORDS, status=1).err)

    def limit_by_hand(self, claims: Sequence[Tuple[int, int, int]], t: Sequence[int], count: int, v: float) -> Tuple[float, float, List[int]]:
        """No. 9, in its own words."""
        replaced = [*t[:2], t[2] if count >= 5_000 else 1_300_000, 1_300_000, 1_300_000]
        totals = [0.0, 0.0]
        for claim in claims:
            totals[0] += reserve_of(self.rates, claim, t, v)
            totals[1] += reserve_of(self.rates, claim, replaced, v)
        return totals[0], totals[1], list(replaced if totals[0] < totals[1] else t)

    def test_limit(self) -> None:
        seen = set()
        for high, count in ((True, 0), (True, 5_000), (False, 4_999), (False, 5_000)):
            t = ["1.0", "1.0", "2.5", "1.9", "1.8"] if high else ["1.0", "1.0", "0.5", "0.4", "0.9"]
            claims = [(self.rng.randrange(2), self.rng.randint(25, 480), self.rng.randint(0, 300)) for _ in range(30)]
            self.open_file(claims)
            found = self.asked("limit", "r.bin", "open.csv", "--v", "0.99", "--t", *t, "--group-3-count", count)
            numbers = [round(float(one) * 1_000_000) for one in t]
            given, replaced, returned = self.limit_by_hand(claims, numbers, count, 0.99)
            self.assertEqual((found["total_given"], found["total_replaced"], found["t"]), (given, replaced, returned))
            self.assertEqual(found["replaced"], given < replaced)
            seen.add(found["replaced"])
            text = self.ltd("limit", "r.bin", "open.csv", "--v", "0.99", "--t", *t, "--group-3-count", count).out
            self.assertIn(f"{given!r}\n", text)
            self.assertIn(f"{replaced!r}\n", text)
            groups = "groups 4 and 5" if count >= 5_000 else "groups 3 to 5"
            self.assertIn(f"of 1.300000 in {groups} would, so the {'replaced' if given < replaced else 'given'} set is returned", text)
        self.assertEqual(seen, {False, True})

    def test_the_t_returned_are_taken_on(self) -> None:
        self.open_file([(0, 30, 120)])
        self.file("l.json", self.ltd("limit", "r.bin", "open.csv", "--v", "0.99", "--t-of", "s.json", "--json").out)
        limited = json.loads((self.folder / "l.json").read_text())
        self.assertEqual((limited["given_t"], limited["group_3_count"]), (self.study_t, self.study.groups[2].terminations))
        self.assertEqual(self.asked("valuation", "r.bin", "--t-of", "l.json")["t"], limited["t"])

    def test_no_open_claims(self) -> None:
        self.open_file([])
        found = self.asked("limit", "r.bin", "open.csv", "--v", "0.99", "--t-of", "s.json")
        self.assertEqual((found["total_given"], found["total_replaced"], found["t"]), (0.0, 0.0, self.study_t))
        self.assertIn("no open claims to judge it on", self.ltd("limit", "r.bin", "open.csv", "--v", "0.99", "--t-of", "s.json").out)

    def test_open_claims_that_are_refused(self) -> None:
        words = ("limit", "r.bin", "open.csv", "--v", "0.99", "--t", *T_WORDS, "--group-3-count", 0)
        for claims, message in (
            ([(0, 25, 1), (0, 24, 1)], "line 3: refused 17 (open claims): cell 0, next duration 24"),
            ([(0, 25, 1), (2, 25, 1), (0, 24, 1)], "line 3: refused 7 (cell)"),
            ([(0, 481, 1)], "line 2: refused 12 (valuation)"),
            ([(0, 25, 481)], "line 2: refused 12 (valuation)"),
            ([(0, 25, 1)] * 2_001, "refused 17 (open claims): 2,001 open claims, at most 2,000"),
        ):
            self.open_file(claims)
            self.assertIn(message, self.ltd(*words, status=1).err)
        self.file("open.csv", "cell,duration,months\n0,x,1\n\n0,25\n")
        ended = self.ltd(*words, status=1)
        for message in ("open.csv: line 2, column duration: 'x' is no whole number", "open.csv: line 4: 2 fields", "2 faults; nothing is judged"):
            self.assertIn(message, ended.err)
        self.file("open.csv", "cell,duration\n")
        self.assertIn("column months: is missing", self.ltd(*words, status=1).err)
        self.assertIn("--group-3-count is needed", self.ltd(*words[:-2], status=2).err)


class Wanted(Valuation):
    """wanted."""

    def test_the_smallest_count(self) -> None:
        for group, closings, wanted in ((2, 1_000, "0.9"), (3, 40, "1.05"), (4, 9, "1.0"), (5, 2_000, "1.4"), (1, 5, "1.0"), (2, 0, "0.3")):
            expected, t = closings * 30_000_000, round(float(wanted) * 1_000_000)
            found = self.asked("wanted", "--group", group, "--t", wanted, "--expected", expected)
            smallest = next(count for count in range(500_001) if factor(group, count, expected).t >= t)
            self.assertEqual((found["count"], found["t"]), (smallest, factor(group, smallest, expected).t))
            self.assertEqual(found["t_below"], factor(group, smallest - 1, expected).t if smallest else None)

    def test_of_a_study(self) -> None:
        sums = self.study.groups[2]
        found = self.asked("wanted", "--group", 3, "--t", "1.1", "--study", "s.json")
        self.assertEqual((found["expected"], found["actual"]), (sums.expected, sums.terminations))
        text = self.ltd("wanted", "--group", 3, "--t", "1.1", "--study", "s.json").out
        self.assertIn(f"{found['count']:,} recoveries and deaths reach a T of 1.100000 in group 3, durations 25 to 60 months", text)
        self.assertIn(f"the study has {sums.terminations:,}", text)
        self.assertIn("It is the smallest count", text)

    def test_refused(self) -> None:
        self.assertIn("refused 19 (no count): group 1", self.ltd("wanted", "--group", 1, "--t", "1.000001", "--expected", 1, status=1).err)
        self.assertIn("no count up to 500,000 has a T of 9.000000", self.ltd("wanted", "--group", 2, "--t", "9.0", "--expected", 10**16, status=1).err)
        self.assertIn("refused 12", self.ltd("wanted", "--group", 6, "--t", "1.0", "--expected", 1, status=2).err)
        self.assertIn("is no expected sum", self.ltd("wanted", "--group", 2, "--t", "1.0", "--expected", "1.5", status=2).err)
        self.assertIn("one of the arguments --study --expected", self.ltd("wanted", "--group", 2, "--t", "1.0", status=2).err)


class SmallCompanies(Valuation):
    """small-company."""

    WORDS = ("--valuation-date", "2012-02-29", "--new", *T_WORDS, "--old", *["1.0"] * 5)

    def counts(self, claims: Sequence[Claim]) -> Tuple[int, int]:
        """No. 14: open claims disabled within two years, and earlier."""
        days = [claim.disability for claim in claims if claim.status == 0]
        return sum(date(2010, 2, 28) <= day <= date(2012, 2, 29) for day in days), sum(day < date(2010, 2, 28) for day in days)  # type: ignore[operator]

    def test_from_csv_and_from_a_claim_file(self) -> None:
        for count in (40, 900):
            claims = sound_claims(self.rng, count)
            self.packed(claims)
            self.file("x.csv", claims_csv(claims))
            found = [self.asked("small-company", name, *self.WORDS) for name in ("x.claims", "x.csv")]
            for one in found:
                self.assertEqual((one["recent"], one["earlier"]), self.counts(claims))
                self.assertEqual(one["exempt"], one["recent"] < 50 and one["earlier"] < 200)
                self.assertEqual(one["t"], [1_000_000] * 5 if one["exempt"] else list(T))
            self.assertEqual({**found[0], "claims_sha256": ""}, {**found[1], "claims_sha256": ""})
            text = self.ltd("small-company", "x.csv", *self.WORDS).out
            self.assertIn("Exempt: both counts" if found[0]["exempt"] else "Group 3 is the first whose new T differs", text)
        self.assertEqual([one["exempt"] for one in found], [False, False])

    def test_edges(self) -> None:
        """The same day two years before is within, 29 February becoming 28; a day after the valuation date is neither."""
        days = (date(2010, 2, 27), date(2010, 2, 28), date(2012, 2, 29), date(2012, 3, 1))
        self.packed([Claim(i, day, day + timedelta(days=90)) for i, day in enumerate(days)])
        found = self.asked("small-company", "x.claims", *self.WORDS)
        self.assertEqual((found["recent"], found["earlier"], found["exempt"]), (2, 1, True))

    def test_corrected(self) -> None:
        early = Claim(1, "2005-01-01", "2005-04-01")
        self.packed([early, Claim(1, "2011-01-01", "2011-04-01"), early, Claim(1, "2005-01-01", "2005-04-01", "2011-01-01", status=1, code=1)])
        self.assertEqual(self.asked("small-company", "x.claims", *self.WORDS)["earlier"], 2)
        found = self.asked("small-company", "x.claims", "--corrected", *self.WORDS)
        self.assertEqual((found["recent"], found["earlier"], found["claims"]), (0, 0, 1))

    def test_numbers_that_stand_more_than_once(self) -> None:
        claims = [Claim(number, "2005-01-01", "2005-04-01") for number in (1, 7, 3, 7, 1, 7)]
        self.packed(claims)
        self.file("x.csv", claims_csv(claims))
        note = "2 claim numbers stand more than once (1, 7), and every record counts; with --corrected only the last"
        for name in ("x.claims", "x.csv"):
            found = self.asked("small-company", name, *self.WORDS)
            self.assertEqual((found["corrected"], found["repeated_numbers"], found["claims"]), (False, [1, 7], 6))
            ended = self.ltd("small-company", name, *self.WORDS)
            self.assertEqual((ended.err, ended.out.count(f"\nnote: {note}\n")), (f"ltd: note: {note}\n", 1))
            found = self.asked("small-company", name, "--corrected", *self.WORDS)
            self.assertEqual((found["corrected"], found["repeated_numbers"], found["claims"]), (True, [], 3))
            ended = self.ltd("small-company", name, "--corrected", *self.WORDS)
            self.assertEqual((ended.err, "note: " in ended.out), ("", False))
            self.assertIn("with corrections: of each claim number only the last record counts", ended.out)

    def test_what_is_wrong(self) -> None:
        self.packed([Claim(7, "2005-01-01", "2005-04-01"), Claim(8, "2005-01-01", "2005-01-02")])
        ended = self.ltd("small-company", "x.claims", *self.WORDS, status=1)
        self.assertIn("'x.claims': refused 5 (short elimination) at record 2 (claim number 8)", ended.err)
        self.file("x.csv", "number\n1\n")
        self.assertIn("nothing is counted", self.ltd("small-company", "x.csv", *self.WORDS, status=1).err)
        self.file("y.claims", (self.folder / "x.claims").read_bytes()[:-1])
        self.assertIn("refused 11 (block) at block 1", self.ltd("small-company", "y.claims", *self.WORDS, status=1).err)
        self.assertIn("refused 2 (date)", self.ltd("small-company", "x.claims", "--valuation-date", "1940-01-01", *self.WORDS[2:], status=2).err)
        self.assertIn("there is no file of claims 'nowhere'", self.ltd("small-company", "nowhere", *self.WORDS, status=2).err)


class Withdrawals(Valuation):
    """withdraw."""

    def test_it_is_the_study_of_the_claims_remaining(self) -> None:
        back = self.rng.sample(self.claims, 40)
        remaining = list(self.claims)
        for claim in back:
            remaining.remove(claim)
        self.file("back.csv", claims_csv(back))
        self.packed(back, name="back.claims")
        want = file_study(claim_file(remaining), self.rates)
        for name in ("back.csv", "back.claims"):
            ended = self.ltd("withdraw", "s.json", name, "r.bin", "--among", "x.claims", "--json")
            found = json.loads(ended.out)
            self.assertEqual((found["claims_taken"], [group["t"] for group in found["groups"]]), (260, [want.factor(i).t for i in range(1, 6)]))
            self.assertEqual([group["thirtieths"] for group in found["weighted"]], [group.thirtieths for group in want.weighted])
            self.assertIn("40 claims taken back, 260 claims remaining", ended.err)
        self.packed(remaining, name="remaining.claims")
        wanted = self.ltd("study", "remaining.claims", "r.bin", "--csv", "--weighted").out
        self.assertEqual(self.ltd("withdraw", "s.json", "back.csv", "r.bin", "--csv", "--weighted").out, wanted)

    def test_taken_back_in_two_steps_with_a_page(self) -> None:
        self.packed(self.claims[:2], name="a.claims")
        self.packed(self.claims[2:4], name="b.claims")
        self.file("s2.json", self.ltd("withdraw", "s.json", "a.claims", "r.bin", "--json").out)
        self.ltd("withdraw", "s2.json", "b.claims", "r.bin", "--html", "w.html")
        page = (self.folder / "w.html").read_text(encoding="utf-8")
        self.assertIn("296 claims taken", page)
        self.assertIn("claims taken back: b.claims, sha256", page)

    def test_what_is_wrong(self) -> None:
        self.packed(self.claims[:1], name="one.claims")
        self.packed(self.claims[:1] * 2, name="twice.claims")
        other = Claim(1, "2009-01-01", "2009-04-01", benefit=3)
        self.packed([self.claims[0], other], name="other.claims")
        self.packed([self.claims[0], Claim(5, "2009-01-01", "2008-04-01")], name="bad.claims")
        self.packed([], name="none.claims")
        self.file("none.json", self.ltd("study", "none.claims", "r.bin", "--json").out)
        self.file("z.bin", Rates.flat(1, 1, 2).to_bytes())
        among = ("--among", "x.claims")
        for words, message in (
            (("s.json", "twice.claims", "r.bin", *among), "taken back more often than it stands in 'x.claims'; nothing is withdrawn"),
            (("s.json", "other.claims", "r.bin", *among), "record 2 (claim number 1): no record with these fields stands in 'x.claims'"),
            (("s.json", "bad.claims", "r.bin"), "refused 4 (sequence) at record 2 (claim number 5); nothing is withdrawn"),
            (("none.json", "one.claims", "r.bin"), "refused 18 (withdrawal) at record 1"),
            (("s.json", "one.claims", "z.bin"), "was made with another rate table than 'z.bin'"),
            (("r.bin", "one.claims", "r.bin"), "'r.bin': "),
        ):
            ended = self.ltd("withdraw", *words, status=1)
            self.assertIn(message, ended.err)
            self.assertEqual(ended.out, "")
        self.assertIn("--among CLAIMS verifies", self.ltd("withdraw", "s.json", "one.claims", "r.bin").err)

    def test_a_pool(self) -> None:
        self.file("pool.json", self.ltd("pool", "s.json", "--json").out)
        self.packed(self.claims[:1], name="one.claims")
        self.assertIn("'pool.json' is a pool: a claim is taken back from the study of its own file", self.ltd("withdraw", "pool.json", "one.claims", "r.bin", status=1).err)

    def test_what_is_saved_is_a_study(self) -> None:
        """It can be pooled, and not with the study that it was."""
        self.packed(self.claims[:1], name="one.claims")
        self.file("less.json", self.ltd("withdraw", "s.json", "one.claims", "r.bin", "--json").out)
        self.assertIn("299 claims taken", self.ltd("pool", "less.json").out)
        self.assertIn("'less.json' is a study of the same claim file as 's.json'", self.ltd("pool", "s.json", "less.json", status=1).err)

    def test_a_corrected_study(self) -> None:
        claims = [Claim(1, "2009-01-01", "2009-04-01"), Claim(1, "2009-01-01", "2009-05-01")]
        self.packed(claims)
        self.file("c.json", self.ltd("study", "x.claims", "r.bin", "--corrected", "--json").out)
        for i, status in ((0, 1), (1, 0)):
            self.packed(claims[i : i + 1], name="back.claims")
            self.ltd("withdraw", "c.json", "back.claims", "r.bin", "--among", "x.claims", status=status)


class WithdrawalNotes(DeskTest):
    """What a withdrawal says of the claims remaining."""

    def setUp(self) -> None:
        super().setUp()
        self.example()

    def test_numbers_still_repeated(self) -> None:
        rows = (PORTFOLIO / "claims.csv").read_text().splitlines()
        record = next(row for row in rows if row.startswith("1006,"))
        self.file("back.csv", f"{rows[0]}\n{record}\n")
        self.file("s.json", self.ltd("study", "claims.claims", "rates.bin", "--json").out)
        words = ("withdraw", "s.json", "back.csv", "rates.bin")
        for more, numbers, note in (
            ((), [1006, 1031], "2 claim numbers stand more than once (1006, 1031)"),
            (("--among", "claims.claims"), [1031], "1 claim number stands more than once (1031)"),
        ):
            self.assertEqual(json.loads(self.ltd(*words, *more, "--json").out)["repeated_numbers"], numbers)
            ended = self.ltd(*words, *more, "--html", "w.html")
            for text in (ended.out, ended.err, (self.folder / "w.html").read_text(encoding="utf-8")):
                self.assertIn(f"{note}, and every record counts", text)

    def test_claims_left_out(self) -> None:
        self.file("s.json", self.ltd("study", "faulty.claims", "rates.bin", "--accepted", "--json").out)
        rows = (PORTFOLIO / "faulty.csv").read_text().splitlines()
        taken = json.loads((self.folder / "s.json").read_text())["left_out"]
        record = next(row for row in rows[1:] if int(row.split(",")[0]) not in [one["number"] for one in taken])
        self.file("back.csv", f"{rows[0]}\n{record}\n")
        ended = self.ltd("withdraw", "s.json", "back.csv", "rates.bin", "--among", "faulty.claims", "--html", "w.html")
        for text in (ended.out, ended.err, (self.folder / "w.html").read_text(encoding="utf-8")):
            self.assertIn("6 claims are refused and left out, as the study lists", text)
        self.assertIn("Refused and left out", ended.out)


class Examples(DeskTest):
    """The examples of the helps, one after the other, on the made-up portfolio."""

    def test_they_run(self) -> None:
        self.example()
        self.file("study.json", self.ltd("study", "claims.claims", "rates.bin", "--json").out)
        v = ("--v", "0.99754", "--t-of", "study.json")
        self.assertIn("Valuation rates", self.ltd("valuation", "rates.bin", "--t-of", "study.json").out)
        self.assertIn("Reserve factor", self.ltd("reserve", "rates.bin", "--cell", 0, "--first", 25, "--months", 120, *v).out)
        self.assertIn("20 open claims", self.ltd("limit", "rates.bin", PORTFOLIO / "open.csv", *v).out)
        self.assertIn("reach a T of 1.050000", self.ltd("wanted", "--group", 3, "--t", "1.05", "--study", "study.json").out)
        words = ("--valuation-date", "2014-12-31", "--corrected", "--new-of", "study.json", "--old", *["1.0"] * 5)
        self.assertIn("Exempt", self.ltd("small-company", PORTFOLIO / "claims.csv", *words).out)
        among = ("--among", PORTFOLIO / "claims.csv")
        self.assertIn("45 claims taken", self.ltd("withdraw", "study.json", PORTFOLIO / "mistaken.csv", "rates.bin", *among).out)
