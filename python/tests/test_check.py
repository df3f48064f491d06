"""check: every claim that would be refused, against the second implementation's own program."""

import csv
import io
import random
import subprocess
from typing import Dict, List, Tuple
from unittest import mock

from ltd_study import Claim, ClaimFile, NoDate, Rates, Study, file_study
from ltd_study.claim_file import BLOCK_LENGTH, claim_block
from ltd_study.desk import checking
from ltd_study.desk.broken_rules import broken_rule
from ltd_study.desk.checking import Checked

from .support import PORTFOLIO, SECOND_STUDY, WINDOW, DeskTest, any_claim, any_rates, claim_file, sound_claim

MOST_IN_BLOCK = 15


def found(file: ClaimFile, rates: Rates, corrected: bool = False) -> List[Tuple[int, int, int]]:
    """Block, place and number of each refusal."""
    return [(one.block, one.place, one.refused) for one in Checked(file, rates, corrected).refusals()]


class AgainstTheSecond(DeskTest):
    """The study of a file stops at its first refusal; with that claim struck it stops at the next."""

    def second(self, data: bytes, rates: Rates) -> List[str]:
        """What the second implementation's program prints."""
        self.assertTrue(SECOND_STUDY.is_file(), f"build the second implementation: there is no '{SECOND_STUDY}'")
        self.file("rates.bin", rates.to_bytes())
        run = subprocess.run([str(SECOND_STUDY)], cwd=self.folder, input=data, capture_output=True, timeout=60, check=True)
        return run.stdout.decode().split("\n")

    def struck(self, claims: List[Claim], rates: Rates) -> Tuple[List[Tuple[int, int, int]], List[Claim]]:
        """The refusals that the second implementation finds, one after the other, and the claims left."""
        left = [(i // MOST_IN_BLOCK + 1, i % MOST_IN_BLOCK + 1, claim) for i, claim in enumerate(claims)]
        refusals = []
        while True:
            words = self.second(claim_file(claim for _, _, claim in left).data, rates)[0].split()
            if words[0] != "refused":
                return refusals, [claim for _, _, claim in left]
            number, block, place = int(words[1]), int(words[3]), int(words[5])
            struck = left.pop((block - 1) * MOST_IN_BLOCK + place - 1)
            refusals.append((struck[0], struck[1], number))

    def test_random_faults(self) -> None:
        rng = random.Random(2828)
        seen = set()
        for _ in range(3):
            numbers = list(any_rates(rng, 4).numbers)
            numbers[2 * 958 + 7] = 1_000_001
            rates = Rates(numbers)
            claims = [any_claim(rng, i, 4) for i in range(90)]
            refusals, left = self.struck(claims, rates)
            self.assertEqual(found(claim_file(claims), rates), refusals)
            self.assertEqual(found(claim_file(left), rates), [])
            self.assertEqual(file_study(claim_file(left), rates).claims_taken, len(left))
            seen |= {number for _, _, number in refusals}
        self.assertEqual(seen, {2, 3, 4, 5, 7, 8, 16})

    def test_a_rate_table_of_the_wrong_length(self) -> None:
        rng = random.Random(6)
        claims = [any_claim(rng, i, 2) for i in range(40)]
        for rates in (Rates([]), Rates([1] * 957), Rates([0] * 959)):
            refusals, left = self.struck(claims, rates)
            self.assertEqual((found(claim_file(claims), rates), left), (refusals, []))
            self.assertIn(6, {number for _, _, number in refusals})

    def test_tables_are_the_same(self) -> None:
        rng = random.Random(7)
        rates, claims = any_rates(rng, 2), [sound_claim(rng, i) for i in range(200)]
        study = file_study(claim_file(claims), rates)
        rows = self.second(claim_file(claims).data, rates)[1:6]
        for i, row in enumerate(rows):
            self.assertEqual([int(word) for word in row.split()], [i + 1, *study.groups[i], study.factor(i + 1).t])


class FaultsOfTheFile(DeskTest):
    """Refusals 1 and 11, full studies and corrections."""

    def setUp(self) -> None:
        super().setUp()
        rng = random.Random(11)
        self.rates = any_rates(rng)
        self.claims = [sound_claim(rng, i) for i in range(40)]
        self.claims[3] = Claim(3, "2010-01-01", "2010-01-10")

    def test_a_refused_window_hides_nothing(self) -> None:
        file = claim_file(self.claims, ("2012-01-01", "2011-01-01"))
        self.assertEqual(found(file, self.rates), [(0, 0, 1), (1, 4, 5)])

    def test_faulty_blocks(self) -> None:
        data = bytearray(claim_file(self.claims).data)
        data[100] ^= 1
        data[2 * BLOCK_LENGTH + 20] ^= 1
        self.assertEqual(found(ClaimFile(data), self.rates), [(0, 0, 11), (1, 4, 5), (2, 0, 11)])
        self.assertEqual(found(ClaimFile(data[:-1]), self.rates), [(0, 0, 11), (1, 4, 5), (2, 0, 11), (3, 0, 11)])
        self.assertEqual(found(ClaimFile(b""), self.rates), [(0, 0, 11)])
        self.assertEqual(found(ClaimFile(b"x"), self.rates), [(0, 0, 11)])
        wrong_number = claim_file([]).data + claim_block(2, self.claims[0].record)
        self.assertEqual(found(ClaimFile(wrong_number), self.rates), [(1, 0, 11)])

    def test_a_full_study(self) -> None:
        nearly_full = Study.open(*WINDOW).numbers
        nearly_full[2] = 499_998
        # The study that the claims are added to holds all but two of those that it may.
        with mock.patch.object(checking, "Study") as patched:
            patched.open.side_effect = [Study(nearly_full), Study(nearly_full)]
            refusals = found(claim_file(self.claims[:6]), self.rates)
        self.assertEqual(refusals, [(1, 3, 9), (1, 4, 5), (1, 5, 9), (1, 6, 9)])

    def test_corrected_claims_are_not_looked_at(self) -> None:
        self.claims[30] = sound_claim(random.Random(1), 3)
        file = claim_file(self.claims)
        self.assertEqual(found(file, self.rates, corrected=True), [])
        self.assertEqual(file_study(file, self.rates, corrected=True).claims_taken, 39)
        self.claims[3], self.claims[30] = self.claims[30], self.claims[3]
        self.assertEqual(found(claim_file(self.claims), self.rates, corrected=True), [(3, 1, 5)])

    def test_too_many_records_to_correct(self) -> None:
        claim = self.claims[0]
        file = claim_file([claim] * 60_001)
        self.assertEqual(found(file, self.rates, corrected=True), [(0, 0, 14)])
        self.assertEqual(found(claim_file([claim] * 60_000), self.rates, corrected=True), [])


class Rules(DeskTest):
    """The rule of each number in words, with the fields that break it."""

    def why(self, number: int, rates: Rates = Rates.flat(1, 1), **fields: object) -> str:
        """The words of a claim that is sound but for some fields; the engine refuses it under the number."""
        sound = {"number": 1, "disability": "2010-12-01", "bcd": "2011-03-01", "termination": "2012-02-01", "status": 1, "code": 1}
        claim = Claim(**{**sound, **fields})  # type: ignore[arg-type]
        self.assertEqual(Study.open(*WINDOW).try_add(claim, rates), number)
        return broken_rule(claim, number, rates)

    def test_dates(self) -> None:
        self.assertEqual(self.why(2, disability=None), "disability is missing")
        both = "disability 2001-02-29 is no date; BCD 2100-01-01 is not in 1950-01-01 to 2099-12-31"
        self.assertEqual(self.why(2, disability=NoDate(2001, 2, 29), bcd="2100-01-01"), both)
        self.assertEqual(self.why(2, termination=None), "termination of a closed claim is missing")
        self.assertEqual(self.why(2, maximum=NoDate(2010, 13, 1)), "maximum 2010-13-01 is no date")

    def test_status(self) -> None:
        self.assertEqual(self.why(3, status=2), "status 2 is neither 0 (open) nor 1 (closed)")
        self.assertEqual(self.why(3, status=0), "an open claim has code recovery; an open claim has termination 2012-02-01")
        self.assertEqual(self.why(3, code=0), "a closed claim has code none")
        self.assertEqual(self.why(3, code=7), "a closed claim has code 7")

    def test_sequence(self) -> None:
        self.assertEqual(self.why(4, termination="2011-02-01"), "termination 2011-02-01 is before BCD 2011-03-01")
        both = "BCD 2010-11-30 is before disability 2010-12-01; termination 2010-11-29 is before BCD 2010-11-30"
        self.assertEqual(self.why(4, bcd="2010-11-30", termination="2010-11-29"), both)
        self.assertEqual(self.why(4, disability="2012-01-01", bcd="2011-01-01"), "BCD 2011-01-01 is before disability 2012-01-01")

    def test_the_rate_table(self) -> None:
        self.assertEqual(self.why(6, Rates([1] * 957)), "the rate table has 957 numbers, and not 958 for each of 1 to 1,024 cells")
        numbers = list(Rates.flat(1, 1, 2).numbers)
        numbers[958 + 7] = 1_000_000
        words = "recovery and death of cell 1, duration 9 are 1,000,001 millionths together, over 1,000,000"
        self.assertEqual(self.why(8, Rates(numbers), cell=1), words)

    def test_every_refusal_of_random_claims_has_words(self) -> None:
        rng = random.Random(99)
        numbers = list(any_rates(rng, 4).numbers)
        numbers[2 * 958 + 7] = 1_000_001
        refusals = list(Checked(claim_file([any_claim(rng, i, 4) for i in range(2000)]), Rates(numbers)).refusals())
        self.assertGreater(len(refusals), 1000)
        self.assertEqual([found for found in refusals if not found.why], [])

    def test_faults_of_the_file(self) -> None:
        def words(data: bytes) -> List[str]:
            return [found.why for found in Checked(ClaimFile(data), Rates.flat(1, 1)).refusals()]

        self.assertEqual(words(claim_file([], ("2012-01-01", "2011-01-01")).data), ["the window's last day 2011-01-01 is before its first, 2012-01-01"])
        self.assertEqual(words(claim_file([], (NoDate(2012, 2, 30), "2013-01-01")).data), ["the window's first day 2012-02-30 is no date"])
        self.assertEqual(words(b""), ["the file ends 0 bytes into the block, which has 512"])
        self.assertEqual(words(claim_file([]).data + b"part"), ["the file ends 4 bytes into the block, which has 512"])
        self.assertEqual(words(claim_file([]).data + bytes(512)), ["the block's number, count, zero bytes or check is wrong"])


class Lines(DeskTest):
    """The CSV's lines, where they were kept beside the claim file."""

    def setUp(self) -> None:
        super().setUp()
        self.example()
        self.belongs("faulty.claims")
        self.rows = ["block,place,line", *(f"1,{place},{10 * place}" for place in range(1, 9))]

    def check(self, status: int = 1) -> List[Dict[str, str]]:
        """The rows of check's CSV, with its notes."""
        ended = self.ltd("check", "faulty.claims", "rates.bin", "--csv", status=status)
        self.said = ended.err
        return list(csv.DictReader(io.StringIO(ended.out)))

    def test_lines_are_named(self) -> None:
        self.file("faulty.claims.lines.csv", "\n".join(self.rows) + "\n")
        self.assertEqual([(row["place"], row["line"]) for row in self.check()], [(str(place), str(10 * place)) for place in range(2, 8)])
        self.assertRegex(self.ltd("check", "faulty.claims", "rates.bin", status=1).out, r"(?m)^ +1 +4 +40 +9004 +4  sequence")
        (self.folder / "faulty.claims.lines.csv").unlink()
        self.assertEqual({row["line"] for row in self.check()}, {""})

    def test_lines_of_another_file(self) -> None:
        broken = ("", "block,place\n", "\n".join(self.rows[:-1]), "\n".join([*self.rows[:-1], "1,8"]), "\n".join([*self.rows[:-1], "1,8,x"]))
        for text in broken:
            self.file("faulty.claims.lines.csv", text)
            self.assertEqual({row["line"] for row in self.check()}, {""})
            self.assertEqual(self.said, "ltd: note: 'faulty.claims.lines.csv' is not of the claim file 'faulty.claims', and no lines are named\n")
        self.file("faulty.claims.lines.csv", "\n".join(self.rows) + "\n")
        self.file("faulty.claims.how.toml", f'sha256 = "{"0" * 64}"\n')
        self.assertEqual({row["line"] for row in self.check()}, {""})
        self.assertIn("is not of the claim file 'faulty.claims'", self.said)

    def test_lines_of_a_map(self) -> None:
        """The extract's own lines: two title lines stand above the header."""
        self.file("in.csv", "Claims\n\n" + (PORTFOLIO / "faulty.csv").read_text())
        self.file("m.toml", self.ltd("map", "in.csv", "--title-lines", 2).out)
        self.ltd("pack", "in.csv", "faulty.claims", "--map", "m.toml", "--window", "2010-03-01", "2014-12-31")
        self.assertEqual([(row["place"], row["line"]) for row in self.check()], [(str(place), str(place + 3)) for place in range(2, 8)])


class Output(DeskTest):
    """What the command prints."""

    def test_the_faulty_example(self) -> None:
        self.example()
        ended = self.ltd("check", "faulty.claims", "rates.bin", status=1)
        for row in (
            r"1 +2 +9002 +2  date +disability 1949-12-31 is not in 1950-01-01 to 2099-12-31",
            r"1 +3 +9003 +3  status +an open claim has termination 2011-05-05",
            r"1 +4 +9004 +4  sequence +termination 2010-04-03 is before BCD 2010-04-04",
            r"1 +5 +9005 +16  benefit +benefit 201 is over 200; it is in hundreds of dollars",
            r"1 +6 +9006 +5  short elimination  BCD 2010-01-18 is 14 days after disability 2010-01-04, and 15 are the fewest",
            r"1 +7 +9007 +7  cell +cell 2 is not in the rate table, which has cells 0 to 1",
        ):
            self.assertRegex(ended.out, rf"(?m)^ +{row}$")
        self.assertNotRegex(ended.out, r"\bline\b")
        self.assertEqual(ended.out.splitlines()[-1], "6 of 8 claims would be refused.")
        self.assertEqual(self.ltd("check", "claims.claims", "rates.bin").out, "No refusal: a study takes all of the 47 claims.\n")

    def test_counts_and_csv(self) -> None:
        rng = random.Random(31)
        rates, claims = any_rates(rng), [any_claim(rng, i, 2) for i in range(100)]
        self.packed(claims)
        self.file("r.bin", rates.to_bytes())
        rows = list(csv.DictReader(io.StringIO(self.ltd("check", "x.claims", "r.bin", "--csv", status=1).out)))
        self.assertEqual([(int(row["block"]), int(row["place"]), int(row["refused"])) for row in rows], found(claim_file(claims), rates))
        self.assertTrue(all(claims[15 * (int(row["block"]) - 1) + int(row["place"]) - 1].number == int(row["number"]) for row in rows))
        text = self.ltd("check", "x.claims", "r.bin", status=1).out
        counts = dict(line.split()[::2] for line in text.split("By number\n")[1].splitlines()[2:] if len(line.split()) == 3)
        for number, times in counts.items():
            self.assertEqual(int(times), sum(row["refused"] == number for row in rows), number)

    def test_faults_of_the_file_are_told_apart(self) -> None:
        self.file("x.claims", claim_file([Claim(3, "2010-01-01", "2010-01-10")]).data + b"part")
        self.file("r.bin", Rates.flat(1, 1).to_bytes())
        ended = self.ltd("check", "x.claims", "r.bin", status=1)
        self.assertEqual(ended.out.splitlines()[-1], "1 of 1 claim would be refused, and 1 fault of the file itself (place 0).")
