"""--accepted, --window and the note on numbers that stand twice, in study, years, check and pack."""

import csv
import io
import json
import random
from datetime import date
from typing import List, Tuple
from unittest import mock

from ltd_study import Claim, Rates, Study, file_study
from ltd_study.claim_file import claim_block, window_block
from ltd_study.desk import parts as cutting
from ltd_study.desk.study_json import of_json

from .support import PORTFOLIO, WINDOW, DeskTest, any_claim, any_rates, claim_file, claims_csv, sound_claim, sound_claims
from .test_page import Page


def refused_and_taken(claims: List[Claim], rates: Rates, corrected: bool = False) -> Tuple[List[Tuple[int, int]], Study]:
    """The place of each claim in the list with its refusal, and the study of the others, one claim after the other."""
    last = {claim.number: i for i, claim in enumerate(claims)}
    study, refused = Study.open(*WINDOW), []
    for i, claim in enumerate(claims):
        if not corrected or last[claim.number] == i:
            answer = study.try_add(claim, rates)
            refused += [(i, answer)] * bool(answer)
    return refused, study


class Accepted(DeskTest):
    """The refused claims are left out and listed."""

    def setUp(self) -> None:
        super().setUp()
        rng = random.Random(7)
        numbers = list(any_rates(rng, 3).numbers)
        numbers[2 * 958 + 7] = 1_000_001
        self.rates = Rates(numbers)
        self.file("r.bin", self.rates.to_bytes())
        # Some numbers stand twice, so that corrections matter too.
        self.claims = [any_claim(rng, rng.randint(1, 150), 3) for _ in range(200)]
        self.packed(self.claims)

    def test_the_study_is_that_of_the_accepted_claims(self) -> None:
        for corrected in (False, True):
            refused, study = refused_and_taken(self.claims, self.rates, corrected)
            self.assertEqual({number for _, number in refused}, {2, 3, 4, 5, 7, 8, 16})
            saved = of_json(self.ltd("study", "x.claims", "r.bin", "--accepted", "--json", *["--corrected"] * corrected).out)
            self.assertEqual((saved.study, saved.corrected), (study, corrected))
            places = [(15 * (found.block - 1) + found.place - 1, found.refused) for found in saved.left_out]
            self.assertEqual(places, refused)
            self.assertEqual([found.number for found in saved.left_out], [self.claims[i].number for i, _ in refused])

    def test_page_and_terminal_list_them(self) -> None:
        refused, study = refused_and_taken(self.claims, self.rates)
        ended = self.ltd("study", "x.claims", "r.bin", "--accepted", "--html", "x.html")
        page = Page((self.folder / "x.html").read_text(encoding="utf-8"))
        note = f"{len(refused)} of 200 claims are refused and left out"
        self.assertIn(f"Note: {note}.", page.texts["p"])
        self.assertIn(f"ltd: note: {note}\n", ended.err)
        self.assertIn(f"\nnote: {note}\n", ended.out)
        head, *rows = page.tables["Refused and left out"]
        self.assertEqual(head, ["block", "place", "claim number", "refused", "word", "why"])
        self.assertEqual([(row[2], row[3]) for row in rows], [(str(self.claims[i].number), str(number)) for i, number in refused])
        self.assertTrue(all(row[5] for row in rows))
        printed = ended.out.split("Refused and left out\n")[1].splitlines()[2:]
        self.assertEqual([line.split()[2:4] for line in printed], [row[2:4] for row in rows])
        self.assertIn(f"{study.claims_taken} claims taken", ended.out)

    def test_csv_lists_them_beside(self) -> None:
        refused, _ = refused_and_taken(self.claims, self.rates)
        for command in ("study", "years", "durations"):
            ended = self.ltd(command, "x.claims", "r.bin", "--accepted", "--csv")
            said = [line for line in ended.err.splitlines() if line.startswith("ltd: left out: claim number ")]
            self.assertEqual(len(said), len(refused))
            place, number = refused[0]
            self.assertIn(f"claim number {self.claims[place].number}, refused {number} (", said[0])

    def test_years_refuse_each_in_every_part(self) -> None:
        refused, study = refused_and_taken(self.claims, self.rates)
        ended = self.ltd("years", "x.claims", "r.bin", "--accepted", "--html", "x.html")
        words = f"{len(refused)} claims are left out: each is refused in every part, under the number of the window."
        self.assertIn(words, ended.out)
        page = Page((self.folder / "x.html").read_text(encoding="utf-8"))
        self.assertIn(words, page.texts["p"])
        head, *rows = page.tables["Refused and left out"]
        self.assertEqual(head[-1], "refused in parts")
        self.assertEqual([row[-1] for row in rows], [f"all 9, under {number}" for _, number in refused])
        found = json.loads(self.ltd("years", "x.claims", "r.bin", "--accepted", "--json").out)
        self.assertEqual([(one["refused"], one["refused_in_parts"]) for one in found["left_out"]], [(number, [number]) for _, number in refused])
        self.assertEqual((found["adds_up"], found["claims_taken"]), (True, study.claims_taken))

    def test_closings_keep_their_places(self) -> None:
        self.ltd("years", "x.claims", "r.bin", "--accepted", "--closings", "c.csv")
        _, study = refused_and_taken(self.claims, self.rates)
        rows = list(csv.DictReader((self.folder / "c.csv").open(newline="")))
        self.assertEqual(len(rows), sum(group.closings for group in study.groups))
        for row in rows:
            claim = self.claims[15 * (int(row["block"]) - 1) + int(row["place"]) - 1]
            self.assertEqual((claim.number, str(claim.termination)), (int(row["number"]), row["closed_on"]))

    def test_a_claim_that_a_part_takes_is_told(self) -> None:
        with mock.patch.object(cutting, "refused_in", lambda records, rates, parts: [{0, 5} for _ in records]):
            ended = self.ltd("years", "x.claims", "r.bin", "--accepted", "--html", "x.html", status=1)
        self.assertIn("a claim left out is not refused in all", ended.err)
        self.assertIn('class="verdict bad"', (self.folder / "x.html").read_text())

    def test_nothing_is_left_out_of_sound_claims(self) -> None:
        self.packed(sound_claims(random.Random(8), 50))
        for command in ("study", "years"):
            for form in ((), ("--json",), ("--csv",)):
                plain, accepted = (self.ltd(command, "x.claims", "r.bin", *form, *more).out for more in ((), ("--accepted",)))
                self.assertEqual(accepted, plain)

    def test_the_default_stays_strict(self) -> None:
        for command in ("study", "years"):
            ended = self.ltd(command, "x.claims", "r.bin", status=1)
            self.assertEqual(ended.out, "")
            self.assertIn("'./ltd check' names every claim that would be refused", ended.err)

    def test_what_is_no_claims_own(self) -> None:
        data = (self.folder / "x.claims").read_bytes()
        corrupt = bytearray(data)
        corrupt[1030] ^= 1
        windowless = claim_file(self.claims, ("2012-01-01", "2011-01-01")).data
        for content, rates, words in (
            (bytes(corrupt), self.rates, "refused 11 (block) at block 2"),
            (data[:-1], self.rates, "refused 11 (block) at block 14"),
            (windowless, self.rates, "refused 1 (window) at block 0"),
            (data, Rates([1] * 957), "refused 6 (rate table) at block"),
        ):
            self.file("y.claims", content)
            self.file("s.bin", rates.to_bytes())
            ended = self.ltd("study", "y.claims", "s.bin", "--accepted", status=1)
            self.assertIn(f"'y.claims': {words}", ended.err)
            self.assertIn("That is no claim's own, and --accepted doesn't pass over it", ended.err)
            self.assertEqual(ended.out, "")
        self.packed([sound_claim(random.Random(2), 1)] * 60_001, name="y.claims")
        self.assertIn("refused 14", self.ltd("study", "y.claims", "r.bin", "--accepted", "--corrected", status=1).err)

    def test_the_lines_of_the_csv(self) -> None:
        self.example()
        self.belongs("faulty.claims")
        self.file("faulty.claims.lines.csv", "block,place,line\n" + "".join(f"1,{place},{place + 1}\n" for place in range(1, 9)))
        found = json.loads(self.ltd("study", "faulty.claims", "rates.bin", "--accepted", "--json").out)
        self.assertEqual([(one["number"], one["line"]) for one in found["left_out"]], [(9000 + i, i + 1) for i in range(2, 8)])
        self.assertEqual(found["claims_taken"], 2)

    def test_blocks_that_are_not_full(self) -> None:
        sound, short = sound_claim(random.Random(3), 1), Claim(2, "2010-01-01", "2010-01-10")
        blocks = [claim_block(1, sound.record + short.record), claim_block(2, b""), claim_block(3, short.record + sound.record)]
        self.file("y.claims", window_block(*WINDOW) + b"".join(blocks))
        saved = of_json(self.ltd("study", "y.claims", "r.bin", "--accepted", "--json").out)
        self.assertEqual([found.where for found in saved.left_out], [(1, 2), (3, 1)])
        self.assertEqual(saved.study, file_study(claim_file([sound, sound]), self.rates))


class Windows(DeskTest):
    """Another window than the file's."""

    def setUp(self) -> None:
        super().setUp()
        rng = random.Random(12)
        self.claims, self.rates = sound_claims(rng, 150), any_rates(rng)
        self.packed(self.claims)
        self.file("r.bin", self.rates.to_bytes())

    def test_it_is_the_study_of_that_window(self) -> None:
        window = (date(2011, 2, 16), date(2014, 6, 30))
        self.packed(self.claims, window, name="y.claims")
        for form in (("--csv", "--weighted"),):
            for command in ("study", "years"):
                want = self.ltd(command, "y.claims", "r.bin", *form).out
                self.assertEqual(self.ltd(command, "x.claims", "r.bin", "--window", *window, *form).out, want)
        saved = of_json(self.ltd("study", "x.claims", "r.bin", "--window", *window, "--json").out)
        self.assertEqual(saved.study, file_study(claim_file(self.claims, window), self.rates))
        ended = self.ltd("study", "x.claims", "r.bin", "--window", *window, "--html", "x.html")
        line = f"another window than the file's, which is {WINDOW[0]} to {WINDOW[1]}"
        self.assertIn(f"\n{line}\n", ended.out)
        self.assertIn(line, Page((self.folder / "x.html").read_text(encoding="utf-8")).texts["p"])
        self.assertIn("in 2 parts", self.ltd("years", "x.claims", "r.bin", "--window", *window, "--cut", "2012-01-01").out)

    def test_windows_that_are_none(self) -> None:
        for command in ("study", "years"):
            ended = self.ltd(command, "x.claims", "r.bin", "--window", "2012-01-01", "2011-01-01", status=2)
            self.assertIn("ltd: --window 2012-01-01 2011-01-01: refused 1 (window); it runs from FIRST to LAST", ended.err)
        ended = self.ltd("years", "x.claims", "r.bin", "--window", "2011-01-01", "2012-01-01", "--cut", "2012-01-01", status=2)
        self.assertIn("no part can end on 2012-01-01", ended.err)

    def test_a_faulty_first_block_is_not_hidden(self) -> None:
        data = bytearray((self.folder / "x.claims").read_bytes())
        data[100] ^= 1
        self.file("x.claims", bytes(data))
        ended = self.ltd("study", "x.claims", "r.bin", "--window", "2010-01-01", "2011-01-01", status=1)
        self.assertIn("'x.claims': refused 11 (block) at block 0", ended.err)

    def test_a_file_whose_own_window_is_none(self) -> None:
        self.packed(self.claims, ("2012-01-01", "2011-01-01"))
        saved = of_json(self.ltd("study", "x.claims", "r.bin", "--window", *WINDOW, "--json").out)
        self.assertEqual(saved.study, file_study(claim_file(self.claims), self.rates))


class Repeated(DeskTest):
    """Numbers that stand twice are told wherever their claims count twice."""

    NOTE = "2 claim numbers stand more than once (1006, 1031), and every record counts; with --corrected only the last"

    def setUp(self) -> None:
        super().setUp()
        self.example()

    def test_every_command(self) -> None:
        window = ("--window", "2010-03-01", "2014-12-31")
        files = ("claims.claims", "rates.bin")
        for words in (("study", *files), ("years", *files), ("check", *files), ("pack", PORTFOLIO / "claims.csv", "y.claims", *window)):
            self.assertEqual(self.ltd(*words).err, f"ltd: note: {self.NOTE}\n")
        for command in ("study", "years", "check"):
            self.assertEqual(self.ltd(command, *files, "--corrected").err, "")
            self.assertEqual(self.ltd(command, "affiliate.claims", "rates.bin").err, "")
        self.assertEqual(self.ltd("pack", PORTFOLIO / "affiliate.csv", "y.claims", *window).err, "")

    def test_page_json_and_text(self) -> None:
        for command in ("study", "years"):
            for more, numbers in (((), [1006, 1031]), (("--corrected",), [])):
                text = self.ltd(command, "claims.claims", "rates.bin", "--html", "x.html", *more).out
                page = Page((self.folder / "x.html").read_text(encoding="utf-8"))
                found = json.loads(self.ltd(command, "claims.claims", "rates.bin", "--json", *more).out)
                self.assertEqual(found["repeated_numbers"], numbers)
                self.assertEqual(f"Note: {self.NOTE}." in page.texts["p"], bool(numbers))
                self.assertEqual(f"\nnote: {self.NOTE}\n" in text, bool(numbers))

    def test_many_numbers_are_counted_and_the_first_named(self) -> None:
        claims = [sound_claim(random.Random(i), i) for i in (9, 3, 5, 1, 7, 11)]
        self.packed([*claims, *claims])
        self.file("x.csv", claims_csv([*claims, *claims[:1], *claims[:1]]))
        self.assertIn("6 claim numbers stand more than once (1, 3, 5, 7, 9, ..)", self.ltd("study", "x.claims", "rates.bin").err)
        self.assertIn("1 claim number stands more than once (9), ", self.ltd("pack", "x.csv", "y.claims", "--window", *WINDOW).err)

    def test_a_record_left_out_counts_no_second_time(self) -> None:
        sound, short = sound_claim(random.Random(1), 5), Claim(5, "2010-01-01", "2010-01-10")
        self.packed([sound, short])
        saved = of_json(self.ltd("study", "x.claims", "rates.bin", "--accepted", "--json").out)
        self.assertEqual((saved.repeated_numbers, len(saved.left_out)), ((), 1))
        rows = list(csv.DictReader(io.StringIO(self.ltd("check", "x.claims", "rates.bin", "--csv", status=1).out)))
        self.assertEqual([row["number"] for row in rows], ["5"])
