"""pack, unpack, rates pack and rates unpack: round trips, and the message of each bad row."""

import io
import random
import re
from itertools import repeat
from unittest import mock

from ltd_study import ClaimFile, Rates
from ltd_study.claim import COLUMNS
from ltd_study.claim_file import MOST_BLOCKS, MOST_IN_BLOCK
from ltd_study.desk import claims_csv as desk_csv
from ltd_study.desk.csv_rows import Faults
from ltd_study.desk.rates_csv import as_decimal, decimal_millionths, runs

from .support import PORTFOLIO, WINDOW, DeskTest, any_claim, any_rates, claim_file, claims_csv, sound_claims

HEADER = ",".join(COLUMNS)
GOOD = "1,2009-03-13,2009-06-11,2012-04-29,,closed,recovery,0,25"
WINDOW_WORDS = ("--window", *map(str, WINDOW))


class RoundTrips(DeskTest):
    """What is packed comes back, and packs to the same bytes."""

    def test_random_claims(self) -> None:
        rng = random.Random(28)
        for count in (0, 1, 14, 15, 16, 300):
            claims = sound_claims(rng, count, 300)
            self.file("in.csv", claims_csv(claims))
            self.ltd("pack", "in.csv", "x.claims", *WINDOW_WORDS)
            data = (self.folder / "x.claims").read_bytes()
            self.assertEqual(data, claim_file(claims).data)
            self.assertEqual([record.claim for record in ClaimFile(data).records()], claims)
            self.ltd("unpack", "x.claims", "--out", "out.csv")
            self.ltd("pack", "out.csv", "y.claims", *WINDOW_WORDS)
            self.assertEqual((self.folder / "y.claims").read_bytes(), data)

    def test_any_column_order_quoting_and_mark(self) -> None:
        rng = random.Random(4180)
        claims = sound_claims(rng, 40)
        want = claim_file(claims).data
        for i in range(8):
            columns = rng.sample(COLUMNS, len(COLUMNS))
            text = claims_csv(claims, columns)
            if i % 2:
                text = re.sub(r"[^,\r\n]+", lambda field: f'"{field[0]}"' if rng.random() < 0.5 else field[0], text)
            if i % 3 == 0:
                text = "\ufeff" + text.replace("\r\n", "\n")
            self.file("in.csv", text)
            self.ltd("pack", "in.csv", "x.claims", *WINDOW_WORDS)
            self.assertEqual((self.folder / "x.claims").read_bytes(), want)

    def test_words_and_numbers_blanks_and_empty_lines(self) -> None:
        rows = [
            HEADER.upper(),
            GOOD,
            '"1",2009-03-13, 2009-06-11 ,2012-04-29,"",1,1,00,025',
            "",
            "1,2009-03-13,2009-06-11,2012-04-29,,Closed, RECOVERY,0,25",
        ]
        self.file("in.csv", "\n".join(rows))
        self.ltd("pack", "in.csv", "x.claims", *WINDOW_WORDS)
        claims = [record.claim for record in ClaimFile.read(self.folder / "x.claims").records()]
        self.assertEqual(len(claims), 3)
        self.assertEqual(len(set(claims)), 1)

    def test_empty_code_and_benefit(self) -> None:
        self.file("in.csv", f"{HEADER}\n5,2009-03-13,2009-06-11,,,open,,0,\n")
        self.ltd("pack", "in.csv", "x.claims", *WINDOW_WORDS)
        claim = ClaimFile.read(self.folder / "x.claims").record(1, 1).claim
        self.assertEqual((claim.code, claim.benefit, claim.termination), (0, 0, None))

    def test_claims_that_no_study_takes(self) -> None:
        rng = random.Random(5)
        claims = [any_claim(rng, i, 3) for i in range(200)]
        self.packed(claims)
        text = self.ltd("unpack", "x.claims").out
        faults = Faults(10**6)
        records = list(desk_csv.read_records(io.BytesIO(text.encode()), faults))
        self.assertEqual(len(records) + len({fault.line for fault in faults.first}), len(claims))
        # What isn't a date at all is named; everything else comes back as it is.
        self.assertTrue(faults.count)
        self.assertTrue(all(fault.reason.endswith("is not in the calendar") for fault in faults.first))
        self.assertTrue({claim.record for claim in claims}.issuperset(records))

    def test_the_example_comes_back_to_the_letter(self) -> None:
        self.example()
        self.assertEqual(self.ltd("unpack", "claims.claims").out, (PORTFOLIO / "claims.csv").read_text())
        self.assertEqual(self.ltd("rates", "unpack", "rates.bin").out, (PORTFOLIO / "rates.csv").read_text())

    def test_random_rates(self) -> None:
        rng = random.Random(6)
        for cells, decimal in ((1, []), (3, ["--decimal"]), (2, [])):
            rates = any_rates(rng, cells)
            self.file("r.bin", rates.to_bytes())
            self.ltd("rates", "unpack", "r.bin", "--out", "r.csv", *decimal)
            lines = (self.folder / "r.csv").read_text().splitlines()
            rng.shuffle(lines[1:])
            self.file("s.csv", "\r\n".join(lines))
            self.ltd("rates", "pack", "s.csv", "s.bin", *decimal)
            self.assertEqual(Rates.read(self.folder / "s.bin"), rates)

    def test_decimals(self) -> None:
        for millionths in (0, 1, 999_999, 1_000_000, 12_345, 100_000):
            self.assertEqual(decimal_millionths(as_decimal(millionths)), millionths)
        for text, want in (("0.5", 500_000), (".25", 250_000), ("1.", 1_000_000), ("1e-05", 10), ("2.5E-6 ", None), ("0.1000000", 100_000)):
            if want is None:
                self.assertRaisesRegex(ValueError, "whole number of millionths", decimal_millionths, text)
            else:
                self.assertEqual(decimal_millionths(text), want)

    def test_runs(self) -> None:
        self.assertEqual(list(runs([])), [])
        self.assertEqual(list(runs([2, 3, 4, 7, 9, 10])), [(2, 4), (7, 7), (9, 10)])


class BadRows(DeskTest):
    """Each bad row is named by line, column and reason, and nothing is written."""

    def bad(self, text: "str | bytes", *messages: str) -> None:
        """The messages of a CSV of claims."""
        self.file("in.csv", text)
        ended = self.ltd("pack", "in.csv", "x.claims", *WINDOW_WORDS, status=1)
        self.assertEqual(ended.err.splitlines()[:-1], [f"ltd: in.csv: {message}" for message in messages])
        count = len(messages)
        self.assertEqual(ended.err.splitlines()[-1], f"ltd: {count} fault{'s' if count > 1 else ''}; nothing is written")
        self.assertEqual((ended.out, self.names()), ("", ["in.csv"]))

    def row(self, column: str, value: str, reason: str) -> None:
        """The message of one bad field in line 3."""
        fields = dict(zip(COLUMNS, GOOD.split(",")), **{column: value})
        self.bad(f"{HEADER}\n{GOOD}\n{','.join(fields.values())}\n", f"line 3, column {column}: {reason}")

    def test_numbers(self) -> None:
        self.row("number", "", "is empty")
        self.row("number", "-1", "'-1' is no whole number")
        self.row("number", "1.0", "'1.0' is no whole number")
        self.row("number", "1_0", "'1_0' is no whole number")
        self.row("number", "\u0663", "'\u0663' is no whole number")
        self.row("number", "4294967296", "'4294967296' is over 4,294,967,295")
        self.row("number", "9" * 5000, f"'{'9' * 40}..' is over 4,294,967,295")
        self.row("cell", "65536", "'65536' is over 65,535")
        self.row("cell", "", "is empty")
        hundreds = "a benefit is in hundreds of dollars, 1 to 200"
        self.row("benefit", "256", f"'256' is over 255; {hundreds}")
        self.row("benefit", "3000", f"'3000' is over 255; {hundreds}")
        self.row("benefit", "12.5", f"'12.5' is no whole number; {hundreds}")

    def test_dates(self) -> None:
        self.row("disability", "2001-02-29", "'2001-02-29' is not in the calendar")
        self.row("bcd", "13.03.2009", "'13.03.2009' is no date as 2011-02-28")
        self.row("bcd", "20090313", "'20090313' is no date as 2011-02-28")
        self.row("termination", "2009-3-13", "'2009-3-13' is no date as 2011-02-28")
        self.row("maximum", "2009-03-13T00:00", "'2009-03-13T00:00' is no date as 2011-02-28")
        self.row("maximum", "0000-00-00", "'0000-00-00' is not in the calendar")

    def test_words(self) -> None:
        self.row("status", "ajar", "'ajar' is neither a number nor one of open, closed")
        self.row("status", "", "is empty")
        self.row("status", "256", "'256' is over 255")
        codes = "none, recovery, death, settlement, max-out, limit, definition"
        self.row("code", "recovered", f"'recovered' is neither a number nor one of {codes}")

    def test_several_faults_of_a_row(self) -> None:
        self.bad(
            f"{HEADER}\nx,2009-03-13,never,2012-04-29,,closed,recovery,0,25\n{GOOD}\n1,2,3\n",
            "line 2, column number: 'x' is no whole number",
            "line 2, column bcd: 'never' is no date as 2011-02-28",
            "line 4: 3 fields, where the header has 9",
        )

    def test_lines_are_counted_through_quoted_ends(self) -> None:
        self.bad(
            f'{HEADER}\n{GOOD}\n1,2009-03-13,2009-06-11,2012-04-29,,closed,"reco\nvery",0,25\n{GOOD}x\n',
            "line 3, column code: 'reco\\nvery' is neither a number nor one of none, recovery, death, settlement, max-out, limit, definition",
            "line 5, column benefit: '25x' is no whole number; a benefit is in hundreds of dollars, 1 to 200",
        )

    def test_rows_that_are_no_csv(self) -> None:
        self.file("in.csv", f'{HEADER}\n{GOOD}\n"1"2,2009-03-13\n1,"2009\n')
        ended = self.ltd("pack", "in.csv", "x.claims", *WINDOW_WORDS, status=1)
        self.assertRegex(ended.err, r"in\.csv: line 3: no CSV row: ")
        self.assertRegex(ended.err, r"in\.csv: line 4: no CSV row: ")
        self.assertEqual(self.names(), ["in.csv"])

    def test_bytes_that_are_no_utf_8(self) -> None:
        self.bad(
            f"{HEADER}\n{GOOD}\n".encode() + GOOD.replace("recovery", "r\xe9covery").encode("latin-1") + b"\n",
            "line 3, column code: 'r\xe9covery' is Latin-1 (or Windows-1252) and not UTF-8",
        )
        self.bad(
            f"{HEADER}\n".encode() + GOOD.replace("recovery", "\u201crecovery\u20ac").encode("cp1252") + b"\n",
            "line 2, column code: '\u201crecovery\u20ac' is Latin-1 (or Windows-1252) and not UTF-8",
        )
        columns = ", ".join(COLUMNS)
        self.bad(
            HEADER.replace("code", "c\xf3digo").encode("latin-1"),
            f"line 1: no such column: 'c\xf3digo' is Latin-1 (or Windows-1252) and not UTF-8; the columns are {columns}",
            "line 1, column code: is missing",
        )

    def test_other_forms_of_a_file(self) -> None:
        for mark, kind in ((";", "semicolons"), ("\t", "tabs"), ("|", "bars")):
            self.bad(f"{HEADER}\n{GOOD}\n".replace(",", mark), f"line 1: the fields are separated by {kind} and not by commas")
        for encoding in ("utf-16", "utf-16-le", "utf-16-be"):
            self.bad(f"{HEADER}\r\n{GOOD}\r\n".encode(encoding), "line 1: the file is UTF-16 and not UTF-8: save it as UTF-8")
        self.file("r.csv", "cell;duration;recovery;death\n")
        ended = self.ltd("rates", "pack", "r.csv", "x.rates", status=1)
        self.assertIn("r.csv: line 1: the fields are separated by semicolons and not by commas\n", ended.err)

    def test_headers(self) -> None:
        columns = ", ".join(COLUMNS)
        self.bad("", f"line 1: no header line; it names the columns {columns}")
        self.bad(HEADER.replace("bcd", "bdc"), f"line 1: no such column: 'bdc'; the columns are {columns}", "line 1, column bcd: is missing")
        self.bad(HEADER + ",cell", "line 1, column cell: stands twice")
        self.bad(GOOD, *[f"line 1: no such column: '{field}'; the columns are {columns}" for field in GOOD.split(",")], *[
            f"line 1, column {column}: is missing" for column in COLUMNS
        ])

    def test_a_limit(self) -> None:
        self.file("in.csv", HEADER + "\n" + "x,,,,,,,,\n" * 10)
        ended = self.ltd("pack", "in.csv", "x.claims", *WINDOW_WORDS, "--limit", 3, status=1)
        self.assertEqual(len(ended.err.splitlines()), 4)
        self.assertEqual(ended.err.splitlines()[-1], "ltd: 30 faults, 27 of them not named here; nothing is written")

    def test_an_older_file_stays(self) -> None:
        self.file("x.claims", "old")
        self.file("in.csv", HEADER + "\nx,,,,,,,,\n")
        self.ltd("pack", "in.csv", "x.claims", *WINDOW_WORDS, status=1)
        self.assertEqual((self.folder / "x.claims").read_text(), "old")
        self.assertEqual(self.names(), ["in.csv", "x.claims"])

    def test_too_many_claims(self) -> None:
        self.file("in.csv", "")
        records = repeat(sound_claims(random.Random(9), 1)[0].record, MOST_BLOCKS * MOST_IN_BLOCK + 1)
        with mock.patch.object(desk_csv, "read_records", return_value=records):
            ended = self.ltd("pack", "in.csv", "x.claims", *WINDOW_WORDS, status=1)
        self.assertEqual(ended.err, "ltd: a claim file holds at most 983,025 claims\n")
        self.assertEqual(self.names(), ["in.csv"])

    def test_windows(self) -> None:
        self.file("in.csv", f"{HEADER}\n{GOOD}\n")
        ended = self.ltd("pack", "in.csv", "x.claims", "--window", "2017-12-31", "2009-01-01", status=2)
        self.assertIn("--window 2017-12-31 2009-01-01: refused 1 (window)", ended.err)
        self.assertIn("refused 1", self.ltd("pack", "in.csv", "x.claims", "--window", "2009-01-01", "2100-01-01", status=2).err)
        self.assertIn("'2009-02-30' is not in the calendar", self.ltd("pack", "in.csv", "x.claims", "--window", "2009-02-30", "2010-01-01", status=2).err)
        self.ltd("pack", "in.csv", "x.claims", status=2)
        self.assertEqual(self.names(), ["in.csv"])


class BadRates(DeskTest):
    """Rows of rates that are missing, doubled or impossible."""

    def setUp(self) -> None:
        super().setUp()
        self.rows = ["cell,duration,recovery,death", *(f"{cell},{duration},9000,1000" for cell in (0, 1) for duration in range(2, 481))]

    def bad(self, *messages: str, decimal: bool = False) -> None:
        """The messages of the rows."""
        self.file("in.csv", "\n".join(self.rows))
        ended = self.ltd("rates", "pack", "in.csv", "x.rates", *["--decimal"] * decimal, status=1)
        self.assertEqual(ended.err.splitlines()[:-1], [f"ltd: in.csv: {message}" for message in messages])
        self.assertEqual(self.names(), ["in.csv"])

    def test_missing_rows(self) -> None:
        del self.rows[5:8], self.rows[400]
        start = "line 955: up to this last line there is no row of cell"
        self.bad(f"{start} 0 for durations 6 to 8", f"{start} 0 for duration 404")

    def test_a_missing_cell(self) -> None:
        self.rows = [self.rows[0], *(row.replace("1,", "2,", 1) if row.startswith("1,") else row for row in self.rows[1:])]
        self.bad("line 959: up to this last line there is no row of cell 1 for durations 2 to 480")

    def test_doubled_rows(self) -> None:
        self.rows.append("0,2,1,1")
        self.bad("line 960: cell 0, duration 2 stands in line 2 already")

    def test_impossible_rows(self) -> None:
        self.rows[1:6] = ["0,2,600000,400001", "0,1,1,1", "0,481,1,1", "1024,5,1,1", "0,6,-1,0.5"]
        start = "line 959: up to this last line there is no row of cell"
        self.bad(
            "line 2: recovery and death of cell 0, duration 2 are 1,000,001 millionths together, over 1,000,000",
            "line 3, column duration: '1' is under 2",
            "line 4, column duration: '481' is over 480",
            "line 5, column cell: '1024' is over 1,023",
            "line 6, column recovery: '-1' is no whole number",
            "line 6, column death: '0.5' is no whole number",
            f"{start} 0 for durations 3 to 6",
        )

    def test_decimals(self) -> None:
        self.rows = [row.replace("9000", "0.009").replace("1000", "0.001") for row in self.rows]
        self.rows[1] = "0,2,0.0000005,1.000001"
        self.rows[2] = "0,3,,half"
        start = "line 959: up to this last line there is no row of cell"
        self.bad(
            "line 2, column recovery: '0.0000005' is no whole number of millionths",
            "line 2, column death: '1.000001' is over 1",
            "line 3, column recovery: is empty",
            "line 3, column death: 'half' is no decimal",
            f"{start} 0 for durations 2 to 3",
            decimal=True,
        )

    def test_rounding(self) -> None:
        self.rows = [row.replace("9000", "0.009").replace("1000", "0.001") for row in self.rows]
        self.rows[1:4] = ["0,2,0.0000005,0.00000049999", "0,3,0.1234565,0.0123454999", "0,4,1.0,0.0000004"]
        self.bad(
            "line 2, column recovery: '0.0000005' is no whole number of millionths",
            "line 2, column death: '0.00000049999' is no whole number of millionths",
            "line 3, column recovery: '0.1234565' is no whole number of millionths",
            "line 3, column death: '0.0123454999' is no whole number of millionths",
            "line 4, column death: '0.0000004' is no whole number of millionths",
            "line 959: up to this last line there is no row of cell 0 for durations 2 to 4",
            decimal=True,
        )
        ended = self.ltd("rates", "pack", "in.csv", "x.rates", "--decimal", "--round")
        self.assertEqual(ended.out, "x.rates: rates of 2 cells\n5 rates were rounded to the nearest millionth, halves up (--round)\n")
        rates = Rates.read(self.folder / "x.rates")
        found = [(rates.recovery(0, duration), rates.death(0, duration)) for duration in (2, 3, 4, 5)]
        self.assertEqual(found, [(1, 0), (123_457, 12_345), (1_000_000, 0), (9_000, 1_000)])
        self.rows[1] = "0,2,0.9999996,0.0000005"
        self.file("in.csv", "\n".join(self.rows))
        ended = self.ltd("rates", "pack", "in.csv", "y.rates", "--decimal", "--round", status=1)
        self.assertIn("line 2: recovery and death of cell 0, duration 2 are 1,000,001 millionths together", ended.err)
        self.rows[1] = "0,2,1.0000001,0"
        self.file("in.csv", "\n".join(self.rows))
        ended = self.ltd("rates", "pack", "in.csv", "y.rates", "--decimal", "--round", status=1)
        self.assertIn("line 2, column recovery: '1.0000001' is over 1", ended.err)
        ended = self.ltd("rates", "pack", "in.csv", "y.rates", "--round", status=2)
        self.assertEqual(ended.err, "ltd: --round goes with --decimal: millionths are whole numbers\n")

    def test_extending(self) -> None:
        self.rows = [row for row in self.rows if not re.match(r"0,(12[1-9]|1[3-9].|[234]..),|1,480,", row)]
        self.rows[119] = "0,120,7,8"
        start = "line 598: up to this last line there is no row of cell"
        self.bad(f"{start} 0 for durations 121 to 480", f"{start} 1 for duration 480")
        ended = self.ltd("rates", "pack", "in.csv", "x.rates", "--extend-last")
        self.assertEqual(
            ended.out,
            "x.rates: rates of 2 cells\n"
            "the rates of duration 120 stand for durations 121 to 480 too (--extend-last), in cell 0\n"
            "the rates of duration 479 stand for durations 480 to 480 too (--extend-last), in cell 1\n",
        )
        rates = Rates.read(self.folder / "x.rates")
        self.assertEqual({(rates.recovery(0, duration), rates.death(0, duration)) for duration in range(120, 481)}, {(7, 8)})
        self.assertEqual((rates.recovery(0, 119), rates.recovery(1, 480)), (9000, 9000))
        # A gap before a cell's last duration stays a fault, and so does a cell without rows.
        self.rows = [row for row in self.rows if not row.startswith("0,77,")] + ["3,2,1,1"]
        self.file("in.csv", "\n".join(self.rows))
        ended = self.ltd("rates", "pack", "in.csv", "y.rates", "--extend-last", status=1)
        start = "ltd: in.csv: line 598: up to this last line there is no row of cell"
        self.assertEqual(ended.err.splitlines()[:-1], [f"{start} 0 for duration 77", f"{start} 2 for durations 2 to 480"])

    def test_the_page_says_what_was_done_to_rates(self) -> None:
        self.rows = [row.replace("9000", "0.0090001").replace("1000", "0.001") for row in self.rows if not row.endswith("1,480,9000,1000")]
        self.file("in.csv", "\n".join(self.rows))
        self.ltd("rates", "pack", "in.csv", "x.rates", "--decimal", "--round", "--extend-last")
        self.packed(sound_claims(random.Random(4), 20, 1))
        notes = "957 rates were rounded to the nearest millionth", "the rates of duration 479 stand for durations 480 to 480 too"
        for command in ("study", "years"):
            self.ltd(command, "x.claims", "x.rates", "--html", "p.html")
            text = (self.folder / "p.html").read_text(encoding="utf-8")
            self.assertTrue(all(f"<p>rates: {note}" in text for note in notes), text[-3000:])
        ended = self.ltd("rates", "pack", "in.csv", "/dev/null", "--decimal", "--round", "--extend-last", status=2)
        self.assertEqual(ended.err, "ltd: --round and --extend-last write a file beside OUT, for the page to say so, and '/dev/null' is no file\n")
        # Rates that were packed as they are have nothing to say, and older words go.
        self.rows = ["cell,duration,recovery,death", *(f"0,{duration},9000,1000" for duration in range(2, 481))]
        self.file("in.csv", "\n".join(self.rows))
        self.ltd("rates", "pack", "in.csv", "x.rates", "--extend-last")
        self.assertEqual(self.names(), ["in.csv", "p.html", "x.claims", "x.rates"])
        self.ltd("study", "x.claims", "x.rates", "--html", "p.html")
        self.assertNotIn("--extend-last", (self.folder / "p.html").read_text(encoding="utf-8"))

    def test_no_rows(self) -> None:
        del self.rows[1:]
        self.bad("line 1: up to this last line there is no row of cell 0 for durations 2 to 480")

    def test_what_is_no_table(self) -> None:
        self.file("r.bin", bytes(4 * 957))
        ended = self.ltd("rates", "unpack", "r.bin", status=1)
        self.assertEqual(ended.err, "ltd: 'r.bin': refused 6 (rate table): 957 numbers are no table; it has 958 for each of 1 to 1,024 cells\n")
        self.assertEqual(ended.out, "")

    def test_an_unsound_table_can_be_mended(self) -> None:
        numbers = list(any_rates(random.Random(8), 1).numbers)
        numbers[0] = numbers[479] = 900_000
        self.file("r.bin", Rates(numbers).to_bytes())
        self.ltd("rates", "unpack", "r.bin", "--out", "r.csv")
        self.assertIn("line 2: recovery and death", self.ltd("rates", "pack", "r.csv", "s.bin", status=1).err)
