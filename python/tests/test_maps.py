"""pack --map and map: the made-up extracts, what a map may say, and that nothing else is taken."""

import csv
import hashlib
import io
import os
import random
import re
import tomllib
from datetime import date, timedelta
from typing import Dict, List, Tuple

from ltd_study import Claim, ClaimFile
from ltd_study.claim import COLUMNS
from ltd_study.desk import map_values
from ltd_study.desk.csv_rows import Faults
from ltd_study.desk.extract_map import BadMap, read_map
from ltd_study.desk.first_map import first_map
from ltd_study.desk.mapped_csv import MappedRows
from ltd_study.desk.side_files import made

from .support import PORTFOLIO, ROOT, DeskTest, Ended, any_rates, claims_csv, least_time, sound_claims
from .test_page import Page

EXTRACTS = ROOT / "examples" / "extracts"
WINDOW_WORDS = ("--window", "2010-01-01", "2014-12-31")
SAME_COLUMNS = "[columns]\n" + "".join(f'{name} = "{name}"\n' for name in COLUMNS)
HEADER = ",".join(COLUMNS)
GOOD = "1,2009-03-13,2009-06-11,2012-04-29,,closed,recovery,0,25"


class MapTest(DeskTest):
    """A test that packs with a map."""

    def pack(self, text: "str | bytes", mapped: str, status: int = 0) -> Ended:
        """A CSV packed by a map, both given as they stand in their files."""
        self.file("in.csv", text)
        self.file("m.toml", mapped)
        return self.ltd("pack", "in.csv", "x.claims", "--map", "m.toml", *WINDOW_WORDS, status=status)

    def claims(self, name: str = "x.claims") -> List[Claim]:
        """The claims of a claim file."""
        return [record.claim for record in ClaimFile.read(self.folder / name).records()]

    def bad(self, text: "str | bytes", mapped: str, *messages: str) -> None:
        """The messages of a CSV that is refused; nothing is written."""
        ended = self.pack(text, mapped, status=1)
        self.assertEqual(ended.err.splitlines()[:-1], [f"ltd: in.csv: {message}" for message in messages])
        self.assertRegex(ended.err.splitlines()[-1], r"^ltd: \d+ faults?; nothing is written$")
        self.assertEqual((ended.out, self.names()), ("", ["in.csv", "m.toml"]))

    def bad_map(self, mapped: str, message: str) -> None:
        """The message of a map that is refused."""
        ended = self.pack(f"{HEADER}\n{GOOD}\n", mapped, status=1)
        self.assertEqual(ended.err, f"ltd: 'm.toml': {message}\n")
        self.assertEqual((ended.out, self.names()), ("", ["in.csv", "m.toml"]))


class Extracts(MapTest):
    """The twelve extracts give the claims they were made from, or the message that their folder's README has."""

    other: Dict[str, Dict[str, object]] = {"bars-and-nulls": {"benefit": 0}}

    def setUp(self) -> None:
        super().setUp()
        self.ltd("pack", EXTRACTS / "claims.csv", "want.claims", *WINDOW_WORDS)
        self.want = self.claims("want.claims")

    def packed_extract(self, name: str, status: int = 0) -> Ended:
        """An extract, packed by its own map."""
        return self.ltd("pack", EXTRACTS / f"{name}.csv", "x.claims", "--map", EXTRACTS / f"{name}.toml", *WINDOW_WORDS, status=status)

    def test_each(self) -> None:
        refused = {"two-digit-years", "mixed-dates"}
        names = {path.stem for path in EXTRACTS.glob("*.csv")} - {"claims"}
        self.assertEqual((len(names), {path.stem for path in EXTRACTS.glob("*.toml")}), (12, names))
        for name in names - refused - {"alphanumeric"}:
            self.packed_extract(name)
            changed = self.other.get(name, {})
            want = [Claim(**{field: changed.get(field, getattr(claim, field)) for field in COLUMNS}) for claim in self.want]  # type: ignore[arg-type]
            self.assertEqual(self.claims(), want, name)
            # None of them goes in without its map.
            self.ltd("pack", EXTRACTS / f"{name}.csv", "y.claims", *WINDOW_WORDS, status=1)
            self.assertNotIn("y.claims", self.names())

    def test_numbers_that_are_none(self) -> None:
        self.packed_extract("alphanumeric")
        found = self.claims()
        self.assertEqual([claim.number for claim in found], [1, 2, 3, 4, 5, 6, 7, 8, 1])
        rows = list(csv.reader(io.StringIO((self.folder / "x.claims.numbers.csv").read_text())))
        self.assertEqual((rows[0], rows[1], len(rows)), (["number", "original"], ["1", "LTD-09-00001"], 9))
        corrected = found[-1:] + found[1:-1]
        self.assertEqual([claim.termination for claim in corrected], [claim.termination for claim in self.want])
        self.file("r.bin", any_rates(random.Random(1)).to_bytes())
        self.assertIn("8 claims taken", self.ltd("study", "x.claims", "r.bin", "--corrected").out)

    def test_the_folder_says_which_messages_come(self) -> None:
        text = (EXTRACTS / "README.md").read_text(encoding="utf-8")
        for name in ("two-digit-years", "mixed-dates"):
            ended = self.packed_extract(name, status=1)
            messages = [re.sub(r"^ltd: .*?: (line|\[dates\])", r"\1", line) for line in ended.err.splitlines() if "nothing is written" not in line]
            self.assertTrue(messages)
            for message in messages[:1]:
                self.assertIn(f"`{message.replace(str(EXTRACTS) + '/', '')}`", text)
            self.assertNotIn("x.claims", self.names())
        for name in {path.stem for path in EXTRACTS.glob("*.csv")}:
            self.assertIn(f"`{name}.csv`", text)

    def test_titles_and_totals(self) -> None:
        ended = self.packed_extract("titles-and-totals")
        passed_over = "passed over as the map says: 3 title lines, 2 rows by [skip], 2 rows at the end\n"
        self.assertIn("8 claims of 2010-01-01 to 2014-12-31\n" + passed_over, ended.out)
        lines = (self.folder / "x.claims.lines.csv").read_text().splitlines()
        self.assertEqual(lines, ["block,place,line", *(f"1,{place},{line}" for place, line in enumerate((5, 6, 7, 8, 11, 12, 13, 14), 1))])
        regions = (self.folder / "x.claims.Region.csv").read_text().splitlines()
        self.assertEqual(regions, ["Region", "North", "North", "East", "West", "East", "North", "South", "West"])
        beside = ["x.claims", *(f"x.claims.{name}" for name in ("Region.csv", "how.toml", "lines.csv", "map.toml"))]
        self.assertEqual(self.names(), ["want.claims", "want.claims.how.toml", *beside])

    def test_a_first_map_of_each(self) -> None:
        for path in EXTRACTS.glob("*.csv"):
            text = self.ltd("map", path).out
            found = tomllib.loads(text)
            full = tomllib.loads(path.with_suffix(".toml").read_text(encoding="utf-8")) if path.stem != "claims" else {}
            for key in ("delimiter", "title_lines"):
                self.assertEqual(found.get(key), full.get(key), (path, key))
            told = found["columns"]
            self.assertTrue(told.items() <= full.get("columns", told).items(), path)
            self.assertGreaterEqual(len(told), 0 if path.stem == "latin-1" else 5, path)
            # What a first map could not tell is refused, not guessed.
            self.file("m.toml", text)
            whole = path.stem == "claims"
            self.ltd("pack", path, "y.claims", "--map", "m.toml", *WINDOW_WORDS, status=0 if whole or path.stem == "alphanumeric" else 1)


class FirstMaps(MapTest):
    """'map' tells what it can, and leaves the rest as comments."""

    def test_the_default_form_needs_nothing_more(self) -> None:
        self.ltd("map", PORTFOLIO / "claims.csv", "--out", "m.toml")
        self.ltd("pack", PORTFOLIO / "claims.csv", "x.claims", "--map", "m.toml", *WINDOW_WORDS)
        self.ltd("pack", PORTFOLIO / "claims.csv", "y.claims", *WINDOW_WORDS)
        self.assertEqual((self.folder / "x.claims").read_bytes(), (self.folder / "y.claims").read_bytes())

    def test_what_it_could_not_tell(self) -> None:
        text = self.ltd("map", EXTRACTS / "us-dates.csv").out
        for wanted in (
            '# ignore = ["Claimant", "Benefit (hundreds)"]\n',
            "# these fit all that were seen: MM/DD/YYYY, M/D/YYYY\n",
            '# format = "MM/DD/YYYY"\n',
            '# "T" = "?"\n',
            '# "RTW" = "?"\n',
            '# benefit = one of "Claimant", "Benefit (hundreds)"',
        ):
            self.assertIn(wanted, text)
        self.assertIn('"latin-1" or "windows-1252" is to be chosen', self.ltd("map", EXTRACTS / "latin-1.csv").out)
        self.assertIn('encoding = "utf-16"\n', self.ltd("map", EXTRACTS / "utf-16.csv").out)
        self.assertIn("none fits all that were seen", self.ltd("map", EXTRACTS / "mixed-dates.csv").out)
        text = self.ltd("map", EXTRACTS / "titles-and-totals.csv").out
        self.assertIn('# [skip]\n# "Claim" = ["Subtotal", "", "8 claims", "End of report"]\n', text)
        self.assertIn('[status]\n# each is open, closed\n"closed" = "closed"\n"open" = "open"\n# "" = "?"\n', text)
        self.assertNotIn("number", tomllib.loads(text))

    def test_a_completed_first_map(self) -> None:
        text = self.ltd("map", EXTRACTS / "us-dates.csv").out
        text = text.replace('# ignore = ["Claimant", "Benefit (hundreds)"]', 'ignore = ["Claimant"]').replace('# format = "MM/DD', 'format = "MM/DD')
        text = re.sub("# benefit = .*", 'benefit = "Benefit (hundreds)"', text)
        words = {"A": "open", "T": "closed", "": "none", "RTW": "recovery", "DTH": "death", "SET": "settlement"}
        words.update({"DEF": "definition", "MAX": "max-out", "LIM": "limit"})
        for seen, word in words.items():
            text = text.replace(f'# "{seen}" = "?"', f'"{seen}" = "{word}"')
        self.file("m.toml", text)
        self.ltd("pack", EXTRACTS / "us-dates.csv", "x.claims", "--map", "m.toml", *WINDOW_WORDS)
        self.ltd("pack", EXTRACTS / "claims.csv", "y.claims", *WINDOW_WORDS)
        self.assertEqual((self.folder / "x.claims").read_bytes(), (self.folder / "y.claims").read_bytes())

    def test_forms_that_are_said(self) -> None:
        self.file("in.csv", "a;b\nc;d\nnumber|status|bcd;x\n")
        found = tomllib.loads(self.ltd("map", "in.csv", "--delimiter", "bar", "--title-lines", 2, "--encoding", "latin-1").out)
        self.assertEqual((found["delimiter"], found["title_lines"], found["encoding"]), ("|", 2, "latin-1"))
        self.assertEqual(found["columns"], {"number": "number", "status": "status"})
        self.assertEqual(self.ltd("map", "in.csv", "--delimiter", "x", status=2).out, "")

    def test_files_that_have_no_header(self) -> None:
        for text in ("", "\n\n"):
            self.file("in.csv", text)
            self.assertEqual(self.ltd("map", "in.csv", status=1).err, "ltd: 'in.csv': there is no header line\n")
        self.assertEqual(self.ltd("map", "nowhere", status=2).err, "ltd: there is no CSV file 'nowhere'\n")

    def test_a_map_is_not_written_over(self) -> None:
        self.file("m.toml", "mine")
        ended = self.ltd("map", PORTFOLIO / "claims.csv", "--out", "m.toml", status=2)
        self.assertEqual(ended.err, "ltd: 'm.toml' is there already; a map that was completed is not written over\n")
        self.assertEqual((self.folder / "m.toml").read_text(), "mine")

    def test_odd_names_and_bytes(self) -> None:
        rng = random.Random(39)
        for _ in range(200):
            data = bytes(rng.choice(b'a"\\\n\r,;\t|\xe9\x00\x7f#=[]') for _ in range(rng.randint(1, 60)))
            try:
                tomllib.loads(first_map(data))
            except ValueError as error:
                self.assertEqual(str(error), "there is no header line")


class WhatMapsSay(MapTest):
    """Each thing that a map can say, and that anything else is refused by line, column and value."""

    def test_random_claims_in_another_form(self) -> None:
        rng = random.Random(6)
        for count in (0, 1, 15, 16, 300):
            claims = sound_claims(rng, count, 300)
            text = claims_csv(claims)
            text = re.sub(r"(\d{4})-(\d\d)-(\d\d)", r"\2/\3/\1", text).replace(",", "\t")
            self.pack("\ufeff" + text, 'delimiter = "\\t"\n' + SAME_COLUMNS + '[dates]\nformat = "MM/DD/YYYY"\n')
            self.assertEqual(self.claims(), claims)
            lines = [row.split(",") for row in (self.folder / "x.claims.lines.csv").read_text().splitlines()[1:]]
            self.assertEqual([int(line) for _, _, line in lines], list(range(2, count + 2)))
            self.assertEqual([(int(block), int(place)) for block, place, _ in lines], [(i // 15 + 1, i % 15 + 1) for i in range(count)])

    def test_columns_that_the_map_doesnt_name(self) -> None:
        text = f"{HEADER},Region,Notes\n{GOOD},North,\n"
        self.bad(
            text,
            'keep = ["Town"]\n' + SAME_COLUMNS,
            "line 1: the map says nothing of column 'Region': name it in [columns], ignore or keep",
            "line 1: the map says nothing of column 'Notes': name it in [columns], ignore or keep",
            "line 1, column Town: is missing",
        )
        self.bad(f"{HEADER},cell\n{GOOD},0\n", SAME_COLUMNS, "line 1, column cell: stands twice")
        self.bad(text, 'ignore = ["Region", "Notes", "Town"]\n' + SAME_COLUMNS, "line 1, column Town: is missing")
        self.bad("", SAME_COLUMNS, "line 1: no header line", *[f"line 1, column {name}: is missing" for name in COLUMNS])
        self.pack(f"{HEADER},Notes,Notes\n{GOOD},a,b\n", 'ignore = ["Notes"]\n' + SAME_COLUMNS)
        self.assertEqual(len(self.claims()), 1)

    def test_widths(self) -> None:
        self.bad(f"{HEADER}\n{GOOD}\n1,2\n", SAME_COLUMNS, "line 3: 2 fields, where the header has 9")

    def test_the_default_stays_where_nothing_is_said(self) -> None:
        bad = GOOD.replace("2009-03-13", "03/13/2009").replace("closed", "T").replace(",25", ",3000.00").replace("1,", "A1,", 1)
        self.bad(
            f"{HEADER}\n{GOOD}\n{bad}\n",
            SAME_COLUMNS,
            "line 3, column number: 'A1' is no whole number",
            "line 3, column disability: '03/13/2009' is no date as 2011-02-28",
            "line 3, column status: 'T' is neither a number nor one of open, closed",
            "line 3, column benefit: '3000.00' is no whole number; a benefit is in hundreds of dollars, 1 to 200",
        )

    def test_words(self) -> None:
        mapped = SAME_COLUMNS + '[status]\n"T" = "closed"\n[code]\n"RTW" = "recovery"\n'
        self.pack(f"{HEADER}\n{GOOD.replace('closed,recovery', 'T, RTW ')}\n", mapped)
        self.assertEqual((self.claims()[0].status_word, self.claims()[0].code_word), ("closed", "recovery"))
        self.folder.joinpath("x.claims").unlink()
        for path in self.folder.glob("x.claims.*"):
            path.unlink()
        self.bad(
            f"{HEADER}\n{GOOD}\n{GOOD.replace('closed,recovery', 't,')}\n{GOOD.replace('closed,recovery', '1,1')}\n",
            mapped,
            "line 2, column status: 'closed' is not in the map's [status], which has 'T'",
            "line 2, column code: 'recovery' is not in the map's [code], which has 'RTW'",
            "line 3, column status: 't' is not in the map's [status], which has 'T'",
            "line 3, column code: is empty, and the map's [code] has no \"\"",
            "line 4, column status: '1' is not in the map's [status], which has 'T'",
            "line 4, column code: '1' is not in the map's [code], which has 'RTW'",
        )

    def test_cells_from_tables(self) -> None:
        header = HEADER.replace("cell", "EP,Class")
        mapped = SAME_COLUMNS.replace('cell = "cell"\n', "") + '[cell]\ncolumns = ["EP", "Class"]\nrows = [[90, "A", 0], [180, "A", 300]]\n'
        rows = [GOOD.replace(",0,", f",{value},") for value in ("90,A", " 180 ,A")]
        self.pack("\n".join([header, *rows]), mapped)
        self.assertEqual([claim.cell for claim in self.claims()], [0, 300])
        for path in self.folder.glob("x.claims*"):
            path.unlink()
        other = rows[0].replace("90,A", "90,B")
        self.bad(f"{header}\n{rows[0]}\n{other}\n", mapped, "line 3, column EP, Class: '90', 'B' is in no row of the map's [cell]")
        one = SAME_COLUMNS.replace('cell = "cell"\n', "") + '[cell]\ncolumns = ["Plan"]\nrows = [["Basic", 4]]\n'
        self.pack(f"{HEADER.replace('cell', 'Plan')}\n{GOOD.replace(',0,', ',Basic,')}\n", one)
        self.assertEqual(self.claims()[0].cell, 4)

    def test_constants(self) -> None:
        text = "number,disability,bcd,termination\n1,2009-03-13,2009-06-11,\n"
        columns = "".join(f'{name} = "{name}"\n' for name in COLUMNS[:4])
        self.pack(text, f'[columns]\n{columns}[constant]\nmaximum = "2030-01-31"\nstatus = "open"\ncode = ""\ncell = 7\nbenefit = 0\n')
        self.assertEqual(self.claims(), [Claim(1, "2009-03-13", "2009-06-11", maximum="2030-01-31", cell=7)])

    def test_skipped_rows(self) -> None:
        mapped = SAME_COLUMNS + '[skip]\n"number" = ["", "Total"]\n"status" = ["void"]\n'
        rows = [GOOD, " Total ,,,,,,,,", GOOD.replace("closed", "void"), ",,,,,,,,", "Total", GOOD]
        ended = self.pack("\n".join([HEADER, *rows]), mapped)
        self.assertEqual(len(self.claims()), 2)
        self.assertIn("passed over as the map says: 4 rows by [skip]", ended.out)
        self.assertEqual((self.folder / "x.claims.lines.csv").read_text(), "block,place,line\n1,1,2\n1,2,7\n")
        self.pack(f"{HEADER}\n{GOOD}\n", "totals_rows = 3\n" + SAME_COLUMNS)
        self.assertEqual(self.claims(), [])
        # Lines above the header are lines, whatever quotes they have.
        self.pack(f'"title\n{HEADER}\n{GOOD}\n', "title_lines = 1\n" + SAME_COLUMNS)
        self.assertEqual(len(self.claims()), 1)

    def test_totals_over_many_rows(self) -> None:
        count = 512 * 2 + 1
        for last in (0, 1, 2, 5):
            self.pack("\n".join([HEADER, *[GOOD] * count, *["x"] * last]), f"totals_rows = {last}\n" + SAME_COLUMNS)
            self.assertEqual(len(self.claims()), count)

    def test_encodings(self) -> None:
        text = f"{HEADER},Nom\n{GOOD},Zo\u00e9\n"
        mapped = 'encoding = "{}"\nkeep = ["Nom"]\n' + SAME_COLUMNS
        for name in ("latin-1", "windows-1252", "utf-8", "utf-16", "utf-16-le", "utf-16-be"):
            self.pack(text.encode(name), mapped.format(name))
            self.assertEqual((self.folder / "x.claims.Nom.csv").read_text(encoding="utf-8"), "Nom\nZo\u00e9\n")
        for path in self.folder.glob("x.claims*"):
            path.unlink()
        self.bad(text.encode("latin-1"), mapped.format("utf-8"), "line 2, column Nom: 'Zo\\udce9' is not utf-8")
        self.bad(text.replace("Nom", "N\u00e9").encode("latin-1"), mapped.format("utf-8"),
                 "line 1: column 'N\\udce9' is not utf-8, as the map says", "line 1, column Nom: is missing")
        self.bad(text.encode("latin-1"), mapped.format("utf-16"), "line 1: from about here on the bytes are not utf-16, as the map says")
        self.bad(b"\xff\xfea", mapped.format("utf-16"), "line 1: from about here on the bytes are not utf-16, as the map says")

    def test_numbers_as_text(self) -> None:
        mapped = SAME_COLUMNS + '[number]\nkind = "text"\n'
        numbers = ["B-7", "007", "7", " B-7", "\u00dc1"]
        self.pack("\n".join([HEADER, *(number + GOOD[1:] for number in numbers)]), mapped)
        self.assertEqual([claim.number for claim in self.claims()], [1, 2, 3, 1, 4])
        text = (self.folder / "x.claims.numbers.csv").read_text(encoding="utf-8")
        self.assertEqual(text, "number,original\n1,B-7\n2,007\n3,7\n4,\u00dc1\n")
        for path in self.folder.glob("x.claims*"):
            path.unlink()
        self.bad(f"{HEADER}\n {GOOD[1:]}\n", mapped, "line 2, column number: is empty")

    def test_dates(self) -> None:
        for form, text, want in (
            ("MM/DD/YYYY", "02/03/2010", date(2010, 2, 3)),
            ("DD/MM/YYYY", "02/03/2010", date(2010, 3, 2)),
            ("M/D/YYYY", "2/13/2010", date(2010, 2, 13)),
            ("D.M.YYYY", "02.3.2010", date(2010, 3, 2)),
            ("YYYYMMDD", "20100203", date(2010, 2, 3)),
            ("DD-MMM-YYYY", "03-Feb-2010", date(2010, 2, 3)),
            ("DDMMMYYYY", "03FEB2010", date(2010, 2, 3)),
            ("MMM D, YYYY", "feb 3, 2010", date(2010, 2, 3)),
            ("YYYY-MM-DD 00:00:00", "2010-02-03 00:00:00", date(2010, 2, 3)),
            ("YYYY-MM-DDT00:00:00", "2010-02-03T00:00:00", date(2010, 2, 3)),
            ("excel-1900", "40212", date(2010, 2, 3)),
            ("excel-1900", "61", date(1900, 3, 1)),
            ("excel-1904", "38750", date(2010, 2, 3)),
        ):
            self.assertEqual(map_values.Dates(form)[text], want.year | want.month << 16 | want.day << 24, (form, text))
        for form, text, reason in (
            ("MM/DD/YYYY", "13/02/2010", "is not in the calendar, as MM/DD/YYYY"),
            ("MM/DD/YYYY", "2/3/2010", "is no date as MM/DD/YYYY"),
            ("M/D/YYYY", "2/3/10", "is no date as M/D/YYYY"),
            ("MM/DD/YYYY", "2010-02-03", "is no date as MM/DD/YYYY"),
            ("YYYY-MM-DD 00:00:00", "2010-02-03 14:00:00", "is no date as YYYY-MM-DD 00:00:00"),
            ("YYYY-MM-DD", "\u0662\u0660\u0661\u0660-02-03", "is no date as YYYY-MM-DD"),
            ("DD-MMM-YYYY", "03-Fev-2010", "is no date as DD-MMM-YYYY"),
            ("YYYYMMDD", "20100230", "is not in the calendar, as YYYYMMDD"),
            ("excel-1900", "40212.5", "is no serial number of a day, as excel-1900"),
            ("excel-1900", "60", "is no serial number from 61 to 2958465, as excel-1900"),
            ("excel-1900", "2958466", "is no serial number from 61 to 2958465, as excel-1900"),
            ("excel-1900", "2010-02-03", "is no serial number of a day, as excel-1900"),
        ):
            with self.assertRaisesRegex(ValueError, f"^'{re.escape(text)}' {reason}$"):
                map_values.Dates(form)[text]  # pylint: disable=expression-not-assigned
        missing = map_values.Dates("MM/DD/YYYY", ["00/00/0000", "NULL"])
        self.assertEqual([missing[text] for text in ("", " ", "NULL", " 00/00/0000")], [0] * 4)

    def test_every_serial_number(self) -> None:
        found = map_values.Dates("excel-1900")
        days = [date(1950, 1, 1) + timedelta(days=i) for i in range(0, 54_787, 13)]
        self.assertEqual([found[str(18_264 + i)] for i in range(0, 54_787, 13)], [map_values.dates.number_of(day) for day in days])

    def test_dollars(self) -> None:
        texts = ("2450", "2449.99", "2550.00", "2450.01", "100", "49.99", "50", "0", "", "25,550.5", "$ 2,450")
        read = {name: map_values.Dollars(name, "$", ",") for name in ("half-up", "half-even", "up", "down")}
        self.assertEqual([read["half-up"][text] for text in texts[:9]], [25, 24, 26, 25, 1, 0, 1, 0, 0])
        self.assertEqual([read["half-even"][text] for text in texts[:9]], [24, 24, 26, 25, 1, 0, 0, 0, 0])
        self.assertEqual([read["up"][text] for text in texts[:9]], [25, 25, 26, 25, 1, 1, 1, 0, 0])
        self.assertEqual([read["down"][text] for text in texts[:9]], [24, 24, 25, 24, 1, 0, 0, 0, 0])
        self.assertEqual([read["down"][text] for text in texts[9:]], [255, 24])
        self.assertEqual(map_values.Dollars("none")["2500.00"], 25)
        self.assertEqual(map_values.Dollars("half-up", "", ".", ",")["2.450,00"], 25)
        for text, reason in (
            ("-100", "is no amount of dollars as the map has it"),
            ("24,50", "is no amount of dollars as the map has it"),
            ("2.450,00", "is no amount of dollars as the map has it"),
            ("\u20ac 100", "is no amount of dollars as the map has it"),
            ("1" * 30, "is no amount of dollars as the map has it"),
            ("25,550", "is over 255 hundreds of dollars; a study takes 1 to 200"),
        ):
            with self.assertRaisesRegex(ValueError, reason):
                read["half-up"][text]  # pylint: disable=expression-not-assigned
        with self.assertRaisesRegex(ValueError, "'2450' is no whole number of hundreds of dollars, and the map's rounding is 'none'"):
            map_values.Dollars("none")["2450"]  # pylint: disable=expression-not-assigned


class BadMaps(MapTest):
    """What is no map is refused before a row is read."""

    def test_what_is_no_toml(self) -> None:
        self.pack("", "x", status=1)
        self.assertIn("'m.toml': no TOML: ", self.pack("", "x", status=1).err)
        self.file("m.toml", b"\xff")
        self.assertIn("a map is UTF-8", self.ltd("pack", "in.csv", "x", "--map", "m.toml", *WINDOW_WORDS, status=1).err)
        self.assertIn("there is no map 'nowhere'", self.ltd("pack", "in.csv", "x", "--map", "nowhere", *WINDOW_WORDS, status=2).err)

    def test_keys(self) -> None:
        self.bad_map("delimeter = ','\n" + SAME_COLUMNS, "the map has no 'delimeter'; it has " + ", ".join(
            "delimiter encoding title_lines totals_rows ignore keep columns constant skip number dates status code cell benefit".split()))
        self.bad_map(SAME_COLUMNS + 'region = "x"\n', "[columns] has no 'region'; it has " + ", ".join(COLUMNS))
        self.bad_map("title_lines = '3'\n" + SAME_COLUMNS, "'title_lines' of the map is no whole number")
        self.bad_map("title_lines = true\n" + SAME_COLUMNS, "'title_lines' of the map is no whole number")
        self.bad_map("title_lines = -1\n" + SAME_COLUMNS, "title_lines is not from 0 to 1,000")
        self.bad_map("ignore = 'x'\n" + SAME_COLUMNS, "'ignore' of the map is no list")
        self.bad_map("ignore = [1]\n" + SAME_COLUMNS, "ignore is no list of texts")
        self.bad_map(SAME_COLUMNS + '[skip]\nnumber = "Total"\n', "skip.number is no list of texts")
        self.bad_map("delimiter = ':'\n" + SAME_COLUMNS, "delimiter ':' is none of ',', ';', '\\t', '|'")
        known = "'utf-8', 'latin-1', 'windows-1252', 'utf-16', 'utf-16-le', 'utf-16-be'"
        self.bad_map("encoding = 'ebcdic'\n" + SAME_COLUMNS, f"encoding 'ebcdic' is none of {known}")

    def test_fields(self) -> None:
        fewer = SAME_COLUMNS.replace('maximum = "maximum"\n', "")
        self.bad_map(fewer, "maximum stands in none of [columns] and [constant]; it stands in one")
        self.bad_map(SAME_COLUMNS + '[constant]\nmaximum = ""\n', "maximum stands in more than one of [columns] and [constant]; it stands in one")
        table = '[cell]\ncolumns = ["x"]\nrows = [["y", 1]]\n'
        self.bad_map(SAME_COLUMNS + table, "cell stands in more than one of [columns], [constant] and [cell]; it stands in one")
        self.bad_map(fewer + '[constant]\nmaximum = "31.12.2030"\n', "[constant] maximum: '31.12.2030' is no date as 2011-02-28")
        self.bad_map(fewer + "[constant]\nmaximum = 2030-12-31\n", "[constant] maximum is no text and no whole number")
        self.bad_map(fewer + '[constant]\nmaximum = ""\nregion = 1\n', "[constant] has no 'region'; it has " + ", ".join(COLUMNS[1:]))

    def test_names(self) -> None:
        self.bad_map("ignore = ['cell']\n" + SAME_COLUMNS, "column 'cell' is both read and ignored")
        for name in ("a/b", "", "Lines", "numbers", "a\\\\b"):
            shown = name.replace("\\\\", "\\")
            self.bad_map(f'keep = ["{name}"]\n' + SAME_COLUMNS, f"keep: a file can't be named after column '{shown}'")
        self.bad_map('keep = ["Region", "region"]\n' + SAME_COLUMNS, "keep: column 'Region' stands twice")

    def test_tables(self) -> None:
        self.bad_map(SAME_COLUMNS + '[status]\n"T" = "shut"\n', "[status] 'shut' is none of open, closed")
        self.bad_map(SAME_COLUMNS + '[status]\n"T" = 1\n', "[status] 1 is none of open, closed")
        self.bad_map(SAME_COLUMNS + '[number]\nkind = "word"\n', "[number] kind 'word' is none of 'number', 'text'")
        dollars, roundings = SAME_COLUMNS + '[benefit]\nunit = "dollars"\n', "'half-up', 'half-even', 'up', 'down', 'none'"
        self.bad_map(dollars, f"[benefit] in dollars needs a rounding to hundreds: round is one of {roundings}")
        self.bad_map(SAME_COLUMNS + '[benefit]\nround = "up"\n', '[benefit] only dollars have a rounding, a currency and signs: unit = "dollars"')
        self.bad_map(dollars + 'round = "near"\n', f"[benefit] round 'near' is none of {roundings}")
        self.bad_map(dollars + 'round = "up"\nthousands = "."\n', "[benefit] thousands and decimal are two signs, as ',' and '.'")
        no_cell = SAME_COLUMNS.replace('cell = "cell"\n', "")
        start = no_cell + '[cell]\ncolumns = ["EP"]\n'
        self.bad_map(start, "[cell] has columns, and rows of their values with the cell as the last one")
        self.bad_map(start + 'rows = [["90", "A", 0]]\n', "[cell] row ['90', 'A', 0] isn't 1 values and a cell")
        self.bad_map(start + 'rows = [["90", "0"]]\n', "[cell] row ['90', '0']: '0' is no cell from 0 to 65,535")
        self.bad_map(start + 'rows = [["90", 0], [90, 1]]\n', "[cell] row [90, 1]: its values stand twice")

    def test_date_formats(self) -> None:
        for form, reason in (
            ("MM/DD/YY", "has a year of two digits, and its century would be guessed; have the extract written with YYYY"),
            ("MDYYYY", "is no date format: M and D, of one digit or two, need a sign between the parts"),
            ("MM/DD", "is no date format: it has YYYY, MM or M or MMM, and DD or D once each, or is one of excel-1900, excel-1904"),
            ("MM/DD/YYYY HH:MM", "is no date format: it has YYYY, MM or M or MMM, and DD or D once each, or is one of excel-1900, excel-1904"),
            ("%m/%d/%Y", "is no date format: it has YYYY, MM or M or MMM, and DD or D once each, or is one of excel-1900, excel-1904"),
            ("MMxDDxYYYY", "is no date format: 'x' stands in it"),
            ("MM/DD/YYYY 14:00", "is no date format: only a midnight as 00:00:00 may stand after the date"),
            ("excel", "is no date format: it has YYYY, MM or M or MMM, and DD or D once each, or is one of excel-1900, excel-1904"),
        ):
            self.bad_map(SAME_COLUMNS + f'[dates]\nformat = "{form}"\n', f"[dates] format '{form}' {reason}")

    def test_maps_that_are_read(self) -> None:
        for path in EXTRACTS.glob("*.toml"):
            if path.stem != "two-digit-years":
                self.assertEqual(len(read_map(path.read_bytes()).fields), len(COLUMNS))
        self.assertRaises(BadMap, read_map, (EXTRACTS / "two-digit-years.toml").read_bytes())


class SideFiles(MapTest):
    """What stands beside the claim file, and what the page says of it."""

    def setUp(self) -> None:
        super().setUp()
        self.file("r.bin", any_rates(random.Random(2)).to_bytes())
        self.mapped = 'keep = ["Region"]\n' + SAME_COLUMNS + '[number]\nkind = "text"\n# <b>&'
        self.text = f"{HEADER},Region\n{GOOD},North\n"

    def page(self, *words: str) -> str:
        """The page of a study, as text."""
        self.ltd(*(words or ("study",)), "x.claims", "r.bin", "--html", "p.html")
        return (self.folder / "p.html").read_text(encoding="utf-8")

    def test_the_page_has_the_map_and_its_hash(self) -> None:
        self.pack(self.text, self.mapped)
        sha256 = hashlib.sha256(self.mapped.encode()).hexdigest()
        for words in (("study",), ("years",)):
            text = self.page(*words)
            page = Page(text)
            self.assertEqual(page.texts["pre"], self.mapped)
            self.assertIn(f"claims: map: x.claims.map.toml, sha256 {sha256}", page.texts["p"])
            self.assertIn(f"claims: packed from in.csv, sha256 {hashlib.sha256(self.text.encode()).hexdigest()}", page.texts["p"])
            self.assertNotIn("<b>", text)

    def test_the_page_has_no_map_of_another_file(self) -> None:
        self.pack(self.text, self.mapped)
        self.file("x.claims.map.toml", self.mapped.replace("text", "number"))
        self.assertNotIn("<pre>", self.page())
        self.assertIn("the map beside the file is missing or another one", self.page())
        self.packed([Claim(1, "2009-03-13", "2009-06-11")])
        self.assertNotIn("map", Page(self.page()).texts["p"])
        (self.folder / "x.claims.how.toml").write_text("sha256 = [")
        self.assertEqual(made(str(self.folder / "x.claims"), "0"), ((), "", ()))

    def test_older_side_files_go(self) -> None:
        self.pack(self.text, self.mapped)
        self.file("x.claims.mine.csv", "mine")
        inputs = ["in.csv", "m.toml", "r.bin", "x.claims", "x.claims.mine.csv"]
        beside = ["x.claims.Region.csv", "x.claims.how.toml", "x.claims.lines.csv", "x.claims.map.toml", "x.claims.numbers.csv"]
        self.assertEqual(self.names(), sorted(inputs + beside))
        self.pack(self.text, 'ignore = ["Region"]\n' + SAME_COLUMNS)
        self.assertEqual(self.names(), sorted(inputs + beside[1:4]))
        self.file("in.csv", f"{HEADER}\n{GOOD}\n")
        self.ltd("pack", "in.csv", "x.claims", *WINDOW_WORDS)
        self.assertEqual(self.names(), sorted([*inputs, beside[1]]))

    def test_nothing_goes_where_the_extract_is_refused(self) -> None:
        self.pack(self.text, self.mapped)
        before = {name: (self.folder / name).read_bytes() for name in self.names() if name.startswith("x.")}
        self.pack(self.text.replace("North", "North,"), self.mapped, status=1)
        self.assertEqual({name: (self.folder / name).read_bytes() for name in before}, before)

    def test_the_map_beside_the_file_can_be_used_again(self) -> None:
        self.pack(self.text, self.mapped)
        before = (self.folder / "x.claims").read_bytes()
        self.ltd("pack", "in.csv", "x.claims", "--map", "x.claims.map.toml", *WINDOW_WORDS)
        self.assertEqual((self.folder / "x.claims").read_bytes(), before)
        self.assertEqual((self.folder / "x.claims.map.toml").read_text(), self.mapped)

    def test_the_extract_is_never_written_over(self) -> None:
        self.file("x.Region.csv", self.text)
        self.file("m.toml", self.mapped)
        for name in ("x.Region.csv", "link.csv"):
            if name == "link.csv":
                os.link(self.folder / "x.Region.csv", self.folder / name)
            ended = self.ltd("pack", name, "x", "--map", "m.toml", *WINDOW_WORDS, status=2)
            self.assertEqual(ended.err, f"ltd: 'x.Region.csv' is the input '{name}' itself: it would be destroyed, and nothing is written there\n")
            self.assertEqual((self.folder / "x.Region.csv").read_text(), self.text)

    def test_streams(self) -> None:
        self.file("in.csv", self.text)
        self.file("m.toml", self.mapped)
        ended = self.ltd("pack", "in.csv", "/dev/null", "--map", "m.toml", *WINDOW_WORDS, status=2)
        self.assertEqual(ended.err, "ltd: --map writes files beside OUT, and '/dev/null' is no file\n")


class Speed(DeskTest):
    """Half a million rows are read by a map within the time asked for."""

    def test_rows(self) -> None:
        count, most = 100_000, 1.2
        row = ",{0:02}/{1:02}/{2},06/11/2012,04/29/2014,,T,RTW,90,A,\"$2,450.00\"\n"
        text = "No,DOD,BCD,Term,Max,St,Reason,EP,Class,Benefit\n"
        text += "".join(f"LTD-{i:07}" + row.format(i % 12 + 1, i % 28 + 1, 1990 + i % 20) for i in range(count))
        names = dict(zip(COLUMNS, ("No", "DOD", "BCD", "Term", "Max", "St", "Reason", "", "Benefit")))
        mapped = "[columns]\n" + "".join(f'{name} = "{column}"\n' for name, column in names.items() if column)
        mapped += '[number]\nkind = "text"\n[dates]\nformat = "MM/DD/YYYY"\n[status]\nT = "closed"\n[code]\nRTW = "recovery"\n'
        mapped += '[benefit]\nunit = "dollars"\nround = "up"\ncurrency = "$"\nthousands = ","\n'
        mapped += '[cell]\ncolumns = ["EP", "Class"]\nrows = [["90", "A", 0]]\n'

        def read() -> Tuple[int, int]:
            rows = MappedRows(read_map(mapped.encode()), Faults(10))
            return sum(1 for _ in rows.records(io.BytesIO(text.encode()))), rows.lines[-1]

        # A fifth of the rows, in a fifth of the six seconds asked for 'pack' as a whole.
        seconds, found = least_time(read)
        self.assertLess(seconds, most)
        self.assertEqual(found, (count, count + 1))
