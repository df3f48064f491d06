"""The page: parsed, whole, without network or script, and with every figure of the tables."""

import hashlib
import random
import re
import xml.etree.ElementTree as ElementTree
from datetime import date
from html.parser import HTMLParser
from typing import Dict, List, Optional, Tuple

from ltd_study import Claim, GroupSums, Study, factor, file_study, library
from ltd_study.desk import figures
from ltd_study.desk.parts import calendar_years, divide
from ltd_study.desk.ratios import ratios_of
from ltd_study.desk.reports import closings_table, study_tables, years_tables
from ltd_study.desk.tables import Table

from .support import WINDOW, DeskTest, any_rates, claim_file, sound_claims

VOID = {"meta", "br", "link", "img", "input"}


class Page(HTMLParser):
    """A page's tables by title, its drawings, and all tags with their attributes."""

    def __init__(self, text: str) -> None:
        super().__init__(convert_charrefs=True)
        self.open: List[str] = []
        self.tags: List[Tuple[str, Dict[str, Optional[str]]]] = []
        self.tables: Dict[str, List[List[str]]] = {}
        self.texts: Dict[str, str] = {}
        self._title = ""
        self.feed(text)
        self.close()
        assert not self.open, f"left open: {self.open}"
        self.drawings = re.findall(r"<svg .*?</svg>", text, re.S)
        self.style = re.findall(r"<style>(.*?)</style>", text, re.S)[0]

    def handle_starttag(self, tag: str, attributes: List[Tuple[str, Optional[str]]]) -> None:
        self.tags.append((tag, dict(attributes)))
        if tag not in VOID:
            self.open.append(tag)
        if tag == "h2":
            self._title = ""
        elif tag == "tr":
            self.tables.setdefault(self._title, []).append([])
        elif tag in ("td", "th"):
            self.tables[self._title][-1].append("")

    def handle_startendtag(self, tag: str, attributes: List[Tuple[str, Optional[str]]]) -> None:
        self.tags.append((tag, dict(attributes)))

    def handle_endtag(self, tag: str) -> None:
        assert self.open and self.open[-1] == tag, f"</{tag}> in {self.open}"
        self.open.pop()

    def handle_data(self, data: str) -> None:
        if not self.open:
            return
        if "h2" in self.open:
            self._title += data
        elif self.open[-1] in ("td", "th") or (self.open[-1] == "span" and "th" in self.open):
            self.tables[self._title][-1][-1] += data
        self.texts[self.open[-1]] = self.texts.get(self.open[-1], "") + data


def contrast(first: str, second: str) -> float:
    """The ratio of two colours' luminances, as WCAG has it."""
    lights = []
    for colour in (first, second):
        parts = [int(colour[i : i + 2], 16) / 255 for i in (1, 3, 5)]
        red, green, blue = (part / 12.92 if part <= 0.04045 else ((part + 0.055) / 1.055) ** 2.4 for part in parts)
        lights.append(0.2126 * red + 0.7152 * green + 0.0722 * blue + 0.05)
    return max(lights) / min(lights)


class Pages(DeskTest):
    """The pages of study and years."""

    def setUp(self) -> None:
        super().setUp()
        rng = random.Random(420)
        self.claims, self.rates = sound_claims(rng, 300), any_rates(rng)
        self.packed(self.claims)
        self.file("r.bin", self.rates.to_bytes())

    def page(self, *words: object) -> Page:
        """The page that a command writes."""
        self.ltd(*words, "x.claims", "r.bin", "--html", "page.html")
        return Page((self.folder / "page.html").read_text(encoding="utf-8"))

    def same_tables(self, page: Page, tables: List[Table]) -> None:
        """Every figure of the tables stands in the page, in its place."""
        for table in tables:
            head, *rows = page.tables[table.title]
            self.assertEqual(head, [column.heading + column.unit for column in table.columns])
            self.assertEqual(rows, [list(row.cells) for row in table.rows])

    def is_self_contained(self, page: Page) -> None:
        """No script, no network: nothing is loaded, and the page's own policy forbids it."""
        self.assertFalse({"script", "link", "img", "iframe", "object", "form", "base"} & {tag for tag, _ in page.tags})
        for _, attributes in page.tags:
            self.assertFalse({"src", "href", "srcset", "action", "style"} & set(attributes))
            self.assertFalse([name for name in attributes if name.startswith("on")])
        policies = [attributes["content"] for tag, attributes in page.tags if attributes.get("http-equiv") == "Content-Security-Policy"]
        self.assertEqual(policies, ["default-src 'none'; style-src 'unsafe-inline'"])
        self.assertNotRegex(page.style, r"url\(|@import|http")
        for wanted in ("prefers-color-scheme: dark", "@media print", "@page", "max-width: 40rem"):
            self.assertIn(wanted, page.style)
        self.assertIn(("html", {"lang": "en"}), page.tags)
        self.assertIn(("meta", {"name": "viewport", "content": "width=device-width, initial-scale=1"}), page.tags)

    def has_words(self, drawing: str) -> str:
        """A drawing's text alternative; it is named by ids that are there."""
        svg = ElementTree.fromstring(drawing)
        self.assertEqual(svg.get("role"), "img")
        named = {element.get("id"): element.text or "" for element in svg if element.get("id")}
        self.assertEqual((svg.get("aria-labelledby") or "").split(), list(named))
        return " ".join(named.values())

    def colours_are_defined(self, page: Page) -> None:
        """Each variable that is used has a value in light, in dark and on paper."""
        values = [set(re.findall(r"(--\w+):", root)) for root in re.findall(r":root \{(.*?)\}", page.style, re.S)]
        self.assertEqual(len(values), 3)
        used = set(re.findall(r"var\((--\w+)\)", page.style))
        self.assertTrue(all(used <= defined for defined in values))
        drawn = {kind for drawing in page.drawings for kinds in re.findall(r'class="([^"]*)"', drawing) for kind in kinds.split()}
        self.assertTrue(all(f"svg .{kind}" in page.style for kind in drawn), drawn)

    def test_colours_can_be_read(self) -> None:
        """Text stands out from what is behind it by 4.5 or more, in light, in dark and on paper."""
        for root in re.findall(r":root \{(.*?)\}", self.page("study").style, re.S):
            colour = dict(re.findall(r"--(\w+): (#[0-9a-f]{6})", root))
            pairs = [("ink", "paper"), ("muted", "paper"), ("ink", "panel"), ("muted", "panel"), *(("on", f"k{i}") for i in range(1, 6))]
            for text, behind in pairs:
                self.assertGreaterEqual(contrast(colour[text], colour[behind]), 4.5, (text, behind, root))
            for drawn in ("bar", "one"):
                self.assertGreaterEqual(contrast(colour[drawn], colour["paper"]), 3, (drawn, root))

    def test_a_study(self) -> None:
        page = self.page("study", "--weighted", "--title", "Mutual <of> Examplia & Sons")
        study = file_study(self.folder / "x.claims", self.rates)
        self.is_self_contained(page)
        self.colours_are_defined(page)
        self.same_tables(page, study_tables(study, True))
        self.assertEqual(len(page.tables), 8)
        self.every_figure(page, study)
        self.figures_stand_under_their_headings(page, study)
        headings = {heading for head, *_ in page.tables.values() for heading in head} - {"group", "durationsmonths"}
        self.assertEqual(headings, set(self.by_heading(study.groups[1], study, 2)))
        self.assertEqual(page.texts["h1"], "Mutual <of> Examplia & Sons")
        self.assertEqual(len(page.drawings), 6)
        for drawings, groups in ((page.drawings[:3], study.groups), (page.drawings[3:], study.weighted)):
            self.charts_of_groups(drawings, groups)

    def charts_of_groups(self, drawings: List[str], groups: List[GroupSums]) -> None:
        """Exposure, closings and ratios of each group, drawn and in words; only counts have an interval."""
        exposure, closings, ratio = drawings
        for i, group in enumerate(groups, 1):
            self.assertIn(f": {figures.months(group.thirtieths)} months", self.has_words(exposure))
            self.assertIn(f">{figures.months(group.thirtieths)}</text>", exposure)
            self.assertIn(f"months: {figures.counted(group.closings, 'closing')}", self.has_words(closings))
            for one in ratios_of(group, "weighted" not in ratio):
                self.assertIn(one.words, self.has_words(ratio))
                self.assertTrue(not one.text or f">{one.text}</text>" in ratio)
                self.assertTrue(one.interval is None or f">{figures.interval_text(one.interval)}</text>" in ratio)
        self.assertEqual("whisker" in ratio, "weighted" not in ratio)

    def figures_stand_under_their_headings(self, page: Page, study: Study) -> None:
        """Each column has the figure that its heading names, group by group."""
        for title, (head, *rows) in page.tables.items():
            groups = study.weighted if "weighted by benefit" in title else study.groups
            self.assertEqual([row[0] for row in rows], ["1", "2", "3", "4", "5", "all"])
            for i, group in enumerate(groups):
                named = dict(zip(head, rows[i]))
                for heading, figure in self.by_heading(group, study, i + 1).items():
                    self.assertEqual(named.get(heading, figure), figure, (title, heading))

    def by_heading(self, group: GroupSums, study: Study, number: int) -> Dict[str, str]:
        """The figures of a group under the headings of all tables."""
        z, m, t = (f"{figure / 1_000_000:.6f}" for figure in study.factor(number))
        found = {"exposurethirtieths": f"{group.thirtieths:,}", "exposuremonths": figures.months(group.thirtieths), "z": z, "m": m, "T": t}
        found.update({name: f"{getattr(group, name.replace('-', '_')):,}" for name in ("recovery", "death", "settlement", "max-out", "limit")})
        for name in ("recoveries", "deaths"):
            expected = getattr(group, f"expected_{name}")
            found.update({f"expected {name}1/30,000,000": f"{expected:,}", f"expected {name}closings": figures.closings(expected)})
        found["actualrecoveries and deaths"] = f"{group.recovery + group.death:,}"
        found["expected"] = figures.closings(group.expected_recoveries + group.expected_deaths)
        found["actual to expected"] = figures.actual_to_expected(group)
        both, *apart = ratios_of(group)
        found["interval95 %"] = figures.interval_text(both.interval)
        for ratio in apart:
            shown = (f"{ratio.actual:,}", figures.closings(ratio.expected), ratio.text, figures.interval_text(ratio.interval))
            found.update({ratio.kind + unit: text for unit, text in zip(("actual", "expected", "actual to expected", "95 % interval"), shown)})
        return found

    def every_figure(self, page: Page, study: Study) -> None:
        """Each of the engine's numbers, also z, m and T, stands in a cell."""
        cells = {cell for rows in page.tables.values() for row in rows for cell in row}
        for group in [*study.groups, *study.weighted]:
            self.assertTrue({f"{number:,}" for number in group} <= cells)
        for i in range(1, 6):
            self.assertTrue({f"{number / 1_000_000:.6f}" for number in study.factor(i)} <= cells)

    def test_years(self) -> None:
        page = self.page("years", "--weighted")
        divided = divide(claim_file(self.claims), self.rates, calendar_years(*WINDOW), False)
        self.is_self_contained(page)
        self.colours_are_defined(page)
        self.same_tables(page, [closings_table(divided), *years_tables(divided, True)])
        for i, group in enumerate(divided.whole.groups, 1):
            head, *rows = next(table for title, table in page.tables.items() if title.startswith(f"Group {i}: ") and "weighted" not in title)
            named = dict(zip(head, next(row for row in rows if row[0] == "undivided")))
            wanted = {heading: figure for heading, figure in self.by_heading(group, divided.whole, i).items() if heading in named}
            self.assertEqual(named, {"part": "undivided", **wanted})
        self.assertIn("The 9 parts add up", page.texts["p"])
        self.assertEqual(len(page.drawings), 3)
        ratio, exposure, closings = page.drawings
        self.assertIn("Actual to expected by group, undivided window", self.has_words(ratio))
        for part, study in divided.parts:
            months = figures.months(sum(group.thirtieths for group in study.groups))
            self.assertIn(f"{part.label}: {months} months", self.has_words(exposure))
            self.assertIn(f">{months}</text>", exposure)
            count = sum(group.closings for group in study.groups)
            self.assertIn(f"{part.label}: {figures.counted(count, 'closing')}", self.has_words(closings))
            self.assertIn(f">{part.label}</text>", closings)

    def test_bars_have_the_length_of_their_figures(self) -> None:
        exposure = ElementTree.fromstring(self.page("years").drawings[1])
        space = "{http://www.w3.org/2000/svg}"
        widths = [float(box.get("width") or 0) for box in exposure.iter(f"{space}rect")]
        divided = divide(claim_file(self.claims), self.rates, calendar_years(*WINDOW), False)
        wanted = [sum(group.thirtieths for group in study.groups) for _, study in divided.parts]
        for width, thirtieths in zip(widths, wanted):
            self.assertAlmostEqual(width, max(widths) * thirtieths / max(wanted), delta=0.2)

    def test_closings_are_listed_where_they_are_few(self) -> None:
        self.packed(self.claims[:60])
        page = self.page("years")
        rows = page.tables["Which part counts each closing"]
        self.assertEqual(rows[0][2], "claim number")
        divided = divide(claim_file(self.claims[:60]), self.rates, calendar_years(*WINDOW), False)
        self.assertEqual(len(rows) - 1, sum(group.closings for group in divided.whole.groups))

    def test_groups_without_exposure_share_a_row(self) -> None:
        self.packed([Claim(1, "2009-03-13", "2009-06-11", "2012-04-29", status=1, code=1)])
        page = self.page("study", "--weighted")
        for title, (_, *rows) in page.tables.items():
            self.assertEqual([row[0] for row in rows], ["2", "3", "1, 4, 5", "all"], title)
            self.assertEqual(rows[2][1], "no exposure")
        head, *rows = page.tables["Actual to expected, credibility z, margin m and factor T"]
        named = dict(zip(head, rows[2]))
        # m is 0 in group 1 and 0.15 in the others: no figure is theirs alike.
        self.assertEqual((named["z"], named["m"], named["T"], named["interval95 %"]), ("0.000000", "", "1.000000", ""))
        self.assertIn("Groups 1, 4 and 5: no exposure", page.texts["text"])
        years = self.page("years")
        self.assertEqual(years.tables["Groups without exposure in any part"][1], ["1, 4, 5", "1 to 3; 61 to 120; over 120", "0", "0"])
        self.assertEqual([title for title in years.tables if title.startswith("Group ")], ["Group 2: durations 4 to 24 months", "Group 3: durations 25 to 60 months"])

    def test_what_z_m_and_t_are(self) -> None:
        text = self.page("study")
        self.assertEqual([term for term in ("z, credibility", "m, margin", "T, factor") if term in text.texts["dt"]], ["z, credibility", "m, margin", "T, factor"])
        self.assertIn("without any ceiling", text.texts["dd"])
        # The box's words are document 01's rules.
        for group, k, a in ((2, 3_300, 4), (3, 2_500, 3), (4, 2_100, 2.5), (5, 1_700, 2)):
            expected, count = 1_234 * 30_000_000, 700
            z, m, t = (figure / 1_000_000 for figure in factor(group, count, expected))
            self.assertAlmostEqual(z, min(1, (1_234 / k) ** 0.5), delta=1e-6)
            self.assertAlmostEqual(m, min(0.15, 0.03 + 1.03 * (a / count) ** 0.5), delta=1e-6)
            self.assertAlmostEqual(t, z * (1 - m) * count / 1_234 + 1 - z, delta=3e-6)

    def test_every_table_shows_that_it_scrolls(self) -> None:
        style = self.page("study").style
        scroll = re.findall(r"\n\.scroll \{(.*?)\}", style, re.S)[0]
        self.assertIn("overflow-x: auto", scroll)
        self.assertEqual(scroll.count("linear-gradient"), 4)
        self.assertNotIn("A4", style)
        self.assertIn("@page { margin: 12mm; }", style)

    def test_units_are_smaller_than_their_headings(self) -> None:
        self.assertRegex(self.page("study").style, r"thead span \{[^}]*font-size: \.\d+em;")

    def test_provenance(self) -> None:
        self.file("claims.csv", "x")
        words = ("--carrier", "Mutual <of> Examplia", "--made-from", "claims.csv")
        for command in ("study", "years", "durations"):
            ended = self.ltd(command, "x.claims", "r.bin", *words, "--html", "page.html")
            self.assertIn("\ncarrier: Mutual <of> Examplia\n", ended.out)
            text = Page((self.folder / "page.html").read_text(encoding="utf-8")).texts["p"]
            self.assertIn("carrier: Mutual <of> Examplia", text)
            self.assertIn("Carrier: Mutual <of> Examplia", text)
            self.assertIn(f"Command: ./ltd {command} x.claims r.bin --carrier 'Mutual <of> Examplia' --made-from claims.csv --html page.html", text)
            self.assertIn(f"Made on {date.today()}", text)
            self.assertIn(f"sha256 {hashlib.sha256(library.path_in_use().read_bytes()).hexdigest()}", text)
            self.assertIn(f"made from: claims.csv, sha256 {hashlib.sha256(b'x').hexdigest()}", text)
        self.assertNotIn("Carrier:", self.page("study").texts["p"])
        self.assertIn("there is no file 'nowhere'", self.ltd("study", "x.claims", "r.bin", "--made-from", "nowhere", "--html", "p.html", status=2).err)

    def test_names_of_files_are_told(self) -> None:
        page = self.page("study", "--corrected")
        self.assertRegex(page.texts["p"], r"claims: x\.claims, sha256 [0-9a-f]{64}")
        self.assertIn(f"rates: r.bin, sha256 {self.rates.sha256}", page.texts["p"])
        self.assertIn("with corrections", page.texts["p"])

    def test_a_study_of_nothing(self) -> None:
        self.packed([])
        self.page("study", "--weighted")
        self.page("years", "--weighted")
        self.packed([], ("1950-01-01", "2099-12-31"))
        self.assertEqual(len(self.page("years").tables["Exposure and closings by part, all groups"]), 154)

    def test_a_pool(self) -> None:
        self.file("a.json", self.ltd("study", "x.claims", "r.bin", "--json").out)
        self.ltd("pool", "a.json", "--html", "pool.html", "--weighted")
        study = file_study(self.folder / "x.claims", self.rates)
        self.same_tables(Page((self.folder / "pool.html").read_text(encoding="utf-8")), study_tables(study, True))
