"""The version is one and the same everywhere, and ./ltd says which engine it uses; the header's refusals are the module's."""

import hashlib
import json
import re
import subprocess
from pathlib import Path

import ltd_study
from ltd_study import library, refusals, version

from .support import PORTFOLIO, ROOT, DeskTest, with_option

HEADER = (ROOT / "include" / "ltd_study.h").read_text(encoding="utf-8")

_ONES = ("1.0",) * 5
RUNS = {
    "study": ("claims.claims", "rates.bin"),
    "years": ("claims.claims", "rates.bin"),
    "durations": ("claims.claims", "rates.bin"),
    "pool": ("s.json",),
    "total": ("s.json",),
    "withdraw": ("s.json", PORTFOLIO / "mistaken.csv", "rates.bin"),
    "valuation": ("rates.bin", "--t-of", "s.json"),
    "reserve": ("rates.bin", "--cell", 0, "--first", 25, "--months", 120, "--v", 0.99754, "--t-of", "s.json"),
    "limit": ("rates.bin", PORTFOLIO / "open.csv", "--v", 0.99754, "--t-of", "s.json"),
    "wanted": ("--group", 3, "--t", "1.05", "--study", "s.json"),
    "small-company": ("claims.claims", "--valuation-date", "2014-12-31", "--corrected", "--new-of", "s.json", "--old", *_ONES),
}
"""A run of each command that has JSON or a page."""


def defined(name: str) -> str:
    """What the header defines a macro as."""
    found = re.findall(rf"^#define {name} (.+)$", HEADER, re.M)
    return found[0] if len(found) == 1 else f"{name} is defined {len(found)} times"


class Version(DeskTest):
    """Of the header, the engine, its definition in specs/, and the module."""

    def test_the_same_everywhere(self) -> None:
        parts = ("MAJOR", "MINOR", "PATCH")
        self.assertEqual(".".join(defined(f"LTD_VERSION_{part}") for part in parts), ltd_study.__version__)
        specs = (ROOT / "crates" / "c_abi" / "specs" / "Version.antt").read_text(encoding="utf-8")
        written = [re.findall(rf"^{part.lower()} = (\d+)$", specs, re.M) for part in parts]
        self.assertEqual(".".join(number for found in written for number in found), ltd_study.__version__)
        self.assertEqual(library.version_of(library.calls()), ltd_study.__version__)
        changes = (ROOT / "CHANGELOG.md").read_text(encoding="utf-8")
        self.assertEqual(re.findall(r"^## (\d\S*)", changes, re.M)[0], ltd_study.__version__)

    def test_the_command_says_which_engine(self) -> None:
        told = dict(line.split(" ", 1) for line in self.process("--version").out.splitlines())
        self.assertEqual((told["version"], told["engine"]), (ltd_study.__version__, ltd_study.__version__))
        self.assertEqual(told["sha256"], hashlib.sha256(Path(told["library"]).read_bytes()).hexdigest())
        git = subprocess.run(["git", "-C", str(ROOT), "rev-parse", "HEAD"], capture_output=True, text=True, check=False)
        self.assertEqual(told["commit"], git.stdout.strip() or "unknown")

    def test_nothing_to_say_of_a_library_that_is_not_there(self) -> None:
        told = self.process("--version", env={"LTD_STUDY_LIBRARY": "nowhere"}).out
        self.assertIn(f"version {ltd_study.__version__}\n", told)
        self.assertIn("\nlibrary none: the engine's shared object 'nowhere' can't be loaded", told)

    def test_pages_and_json_say_which_engine(self) -> None:
        self.example()
        self.file("s.json", self.ltd("study", "claims.claims", "rates.bin", "--json").out)
        self.assertEqual(with_option("--json") | with_option("--html"), set(RUNS), "each command with JSON or a page is run here")
        wanted = {name: dict(version.identity())[name] for name in ("engine", "sha256")}
        for command, words in RUNS.items():
            page = with_option("--html") & {command}
            found = json.loads(self.ltd(command, *words, "--json", *(["--html", "x.html"] if page else [])).out)
            self.assertEqual(found["engine"], {"version": wanted["engine"], "sha256": wanted["sha256"]}, command)
            self.assertTrue(str(found["format"]).startswith("ltd "), command)
            if page:
                text = (self.folder / "x.html").read_text(encoding="utf-8")
                self.assertIn(f"Engine: version {wanted['engine']}, sha256 {wanted['sha256']}", text, command)
                (self.folder / "x.html").unlink()

    def test_the_refusals_of_the_header(self) -> None:
        names = {f"LTD_REFUSED_{word.upper().replace(' ', '_')}": str(number) for number, word in refusals.WORDS.items()}
        self.assertEqual(dict(re.findall(r"^#define (LTD_REFUSED_\w+) (\d+)$", HEADER, re.M)), names)
        self.assertEqual(defined("LTD_BAD_FORM"), str(refusals.BAD_FORM))
