"""The pages to look at, made by ./ltd as a user makes them: of the made-up portfolio, and of a large load."""

import subprocess
import sys
from pathlib import Path
from typing import Iterator, List, Tuple

ROOT = Path(__file__).resolve().parents[2]
PORTFOLIO = ROOT / "examples" / "portfolio"
_WINDOW = ("--window", "2010-03-01", "2014-12-31")
_LOAD = 200_000
_LOAD_WINDOW = ("1985-01-01", "2004-12-31")


def make(folder: Path) -> List[Path]:
    """Writes every kind of page into a folder."""

    def ltd(*words: str, to: str = "") -> None:
        run = subprocess.run([str(ROOT / "ltd"), *words], cwd=folder, capture_output=True, check=False)
        if run.returncode:
            raise SystemExit(f"./ltd {' '.join(words)}: {run.stderr.decode()}")
        if to:
            (folder / to).write_bytes(run.stdout)

    for name in ("claims", "affiliate", "faulty"):
        ltd("pack", str(PORTFOLIO / f"{name}.csv"), f"{name}.bin", *_WINDOW)
    ltd("rates", "pack", str(PORTFOLIO / "rates.csv"), "rates.bin")
    _write_load(folder / "load.bin")
    carrier = ("--carrier", "Mutual of Examplia")
    ltd("study", "claims.bin", "rates.bin", "--html", "study.html", *carrier, "--made-from", str(PORTFOLIO / "claims.csv"), "--json", to="first.json")
    ltd("study", "claims.bin", "rates.bin", "--html", "corrected.html", "--corrected", "--weighted")
    ltd("years", "claims.bin", "rates.bin", "--html", "years.html", *carrier, "--json", to="first-years.json")
    ltd("study", "affiliate.bin", "rates.bin", "--carrier", "Examplia Affiliated Life and Casualty", "--json", to="second.json")
    ltd("years", "affiliate.bin", "rates.bin", "--carrier", "Examplia Affiliated Life and Casualty", "--json", to="second-years.json")
    ltd("study", "load.bin", "rates.bin", "--html", "large.html", "--weighted", "--json", to="large.json")
    ltd("years", "load.bin", "rates.bin", "--html", "large-years.html", "--weighted", "--json", to="large-years.json")
    ltd("pool", "first.json", "second.json", "--html", "pool.html")
    ltd("withdraw", "first.json", str(PORTFOLIO / "mistaken.csv"), "rates.bin", "--among", "claims.bin", "--html", "withdrawn.html")
    ltd("total", "first.json", "first-years.json", "second.json", "second-years.json", "--html", "total.html")
    ltd("durations", "claims.bin", "rates.bin", "--html", "durations.html", *carrier, "--json", to="first-durations.json")
    ltd("durations", "affiliate.bin", "rates.bin", "--json", to="second-durations.json")
    ltd("durations", "load.bin", "rates.bin", "--by-year", "--to", "13", "--html", "large-durations.html")
    ltd("total", "first-durations.json", "second-durations.json", "--html", "durations-total.html")
    ltd("total", "large.json", "large-years.json", "--html", "large-total.html", "--weighted")
    ltd("study", "claims.bin", "rates.bin", "--by", str(PORTFOLIO / "region.csv"), "--html", "by.html")
    ltd("study", "faulty.bin", "rates.bin", "--accepted", "--html", "accepted.html")
    ltd("years", "faulty.bin", "rates.bin", "--accepted", "--html", "accepted-years.html")
    extract = ROOT / "examples" / "extracts" / "us-dates"
    ltd("pack", f"{extract}.csv", "mapped.bin", "--map", f"{extract}.toml", *_WINDOW)
    ltd("study", "mapped.bin", "rates.bin", "--html", "mapped.html")
    return sorted(folder.glob("*.html"))


BROKEN = {
    "cut": (("overflow-x: auto; overflow-y: hidden;", "overflow: hidden;"), "without a sign"),
    "unshaded": (("var(--shade), transparent)", "transparent, transparent)"), "no shade shows"),
    "pale": (("--muted: #556170", "--muted: #9aa5b1"), "has a contrast of"),
    "wide": (("main { max-width: 84rem;", "main { min-width: 1400px;"), "pixels wide in a window of"),
    "over": (("svg .small { font-size: 11px;", "svg .small { font-size: 17px;"), "stand over one another"),
    "units": (("font-size: .88em;", "font-size: 1em;"), "is not smaller than its heading"),
    "console": (("<header>", '<header><img alt="" src="nowhere.png">'), "SEVERE"),
    "lonely": (("</footer>", '</footer><p style="break-before: page">Two</p>'), "has 1 lines"),
}
"""What is made wrong in a page that is right, and what must then be said of it."""


def make_broken(folder: Path) -> Iterator[Tuple[Path, str]]:
    """The study's page with one thing wrong in each, and what must be found."""
    sound = (folder / "study.html").read_text(encoding="utf-8")
    (folder / "broken").mkdir(exist_ok=True)
    for name, ((right, wrong), message) in BROKEN.items():
        if right not in sound:
            raise SystemExit(f"the page has no {right!r} to make wrong")
        page = folder / "broken" / f"{name}.html"
        page.write_text(sound.replace(right, wrong), encoding="utf-8")
        yield page, message


def _write_load(path: Path) -> None:
    """A load that anyone can rebuild, as a claim file."""
    sys.path.insert(0, str(ROOT / "python"))
    import ltd_study
    from ltd_study.shared_load import load_records

    with open(path, "wb") as out:
        ltd_study.write_claims(out, *_LOAD_WINDOW, load_records(1, _LOAD))
