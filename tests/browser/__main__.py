"""Opens every kind of page in Chromium at 1,280, 1,024 and 390 pixels, light, dark and as on paper, looks for what is wrong, and leaves pictures.

    python3 tests/browser [FOLDER [PAGE ..]]    # pages and pictures go to FOLDER, by default target/browser; only these pages are looked at

First it looks at pages of its own in which one thing is wrong, and must find it.

Wrong is: anything wider than its box without a sign that it scrolls, a contrast below 4.5, a text over another, a unit that is not smaller than its
heading, a page of paper with fewer than four lines, and whatever the console says. The last line counts the looks. It needs Debian's chromium and
chromium-driver, and is not in the gate.
"""

import sys
from pathlib import Path
from typing import Any, Dict, Iterator, List, Tuple

sys.dont_write_bytecode = True

from driver import Browser
from made_pages import ROOT, make, make_broken
from pictures import lines_on_pages, pixel

WIDTHS = (1280, 1024, 390)
PAPERS = {"A4": (21.0, 29.7), "letter": (21.59, 27.94), "A4 landscape": (29.7, 21.0)}
PAPER_WIDTH = 703
"""A4 upright within margins of 12 mm, in pixels."""
FEWEST_LINES = 4
_SEEN_FROM = 1.2


def looks() -> Iterator[Tuple[int, str, str]]:
    """Each width, colour scheme and medium."""
    for width in WIDTHS:
        yield width, "light", "screen"
        yield width, "dark", "screen"
    yield PAPER_WIDTH, "light", "print"


def look(browser: Browser, page: Path, script: str, folder: Path) -> Iterator[Tuple[str, List[str]]]:
    """Each look at a page, and what is wrong in it."""
    browser.show(page)
    for width, scheme, media in looks():
        browser.look(width, scheme, media)
        found: Dict[str, Any] = browser.run(script)
        picture = browser.picture()
        name = f"{page.stem}-{width}-{scheme if media == 'screen' else 'print'}"
        (folder / f"{name}.png").write_bytes(picture)
        faults = found["faults"] + [f"no shade shows that {sign['what']} goes on" for sign in unseen(browser, found["signs"])]
        faults += ["no text was found"] * (found["texts"] == 0)
        yield name, faults + browser.errors()
    browser.look(WIDTHS[0], "light", "")
    for paper, size in PAPERS.items():
        pdf = browser.paper(*size)
        (folder / f"{page.stem}-{paper.replace(' ', '-')}.pdf").write_bytes(pdf)
        lines = lines_on_pages(pdf)
        few = [f"page {i} of {len(lines)} has {count} lines" for i, count in enumerate(lines, 1) if count < FEWEST_LINES]
        yield f"{page.stem} on {paper}, {len(lines)} pages", few or ["no pages were found"] * (not lines)


def unseen(browser: Browser, signs: List[Dict[str, Any]]) -> List[Dict[str, Any]]:
    """The signs whose place is no darker or lighter than the paper in the page's corner."""
    paper = light(pixel(browser.pixel(1, 1)))
    missing = []
    for sign in signs:
        shade = light(pixel(browser.pixel(sign["x"], sign["y"])))
        if max(shade, paper) / min(shade, paper) < _SEEN_FROM:
            missing.append(sign)
    return missing


def light(colour: Tuple[int, int, int]) -> float:
    """A colour's luminance, as WCAG has it, with its flare."""
    red, green, blue = (part / 255 / 12.92 if part / 255 <= 0.04045 else ((part / 255 + 0.055) / 1.055) ** 2.4 for part in colour)
    return 0.2126 * red + 0.7152 * green + 0.0722 * blue + 0.05


def main() -> int:
    """Looks at all pages; answers 1 if anything is wrong."""
    folder = Path(sys.argv[1]) if sys.argv[1:] else ROOT / "target" / "browser"
    folder.mkdir(parents=True, exist_ok=True)
    pages = [page for page in make(folder) if not sys.argv[2:] or page.stem in sys.argv[2:]]
    script = (Path(__file__).parent / "look.js").read_text(encoding="utf-8")
    passed = failed = 0
    with Browser() as browser:
        for page, message in make_broken(folder):
            seen = any(message in fault for _, faults in look(browser, page, script, page.parent) for fault in faults)
            passed, failed = passed + seen, failed + (not seen)
            print(f"{'passed' if seen else 'FAILED'} {page.stem}: '{message}' is {'found' if seen else 'not found'}", flush=True)
        for page in pages:
            for name, faults in look(browser, page, script, folder):
                passed, failed = passed + (not faults), failed + bool(faults)
                print(f"{'FAILED' if faults else 'passed'} {name}" + "".join(f"\n    {fault}" for fault in faults), flush=True)
    print(f"{passed} passed, {failed} failed; the pictures are in {folder}")
    return 1 if failed or not passed else 0


if __name__ == "__main__":
    sys.exit(main())
