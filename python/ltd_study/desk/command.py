"""The command ./ltd: what can be asked of it, and how it ends."""

import argparse
import signal
import sys
from datetime import date
from typing import Callable, List, Optional

from .. import dates, version
from ..library import NoLibrary
from ..refusals import Refused
from . import by_duration, committee, conversions, inspections, mapping, provenance, studies, valuation_arguments, values
from .csv_rows import whole_number
from .extract_map import DELIMITERS, ENCODINGS
from .talk import DATA_REFUSED, WRONG_USE, DataRefused, WrongUse, put, say
from .whole_files import forget_inputs, must_be_different

_CLAIMS_COLUMNS = """\
Columns, named by the header line, in any order:
  number       claim number, 0 to 4294967295
  disability   date of disability
  bcd          benefit commencement date
  termination  termination date, empty in an open claim
  maximum      claim maximum date, empty if not known
  status       open or closed, or 0 or 1
  code         none, recovery, death, settlement, max-out, limit or definition (a closing at the
               change of definition), or 0 to 6; empty is none
  cell         cell of the rate table, from 0
  benefit      monthly benefit in hundreds of dollars, 1 to 200; empty or 0 weighs as 1
Dates are ISO dates as 2011-02-28. Fields may be quoted as RFC 4180 has it; the file is UTF-8, with
or without a mark. What a record can't hold is a bad row; what a study refuses, 'ltd check' names."""

_HOW = """\
OUT.how.toml beside the claim file keeps name and SHA-256 of the CSV, for each page to say."""

_MAP = """\
The map is TOML; what it doesn't say is refused by line, column and value:
  delimiter    "," ";" "\\t" or "|"
  encoding     utf-8, latin-1, windows-1252, utf-16, utf-16-le or utf-16-be
  title_lines  so many lines above the header line; totals_rows: so many last rows are no claims
  ignore       columns that aren't read; keep: columns written to OUT.NAME.csv, a value for each claim
  [columns]    each field of 'pack --help' with the extract's name for it
  [constant]   a field that the extract lacks, with its one value, as maximum = ""
  [skip]       "Claim No" = ["", "Total"]: rows with one of these texts in the column are no claims
  [number]     kind = "text": numbered in file order, the originals written to OUT.numbers.csv
  [dates]      format = "MM/DD/YYYY", of YYYY, MM or M or MMM, DD or D and signs; or "excel-1900" or
               "excel-1904" for serial numbers; missing = ["00/00/0000"]
  [status]     "T" = "closed"; [code] "REC" = "recovery": the words that are taken, and no others
  [benefit]    unit = "dollars", round = "half-up", "half-even", "up", "down" or "none" (to hundreds),
               currency = "$", thousands = ",", decimal = "."
  [cell]       columns = ["EP", "Class"], rows = [["90", "A", 0], ["180", "A", 1]]
A first map has what the header line and the first rows tell; the rest stands in it as comments."""

_RATES_COLUMNS = """\
Columns, named by the header line, in any order: cell (from 0), duration (2 to 480), recovery,
death. Rates are whole millionths, or with --decimal decimals as 0.012345 that are whole millionths.
Each cell has every duration once."""

_HIGHEST_NUMBER = 0xFFFF_FFFF
_ENDINGS = (signal.SIGINT, signal.SIGTERM, signal.SIGHUP)
_OUTPUTS = ("html", "closings")
"""Files that a command writes beside standard output."""
_STATUS = "Exit status: 0 done; 1 the data is refused; 2 wrong use, a missing file, or an output cut short."


class _Parser(argparse.ArgumentParser):
    """A parser whose help keeps its lines, and shows an example."""

    def __init__(self, *, example: str = "", about: str = "", **kept: object) -> None:
        epilog = "\n\n".join(text for text in (about, example and f"example:\n  {example}", _STATUS) if text)
        super().__init__(formatter_class=argparse.RawDescriptionHelpFormatter, epilog=epilog, allow_abbrev=False, **kept)  # type: ignore[arg-type]

    def _print_message(self, message: str, file: object = None) -> None:
        if message and file is sys.stdout:
            put(message)
        elif message and sys.stderr is not None:
            sys.stderr.write(message)


class _Version(argparse.Action):
    """Prints which engine is in use, and ends."""

    def __init__(self, **kept: object) -> None:
        super().__init__(nargs=0, **kept)  # type: ignore[arg-type]

    def __call__(self, *_: object) -> None:
        put(version.text())
        sys.exit(0)


def _day(text: str) -> date:
    try:
        found = dates.parsed(text)
    except ValueError as error:
        raise argparse.ArgumentTypeError(str(error)) from None
    if found is None:
        raise argparse.ArgumentTypeError("a date is empty")
    return found


def _count(text: str) -> int:
    if not (text.isascii() and text.isdigit() and len(text) < 10):
        raise argparse.ArgumentTypeError(f"{text!r} is no whole number")
    return int(text)


def _claim_number(text: str) -> int:
    try:
        return whole_number(text, _HIGHEST_NUMBER)
    except ValueError as error:
        raise argparse.ArgumentTypeError(str(error)) from None


def _claims_and_rates(parser: argparse.ArgumentParser) -> None:
    parser.add_argument("claims", metavar="CLAIMS", help="a claim file, as 'pack' writes it")
    parser.add_argument("rates", metavar="RATES", help="a rate table, as 'rates pack' writes it")


def _corrected(parser: argparse.ArgumentParser) -> None:
    parser.add_argument("--corrected", action="store_true", help="of each claim number only the last record counts; at most 60,000 records")


def _window(parser: argparse.ArgumentParser) -> None:
    parser.add_argument("--window", nargs=2, type=_day, metavar=("FIRST", "LAST"), help="another window than the file's")


def _accepted(parser: argparse.ArgumentParser) -> None:
    parser.add_argument("--accepted", action="store_true", help="leave out the claims that are refused, and list them by number and reason")


def _chosen(parser: argparse.ArgumentParser) -> None:
    """What a command that studies claims can be asked of them: choosing.choose reads it."""
    _claims_and_rates(parser)
    _corrected(parser)
    _window(parser)
    _accepted(parser)


def _shown(parser: argparse.ArgumentParser, csv: str = "sums as the engine has them, z, m and T in millionths") -> None:
    form = parser.add_mutually_exclusive_group()
    form.add_argument("--json", action="store_true", help="print JSON, with both sets of sums")
    form.add_argument("--csv", action="store_true", help=f"print CSV: {csv}")
    parser.add_argument("--weighted", action="store_true", help="show the sums weighted by benefit too")
    parser.add_argument("--html", metavar="FILE", help="write a page to hand on: tables and charts in one file")
    parser.add_argument("--title", help="the page's title")


def _limit(parser: argparse.ArgumentParser) -> None:
    parser.add_argument("--limit", metavar="N", type=_count, default=100, help="name at most N faults (default 100)")


def parser() -> argparse.ArgumentParser:
    """All that can be asked."""
    top = _Parser(
        prog="ltd",
        description="Disability studies from CSV files: every sum, count and factor comes from the proved engine.",
        about="'ltd COMMAND --help' says more and has an example.",
    )
    top.add_argument("--version", action=_Version, help="print the version, the commit, and the engine's library with its SHA-256")
    commands = top.add_subparsers(metavar="COMMAND", dest="command", required=True)
    _add_conversions(commands)
    _add_inspections(commands)
    _add_studies(commands)
    _add_durations(commands)
    committee.add(commands, _command)
    valuation_arguments.add(commands, _command, _day, _shown)
    return top


def _command(commands: "argparse._SubParsersAction", name: str, run: Callable[[argparse.Namespace], int], says: str, **kept: str) -> _Parser:
    made: _Parser = commands.add_parser(name, help=says, description=says[0].upper() + says[1:] + ".", **kept)
    made.set_defaults(run=run)
    return made


def _add_conversions(commands: "argparse._SubParsersAction") -> None:
    example = "./ltd pack examples/portfolio/claims.csv portfolio.claims --window 2010-03-01 2014-12-31"
    pack = _command(commands, "pack", conversions.pack, "write a claim file from CSV", about=f"{_CLAIMS_COLUMNS}\n{_HOW}", example=example)
    pack.add_argument("claims", metavar="CLAIMS.csv")
    pack.add_argument("out", metavar="OUT", help="the claim file; it is written when it is whole")
    pack.add_argument("--map", metavar="MAP.toml", help="how an extract is read that is in another form; 'ltd map --help' says what it can say")
    pack.add_argument("--window", nargs=2, type=_day, required=True, metavar=("FIRST", "LAST"), help="the study's window, both days included")
    _limit(pack)

    _add_map(commands)

    example = "./ltd unpack portfolio.claims --out claims.csv"
    unpack = _command(commands, "unpack", conversions.unpack, "write the claims of a claim file as CSV", about=_CLAIMS_COLUMNS, example=example)
    unpack.add_argument("claims", metavar="CLAIMS")
    unpack.add_argument("--out", metavar="X.csv", help="where to write it (default: standard output)")

    says = "convert rate tables: 'rates pack', 'rates unpack'"
    example = "./ltd rates pack examples/portfolio/rates.csv portfolio.rates"
    rates = commands.add_parser("rates", help=says, description=says[0].upper() + says[1:] + ".", about=_RATES_COLUMNS, example=example)
    kinds = rates.add_subparsers(metavar="pack|unpack", dest="kind", required=True)
    rates_pack = _command(kinds, "pack", conversions.rates_pack, "write a rate table from CSV", about=_RATES_COLUMNS, example=example)
    rates_pack.add_argument("rates", metavar="RATES.csv")
    rates_pack.add_argument("out", metavar="OUT", help="the rate table; it is written when it is whole")
    rates_pack.add_argument("--decimal", action="store_true", help="rates are decimals, not millionths")
    rates_pack.add_argument("--round", action="store_true", help="decimals are rounded to the nearest millionth, halves up; the page says so")
    rates_pack.add_argument("--extend-last", action="store_true", help="a cell's last rates stand up to duration 480; the page says so")
    _limit(rates_pack)
    example = "./ltd rates unpack portfolio.rates --decimal --out rates.csv"
    rates_unpack = _command(kinds, "unpack", conversions.rates_unpack, "write a rate table as CSV", about=_RATES_COLUMNS, example=example)
    rates_unpack.add_argument("rates", metavar="RATES")
    rates_unpack.add_argument("--decimal", action="store_true", help="write decimals, not millionths")
    rates_unpack.add_argument("--out", metavar="X.csv", help="where to write it (default: standard output)")


def _add_map(commands: "argparse._SubParsersAction") -> None:
    example = "./ltd map examples/extracts/us-dates.csv --out us-dates.toml"
    found = _command(commands, "map", mapping.first, "write a first map of an extract", about=_MAP, example=example)
    found.add_argument("claims", metavar="CLAIMS.csv")
    signs = {name: sign for sign, name in DELIMITERS.items()}
    found.add_argument("--delimiter", metavar="SIGN", type=lambda text: signs.get(text, text), choices=list(DELIMITERS), help=", ".join(signs))
    found.add_argument("--encoding", choices=list(ENCODINGS), metavar="NAME", help=", ".join(ENCODINGS))
    found.add_argument("--title-lines", metavar="N", type=_count, help="so many lines stand above the header line")
    found.add_argument("--out", metavar="MAP.toml", help="where to write it (default: standard output); what stands there stays")


def _add_inspections(commands: "argparse._SubParsersAction") -> None:
    about = (
        "A study stops at the first refusal; here are all of them: each claim is added to the study of\n"
        "those accepted before it. A faulty block is named with place 0, and its claims aren't read.\n"
        "Where 'pack --map' kept the CSV's lines in CLAIMS.lines.csv, they are named too.\n"
        "Status 1 if there is any refusal."
    )
    example = "./ltd check portfolio.claims portfolio.rates"
    check = _command(commands, "check", inspections.check, "name every claim that would be refused", about=about, example=example)
    _claims_and_rates(check)
    _corrected(check)
    check.add_argument("--csv", action="store_true", help="print CSV: block, place, CSV's line if known, claim number, refusal, its word and why")

    about = "A month counts U - B thirtieths. The rule that decided U and B is named where they are not 30 and 0."
    example = "./ltd months portfolio.claims --number 1003"
    months = _command(commands, "months", inspections.months, "list the months of one claim", about=about, example=example)
    months.set_defaults(misused=months.error)
    months.add_argument("claims", metavar="CLAIMS")
    months.add_argument("block", metavar="BLOCK", type=_count, nargs="?", help="the claim's block, from 1")
    months.add_argument("place", metavar="PLACE", type=_count, nargs="?", help="its place in the block, from 1")
    months.add_argument("--number", metavar="N", type=_claim_number, help="the claim's number, in place of BLOCK and PLACE")
    _window(months)
    months.add_argument("--csv", action="store_true", help="print CSV")


def _add_studies(commands: "argparse._SubParsersAction") -> None:
    about = (
        "Actual are recoveries and deaths; actual to expected is 30,000,000 x actual / expected sum, blank\n"
        "where nothing is expected. z, m and T go by count, T without any ceiling. A claim that is refused\n"
        "means no study; with --accepted it is left out and listed. COLUMN.csv has a name in its first\n"
        f"line, then one value for each claim in file order, at most {values.MOST_VALUES} different ones. Where 'pack --map'\n"
        "kept a column as CLAIMS.NAME.csv, its NAME will do."
    )
    example = "./ltd study portfolio.claims portfolio.rates --html study.html"
    study = _command(commands, "study", studies.study, "study a claim file", about=about, example=example)
    _chosen(study)
    _shown(study)
    study.add_argument("--by", metavar="COLUMN.csv", help="study each value of a column too, and show that they total the whole")
    provenance.options(study)

    about = (
        "Each group's sums stand part by part, with the parts together, the undivided window and the\n"
        "difference, which is zero by the engine's theorem and verified here: status 1 if it isn't.\n"
        f"Up to {studies.MOST_CLOSINGS_SHOWN} closings are listed with the part that counts each."
    )
    example = "./ltd years portfolio.claims portfolio.rates --cut 2011-02-28 2012-02-29 2013-02-28 2014-02-28"
    years = _command(commands, "years", studies.years, "study each year beside the undivided window", about=about, example=example)
    _chosen(years)
    years.add_argument("--cut", nargs="+", type=_day, metavar="DATE", help="the last day of each part but the last (default: each 31 December)")
    _shown(years, "sums as the engine has them, part by part")
    provenance.options(years)
    years.add_argument("--closings", metavar="FILE", help="write which part counts each closing, as CSV")

    about = (
        "The studies must have one window and one rate table, and 500,000 claims together at most. What\n"
        "'pool --json' prints can be pooled again, in any order and grouping. A saved study whose figures\n"
        "don't follow from its sums is refused."
    )
    example = "./ltd pool first.json second.json --json > both.json"
    pool = _command(commands, "pool", studies.pool, "join studies saved by 'study --json'", about=about, example=example)
    pool.add_argument("studies", metavar="STUDY.json", nargs="+")
    pool.add_argument("--again", action="store_true", help="pool studies of one claim file all the same: its claims count again")
    _shown(pool)


def _add_durations(commands: "argparse._SubParsersAction") -> None:
    says = "the sums and crude rates of each month of duration"
    found = _command(commands, "durations", by_duration.durations, says, about=by_duration.ABOUT, example=by_duration.EXAMPLE)
    _claims_and_rates(found)
    _window(found)
    _accepted(found)
    by_duration.arguments(found, _count)


def main(arguments: Optional[List[str]] = None) -> int:
    """Runs the command; answers its exit status."""
    for number in _ENDINGS:
        if signal.getsignal(number) is not signal.SIG_IGN:
            signal.signal(number, _ended)
    forget_inputs()
    try:
        asked = parser().parse_args(arguments)
        asked.words = sys.argv[1:] if arguments is None else arguments
        must_be_different(path for path in (getattr(asked, name, None) for name in _OUTPUTS) if path is not None)
        return int(asked.run(asked))
    except DataRefused as refused:
        say(str(refused))
        return DATA_REFUSED
    except Refused as refused:
        say(str(refused))
        return DATA_REFUSED
    except (WrongUse, NoLibrary) as error:
        say(str(error))
        return WRONG_USE
    except OSError as error:
        say(f"'{error.filename}': {error.strerror}" if error.filename and error.strerror else str(error))
        return WRONG_USE


def _ended(number: int, frame: object) -> None:
    """Ends as Python does, so that what isn't whole is removed; a second signal doesn't disturb that."""
    for other in _ENDINGS:
        signal.signal(other, signal.SIG_IGN)
    sys.exit(128 + number)
