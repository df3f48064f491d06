"""What can be asked of the valuation actuary's commands."""

import argparse
from datetime import date
from typing import Callable

from . import small_companies, valuations, withdrawals
from .given_t import factor_t, t_options

AddCommand = Callable[..., argparse.ArgumentParser]
"""Adds a command: its name, what runs it and what it says, with an example and more about it."""

_HIGHEST_EXPECTED = (1 << 63) - 1

_T_OF_STUDY = "./ltd study portfolio.claims portfolio.rates --json > study.json"


def _discount(text: str) -> float:
    try:
        return float(text)
    except ValueError:
        raise argparse.ArgumentTypeError(f"{text!r} is no number as 0.9975") from None


def _number(text: str) -> int:
    if not (text.isascii() and text.isdigit() and len(text) <= 10 and int(text) <= 0xFFFF_FFFF):
        raise argparse.ArgumentTypeError(f"{text!r} is no whole number up to 4294967295")
    return int(text)


def _expected(text: str) -> int:
    plain = text[1:] if text.startswith("-") else text
    if not (plain.isascii() and plain.isdigit() and len(plain) <= 19 and int(plain) <= _HIGHEST_EXPECTED):
        raise argparse.ArgumentTypeError(f"{text!r} is no expected sum: a whole number of 1/30,000,000, as 'expected' in the study's JSON and CSV")
    return int(text)


def _rates(parser: argparse.ArgumentParser) -> None:
    parser.add_argument("rates", metavar="RATES", help="a rate table, as 'rates pack' writes it")


def _json(parser: argparse.ArgumentParser) -> None:
    parser.add_argument("--json", action="store_true", help="print JSON; T, rates and z in millionths")


def _v(parser: argparse.ArgumentParser) -> None:
    says = "monthly discount, above 0 and at most 1: 0.997540 is about 3 %% a year"
    parser.add_argument("--v", type=_discount, required=True, metavar="V", help=says)


def _faults(parser: argparse.ArgumentParser) -> None:
    parser.add_argument("--limit", metavar="N", type=_number, default=100, help="name at most N faults (default 100)")


def add(commands: "argparse._SubParsersAction", command: AddCommand, day: Callable[[str], date], shown: Callable[..., None]) -> None:
    """The six commands."""
    _add_valuation(commands, command)
    _add_reserve(commands, command)
    _add_limit(commands, command)
    _add_wanted(commands, command)
    _add_small_company(commands, command, day)
    _add_withdraw(commands, command, shown)


def _add_valuation(commands: "argparse._SubParsersAction", command: AddCommand) -> None:
    about = (
        "The valuation rate of a cell and duration is T x S, S its recovery plus death rate and T that of the\n"
        "duration's group, rounded down to a millionth and at most 1. T is taken without any ceiling: see 'limit'.\n"
        f"A study's T are had from '{_T_OF_STUDY}'."
    )
    example = "./ltd valuation portfolio.rates --t-of study.json --csv > valuation.csv"
    valuation = command(commands, "valuation", valuations.valuation, "valuation rates of five T over a rate table", about=about, example=example)
    _rates(valuation)
    t_options(valuation, "t", "the five T")
    valuation.add_argument("--cell", type=_number, metavar="C", help="one cell only")
    valuation.add_argument("--durations", nargs=2, type=_number, metavar=("FIRST", "LAST"), help="these durations only, within 2 to 480")
    form = valuation.add_mutually_exclusive_group()
    _json(form)  # type: ignore[arg-type]
    form.add_argument("--csv", action="store_true", help="print CSV: cell, duration, group, and t, rate and valuation_rate in millionths")


def _add_reserve(commands: "argparse._SubParsersAction", command: AddCommand) -> None:
    about = (
        "P = 1, D = 1, sum = 0; for each month, g the valuation rate of its duration (at most 480): P becomes\n"
        "P x (1 - g), D becomes D x V, sum becomes sum + P x D. The sum is the reserve for 1 a month."
    )
    example = "./ltd reserve portfolio.rates --cell 0 --first 25 --months 120 --v 0.99754 --t-of study.json"
    reserve = command(commands, "reserve", valuations.reserve, "one reserve factor", about=about, example=example)
    _rates(reserve)
    reserve.add_argument("--cell", type=_number, required=True, metavar="C", help="cell of the rate table, from 0")
    reserve.add_argument("--first", type=_number, required=True, metavar="DURATION", help="duration of the first month, 2 to 480")
    reserve.add_argument("--months", type=_number, required=True, metavar="N", help="how many months, 0 to 480")
    _v(reserve)
    t_options(reserve, "t", "the five T")
    _json(reserve)


def _add_limit(commands: "argparse._SubParsersAction", command: AddCommand) -> None:
    about = (
        "OPEN.csv has the open claims disabled over two years, at most 2,000: columns cell, duration (the next one,\n"
        "above 24) and months (left). Their reserve factors are added up with the given T, then with T replaced\n"
        "by 1.30 in groups 3 to 5 (group 3 kept if it has 5,000 recoveries and deaths or more). If the first total\n"
        "is less, the replaced set is returned, else the given one."
    )
    example = "./ltd limit portfolio.rates examples/portfolio/open.csv --v 0.99754 --t-of study.json"
    limit = command(commands, "limit", valuations.limit, "the 1.30 limit on T, judged on reserves", about=about, example=example)
    _rates(limit)
    limit.add_argument("open", metavar="OPEN.csv")
    _v(limit)
    t_options(limit, "t", "the five T")
    limit.add_argument("--group-3-count", type=_number, metavar="N", help="recoveries and deaths of group 3 (default: the study's)")
    _json(limit)
    _faults(limit)


def _add_wanted(commands: "argparse._SubParsersAction", command: AddCommand) -> None:
    about = (
        "The smallest number of recoveries and deaths, 0 to 500,000, with which T of the group is at least the\n"
        "wanted one, what is expected as it is, before any test of reserves. Where there is none: refused 19."
    )
    example = "./ltd wanted --group 3 --t 1.05 --study study.json"
    wanted = command(commands, "wanted", valuations.wanted, "how many closings reach a wanted T", about=about, example=example)
    wanted.add_argument("--group", type=_number, required=True, metavar="G", help="1 to 5")
    wanted.add_argument("--t", type=factor_t, required=True, metavar="T", help="the wanted T, as 1.05")
    which = wanted.add_mutually_exclusive_group(required=True)
    which.add_argument("--study", metavar="STUDY.json", help="take what is expected in the group from a study saved by 'study --json'")
    which.add_argument("--expected", type=_expected, metavar="E", help="what is expected, in 1/30,000,000 of a closing, as the study's JSON has it")
    _json(wanted)


def _add_small_company(commands: "argparse._SubParsersAction", command: AddCommand, day: Callable[[str], date]) -> None:
    about = (
        "A carrier with fewer than 50 open claims disabled within two years of the valuation date and fewer than\n"
        "200 open claims disabled earlier is exempt: its five T are 1. Another gets the new T, and is told the\n"
        "first group whose new T differs from the one in use by more than a tenth of that."
    )
    words = "examples/portfolio/claims.csv --valuation-date 2014-12-31 --corrected --new-of study.json --old 1.0 1.0 1.0 1.0 1.0"
    example = f"./ltd small-company {words}"
    says = "the small company rule on a carrier's claims"
    company = command(commands, "small-company", small_companies.small_company_rule, says, about=about, example=example)
    company.add_argument("claims", metavar="CLAIMS", help="a claim file, or CSV with the columns of 'pack'")
    company.add_argument("--valuation-date", type=day, required=True, metavar="DATE")
    t_options(company, "new", "the five new T")
    t_options(company, "old", "the five T in use")
    company.add_argument("--corrected", action="store_true", help="of each claim number only the last record counts")
    _json(company)
    _faults(company)


def _add_withdraw(commands: "argparse._SubParsersAction", command: AddCommand, shown: Callable[..., None]) -> None:
    about = (
        "Each claim must have been taken before with equal fields and not yet withdrawn, with this rate table:\n"
        "then the study is that of the claims remaining. The study alone can't tell; --among verifies the fields.\n"
        "A study without claims, or one in which a count would fall below zero, is refused 18. All claims are\n"
        "taken back or none."
    )
    example = "./ltd withdraw study.json examples/portfolio/mistaken.csv portfolio.rates --among portfolio.claims --json > remaining.json"
    withdraw = command(commands, "withdraw", withdrawals.withdraw, "take claims back from a saved study", about=about, example=example)
    withdraw.add_argument("study", metavar="STUDY.json", help="a study saved by 'study --json'")
    withdraw.add_argument("claims", metavar="CLAIMS", help="the claims to take back: a claim file, or CSV with the columns of 'pack'")
    _rates(withdraw)
    withdraw.add_argument("--among", metavar="CLAIMS", help="the claim file or CSV that was studied: each claim taken back must stand in it")
    shown(withdraw)
    _faults(withdraw)
