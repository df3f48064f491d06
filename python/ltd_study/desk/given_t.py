"""The five T that a valuation command is given: typed, or those of a study or of a judgement saved as JSON."""

import argparse
import json
import re
from typing import Any, NamedTuple, Optional, Tuple

from ..rates import MILLION, Rates
from ..study import GROUPS, Study
from .figures import millionths
from .study_json import FORMAT as STUDY_FORMAT
from .study_json import OLDER_FORMATS, of_dict
from .talk import DataRefused, WrongUse, read_bytes

LIMIT_FORMAT = "ltd limit 1"
COMPANY_FORMAT = "ltd small company 1"
_DECIMAL = re.compile(r"(\d{1,13})\.(\d{1,6})", re.ASCII)
_HIGHEST_T = (1 << 64) - 1


class GivenT(NamedTuple):
    """Five T in millionths, where they come from, and the study that they were measured in."""

    t: Tuple[int, ...]
    words: str
    rates_sha256: str = ""
    study: Optional[Study] = None

    @property
    def shown(self) -> str:
        """The five as decimals."""
        return ", ".join(map(millionths, self.t))

    def must_be_of(self, rates: Rates, name: str) -> None:
        """Raises DataRefused where they were measured against another table."""
        if self.rates_sha256 and self.rates_sha256 != rates.sha256:
            reason = "T multiplies the rates that it was measured against; --t takes any"
            raise DataRefused(f"the T {self.words} were made with another rate table than '{name}': {reason}")


def factor_t(text: str) -> int:
    """A T as the study prints it, 1.027931, in millionths."""
    match = _DECIMAL.fullmatch(text)
    if match is None:
        raise argparse.ArgumentTypeError(f"{text!r} is no T as 1.027931: digits, a point, one to six digits (CSV and JSON have millionths)")
    return int(match[1]) * MILLION + int(match[2].ljust(6, "0"))


def t_options(parser: argparse.ArgumentParser, option: str, what: str) -> None:
    """--t T T T T T, and --t-of FILE.json."""
    which = parser.add_mutually_exclusive_group(required=True)
    which.add_argument(f"--{option}", nargs=5, type=factor_t, metavar="T", help=f"{what}, one for each group, as 1.027931")
    saved = "that of 'study --json', 'pool --json', 'limit --json' or 'small-company --json'"
    which.add_argument(f"--{option}-of", metavar="FILE.json", help=f"{what} of a saved file: {saved}")


def given_t(asked: argparse.Namespace, option: str = "t") -> GivenT:
    """The T that were asked for."""
    name = option.replace("-", "_")
    typed, path = getattr(asked, name), getattr(asked, f"{name}_of")
    if typed is not None:
        return GivenT(tuple(typed), "as given")
    data = read_bytes("saved file", path)
    try:
        return _saved(path, json.loads(data.decode("utf-8-sig")))
    except (KeyError, TypeError, ValueError, OverflowError) as error:
        raise DataRefused(f"'{path}': no five T can be read from it: {error}") from None


def _saved(path: str, found: Any) -> GivenT:
    kind = found.get("format") if isinstance(found, dict) else None
    if kind == STUDY_FORMAT or kind in OLDER_FORMATS:
        study = of_dict(found).study
        t = tuple(study.factor(group).t for group in range(1, len(GROUPS) + 1))
        return GivenT(t, f"of the study '{path}'", str(found["rates_sha256"]), study)
    if kind in (LIMIT_FORMAT, COMPANY_FORMAT):
        t = tuple(found["t"])
        if len(t) != len(GROUPS) or any(type(one) is not int or not 0 <= one <= _HIGHEST_T for one in t):
            raise TypeError("t are not five whole numbers")
        return GivenT(t, f"that '{path}' returned", str(found.get("rates_sha256") or ""))
    raise ValueError(f'its "format" is none of {STUDY_FORMAT}, {LIMIT_FORMAT}, {COMPANY_FORMAT}')


def group_3_count(asked: argparse.Namespace, given: GivenT) -> int:
    """C of group 3: as given, or the study's."""
    if asked.group_3_count is not None:
        return int(asked.group_3_count)
    if given.study is None:
        raise WrongUse("--group-3-count is needed where the T aren't a study's: group 3 keeps its T from 5,000 recoveries and deaths on")
    return given.study.groups[2].terminations
