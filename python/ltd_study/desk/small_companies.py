"""small-company: whether a carrier keeps the table as it is."""

from argparse import Namespace
from typing import Any, Dict, List

from ..claim_columns import Claims
from ..company_rule import SmallCompany, small_company
from ..refusals import Refused
from ..study import GROUPS
from . import repeats
from .figures import counted, durations, millionths
from .given_t import COMPANY_FORMAT, GivenT, given_t
from .inputs import last_of_each, number_in, read_claim_list, repeated_among
from .provenance import engine
from .tables import Column, Row, Table, printed
from .talk import DONE, DataRefused, WrongUse, put, put_json, say_note

RECENT_BELOW = 50
EARLIER_BELOW = 200


def small_company_rule(asked: Namespace) -> int:
    """The small company rule on a carrier's claims."""
    new, old = given_t(asked, "new"), given_t(asked, "old")
    records, source = read_claim_list(asked.claims, asked.limit, "nothing is counted")
    records = last_of_each(records) if asked.corrected else records
    claims = Claims.of_records(b"".join(records))
    repeated = repeated_among(claims)
    try:
        small_company(asked.valuation_date, [], new.t, old.t)
    except Refused as refused:
        raise WrongUse(f"--valuation-date {asked.valuation_date}: {refused}") from None
    try:
        found = small_company(asked.valuation_date, claims, new.t, old.t)
    except Refused as refused:
        raise DataRefused(_refused_claim(asked, records, refused)) from None
    if asked.json:
        what: Dict[str, Any] = {"valuation_date": str(asked.valuation_date), "claims": len(records), "claims_sha256": source.sha256}
        what.update(corrected=asked.corrected, repeated_numbers=repeated)
        figures = {**found._asdict(), "t": list(found.t), "new_t": list(new.t), "old_t": list(old.t)}
        put_json({"format": COMPANY_FORMAT, "unit": "millionths", **what, "engine": engine(), **figures})
    else:
        put(_text(asked, found, len(records), repeats.note(repeated), new, old))
    say_note(repeats.note(repeated))
    return DONE


def _refused_claim(asked: Namespace, records: List[bytes], refused: Refused) -> str:
    """The refusal with its claim: the first that is refused by itself."""
    for i, record in enumerate(records, 1):
        try:
            small_company(asked.valuation_date, [record], [0] * len(GROUPS), [0] * len(GROUPS))
        except Refused as own:
            return f"'{asked.claims}': {own} at record {i} (claim number {number_in(record)})"
    return f"'{asked.claims}': {refused}"


def _text(asked: Namespace, found: SmallCompany, claims: int, note: str, new: GivenT, old: GivenT) -> str:
    columns = (Column("group", left=True), Column("durations", "months", left=True), Column("T", "in use"), Column("T", "new"), Column("T", "the carrier gets"))
    rows = [Row((str(i), durations(*GROUPS[i - 1]), *map(millionths, three))) for i, three in enumerate(zip(old.t, new.t, found.t), 1)]
    lines = [
        f"Small company rule on {asked.valuation_date}: {counted(claims, 'claim')} of '{asked.claims}'",
        *[repeats.CORRECTED] * asked.corrected,
        *[f"note: {note}"] * bool(note),
        "",
        f"{counted(found.recent, 'open claim')} disabled within two years of that day (exempt with fewer than {RECENT_BELOW})",
        f"{counted(found.earlier, 'open claim')} disabled earlier (exempt with fewer than {EARLIER_BELOW})",
        "",
        *_verdict(found),
        "",
        printed(Table("The five T", columns, rows)),
        "The same day two years before counts as within; claims disabled after the valuation date count in neither.",
    ]
    return "\n".join(lines) + "\n"


def _verdict(found: SmallCompany) -> List[str]:
    if found.exempt:
        return ["Exempt: both counts are below their limits, and T is 1.000000 in all five groups."]
    lines = ["Not exempt: a count is not below its limit, and the carrier gets the new T."]
    if found.group:
        lines.append(f"Group {found.group} is the first whose new T differs from the one in use by more than a tenth of that.")
    else:
        lines.append("No group's new T differs from the one in use by more than a tenth of that.")
    return lines
