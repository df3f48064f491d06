"""The disability study engine from Python: every sum, count, factor and rate comes from its proved C calls.

A study of a window takes claims with a rate table, and has sums for five duration groups:

    import ltd_study

    rates = ltd_study.Rates.read("rates.bin")
    study = ltd_study.Study.open("2010-01-01", "2014-12-31")
    study.add(ltd_study.Claim(17, "2009-03-13", "2009-06-11", "2012-04-29", status="closed", code="recovery"), rates)
    study.groups[1].thirtieths, study.groups[1].months     # group 2: durations 4 to 24
    study.factor(3)                                        # z, m and T, in millionths

A whole claim file, also with corrections, and the months of one claim:

    study = ltd_study.file_study("portfolio.claims", rates)
    study = ltd_study.file_study("portfolio.claims", rates, corrected=True)
    ltd_study.listing(claim, "2010-01-01", "2014-12-31")

The sums of each month of duration, of which each group of the study is the total:

    ltd_study.durations("portfolio.claims", rates).rows[35].recovery    # duration 36

Many claims at once, from lists, arrays or a data frame's columns that are named as Claim's fields are, and their months as columns:

    claims = ltd_study.Claims(**frame)
    study = ltd_study.file_study(ltd_study.ClaimFile.of("2010-01-01", "2014-12-31", claims), rates)
    ltd_study.listings(claims, "2010-01-01", "2014-12-31")

What the engine refuses raises Refused, which carries its number and its word; where many refusals are expected, Study.try_add and
Study.add_all answer the number instead. Dates may be given as datetime.date, as ISO text or as timestamps of pandas and numpy, whose NaT is
a missing date; numpy's integers are taken too. Neither has to be installed. Millionths are whole numbers.

Valuation: factor, wanted_count, valuation_rate, reserve_factor, reserve_limit, small_company. load draws the claims of a load that anyone
can rebuild. The command ./ltd has the same for CSV files; ltd_study.library says where the calls come from.
"""

from .claim import CODE_WORDS, STATUS_WORDS, Claim
from .claim_columns import Claims
from .claim_file import ClaimFile, Record, RefusedFile, file_study, write_claims
from .dates import NoDate
from .duration_rows import Durations, RefusedDurations, durations
from .library import NoLibrary
from .month_listing import Listings, MonthRecord, listing, listings
from .rates import Rates
from .refusals import WORDS, Refused
from .shared_load import load
from .company_rule import SmallCompany, small_company
from .study import GROUPS, GroupSums, Study
from .valuation import Factor, ReserveLimit, factor, reserve_factor, reserve_limit, valuation_rate, wanted_count

__version__ = "1.1.0"

__all__ = [
    "CODE_WORDS",
    "Claim",
    "ClaimFile",
    "Claims",
    "Durations",
    "Factor",
    "GROUPS",
    "GroupSums",
    "Listings",
    "MonthRecord",
    "NoDate",
    "NoLibrary",
    "Rates",
    "Record",
    "Refused",
    "RefusedDurations",
    "RefusedFile",
    "ReserveLimit",
    "STATUS_WORDS",
    "SmallCompany",
    "Study",
    "WORDS",
    "durations",
    "factor",
    "file_study",
    "listing",
    "listings",
    "load",
    "reserve_factor",
    "reserve_limit",
    "small_company",
    "valuation_rate",
    "wanted_count",
    "write_claims",
]
