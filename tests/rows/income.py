"""The tax of the 2023 rate schedules at each end of each band, a cent and a few cents on either side, for each filing status; the reduction of
the child tax credit around its limits. What is due is worked out from the printed schedules (the tax of the bands below, and the rate of
what is over them), and in whole cents."""
from collections.abc import Iterator
from fractions import Fraction

from stored_cases import Made

# Over this amount: the tax of what is not over it, and the percent of the rest.
SINGLE = [(0, "0", 10), (11000, "1100", 12), (44725, "5147", 22), (95375, "16290", 24), (182100, "37104", 32), (231250, "52832", 35)]
SCHEDULES = {
    "single": SINGLE + [(578125, "174238.25", 37)],
    "marriedFilingSeparately": SINGLE + [(346875, "93300.75", 37)],
    "marriedFilingJointly": [
        (0, "0", 10), (22000, "2200", 12), (89450, "10294", 22), (190750, "32580", 24), (364200, "74208", 32), (462500, "105664", 35),
        (693750, "186601.50", 37),
    ],
    "headOfHousehold": [
        (0, "0", 10), (15700, "1570", 12), (59850, "6868", 22), (95350, "14678", 24), (182100, "35498", 32), (231250, "51226", 35),
        (578100, "172623.50", 37),
    ],
}
SCHEDULES["qualifyingSurvivingSpouse"] = SCHEDULES["marriedFilingJointly"]

# The standard deduction without boxes.
DEDUCTIONS = {
    "single": 13850, "marriedFilingSeparately": 13850, "marriedFilingJointly": 27700, "qualifyingSurvivingSpouse": 27700, "headOfHousehold": 20800,
}

# The answers that make the filing status.
ANSWERS = {
    "single": ["married false", "spouseDied false", "paidHalfOfHome false"],
    "marriedFilingSeparately": ["married true", "fileJointly false", "consideredUnmarried false", "spouseItemizes false"],
    "marriedFilingJointly": ["married true", "fileJointly true", "spouseDateOfBirth 1980-01-01", "spouseBlind false"],
    "qualifyingSurvivingSpouse": ["married false", "spouseDied true", "remarried false", "childInHome true", "paidHalfOfHome true"],
    "headOfHousehold": ["married false", "spouseDied false", "paidHalfOfHome true", "qualifyingPerson true"],
}
COMMON = ["canBeClaimed false", "dateOfBirth 1980-01-01", "blind false", "otherIncome 0"]


def dollars(cents: int) -> str:
    return "%d.%02d" % divmod(cents, 100)


def half_up(amount: Fraction) -> int:
    return int(amount + Fraction(1, 2))


def tax(status: str, taxable: int) -> int:
    """In cents, of so many cents."""
    over, base, percent = next(band for band in reversed(SCHEDULES[status]) if taxable > 100 * band[0] or band[0] == 0)
    return half_up(Fraction(base) * 100 + Fraction((taxable - 100 * over) * percent, 100))


def begun(status: str) -> list[str]:
    return ["set /" + answer for answer in ANSWERS[status] + COMMON]


def case(name: str, lines: list[str], replies: list[str]) -> Made:
    return name, "income 2023", None, "".join(line + "\n" for line in lines).encode(), "".join(reply + "\n" for reply in replies).encode(), 0


def schedule_case(status: str) -> Made:
    """The tax at both ends of each band, and beside them."""
    lines = begun(status) + ["get /filingStatus"]
    replies = ["ok"] * (len(lines) - 1) + ["complete " + status]
    amounts = [0, 1, 4, 5]
    for over, _, _ in SCHEDULES[status][1:]:
        amounts += [100 * over + cents for cents in (-5, -1, 0, 1, 5)]
    for taxable in amounts + [99999999999999 - 100 * DEDUCTIONS[status]]:
        lines += ["set /earnedIncome " + dollars(taxable + 100 * DEDUCTIONS[status]), "get /taxableIncome", "get /scheduleTax"]
        replies += ["ok", "complete " + dollars(taxable), "complete " + dollars(tax(status, taxable))]
    return case("the schedule at the ends of its bands, " + status, lines, replies)


def reduction_case(status: str) -> Made:
    """The reduction at its limit, and at each thousand beside it."""
    limit = 40000000 if status == "marriedFilingJointly" else 20000000
    lines = begun(status)
    replies = ["ok"] * len(lines)
    for over in (-1, 0, 1, 99999, 100000, 100001, 199999, 200000, 200001, 4000000, 4000001):
        excess = max(0, over)
        thousands = next(n for n in range(excess + 1) if 100000 * n >= excess)
        lines += ["set /earnedIncome " + dollars(limit + over), "get /excess", "get /reduction"]
        replies += ["ok", "complete " + dollars(excess), "complete " + dollars(5000 * thousands)]
    return case("the reduction around its limit, " + status, lines, replies)


def cases() -> Iterator[Made]:
    for status in SCHEDULES:
        yield schedule_case(status)
        yield reduction_case(status)
