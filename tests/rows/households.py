"""Households that answer everything, over each dictionary of a tax year, with every figure that follows.

What is due was worked out by hand, a figure a line with its working, from Publication 501 for 2023 and for 2024 returns and, for the
amounts, Rev. Proc. 2022-38 and Rev. Proc. 2023-34; the tax from the 2023 Tax Rate Schedules, and beside it by the Tax Computation
Worksheet, both of the instructions of Form 1040; the credit by the lines of Schedule 8812 for 2023.

                                                      2023      2024
    basic amount, single or separately              13,850    14,600
    jointly, or surviving spouse                    27,700    29,200
    head of household                               20,800    21,900
    a box, single or head of household               1,850     1,950
    a box, others                                    1,500     1,550
    who can be claimed: at least                     1,250     1,300
    or earned income and                               400       450
    65: born before January 2 of                      1959      1960
    under 19, and as a student under 24: born in    2005, 2000    2006, 2001, or later
    gross income of a qualifying relative below      4,700     5,050

First a household answers as much as makes the figures final in both years. Then it answers all the rest, and they stay what they were.
"""
from collections.abc import Iterator
from typing import NamedTuple

from stored_cases import Made

# How many answers there are on the filer and the spouse, and on each person, where one is the number that the credit asks for.
OF_THE_FILER, OF_A_PERSON = 16, 11
# What is shown while the rest is open.
OF_THE_YEAR = ["/filingStatus", "/standardDeduction", "/totalIncome", "/taxableIncome", "/dependentCount"]
OF_THE_INCOME = ["/scheduleTax", "/childCredit", "/taxAfterCredits"]


class Household(NamedTuple):
    """A household. Answers stand behind their paths, in which `#1` is the first person; of a number they are for the income alone."""

    title: str
    persons: int
    asked: str
    rest: str
    # a figure a line: its path, its value in 2023 and in 2024, and how it comes about
    figures: str
    # the same of the income, with one value
    tax: str


ALONE = Household(
    "single: 65 for 2024, and not yet for 2023; the tax by four bands",
    0,
    asked="""
    /married false, /spouseDied false, /paidHalfOfHome false, /canBeClaimed false, /dateOfBirth 1960-01-01, /blind false
    /earnedIncome 150000, /otherIncome 12345.67
    """,
    # as if there were a spouse, and a home: none of it counts
    rest="""
    /fileJointly true, /consideredUnmarried true, /remarried false, /childInHome true, /qualifyingPerson true
    /spouseDateOfBirth 1950-05-05, /spouseBlind true, /spouseItemizes true
    """,
    figures="""
    /joint                 false       false       -- married: no
    /unmarried             true        true
    /filingStatus          single      single
    /basicAmount           13850.00    14600.00
    /additionalAmount      1850.00     1950.00     -- for each box
    /boxes                 0           1           -- born before January 2, 1960, and not before January 2, 1959
    /standardDeduction     13850.00    16550.00    -- 14,600 + 1,950
    /totalIncome           162345.67   162345.67   -- 150,000.00 + 12,345.67
    /taxableIncome         148495.67   145795.67   -- less 13,850 and 16,550
    /dependentList         []          []
    /dependentCount        0           0
    /qualifyingChildCount  0           0
    /firstDependent        incomplete  incomplete  -- there is none
    """,
    tax="""
    /end10                 11000.00
    /end12                 44725.00
    /end22                 95375.00
    /end24                 182100.00
    /end32                 231250.00
    /end35                 578125.00
    /tax10                 1100.00     -- of 11,000
    /tax12                 4047.00     -- of 44,725 - 11,000 = 33,725
    /tax22                 11143.00    -- of 95,375 - 44,725 = 50,650
    /tax24                 12748.96    -- of 148,495.67 - 95,375 = 53,120.67: 12,748.9608
    /tax32                 0.00
    /tax35                 0.00
    /tax37                 0.00
    /scheduleTax           29038.96    -- the sum; by the worksheet 24 percent of 148,495.67 less 6,600: 35,638.9608 - 6,600
    /creditChildCount      0
    /otherDependentCount   0
    /creditBase            0.00
    /excess                0.00        -- 162,345.67 isn't over 200,000
    /reduction             0.00
    /childCredit           0.00
    /taxAfterCredits       29038.96
    """,
)

COUPLE = Household(
    "a joint return with three boxes, a parent with a gross income of 4,700, and a grandchild of 16 in 2023; the credit is reduced",
    2,
    asked="""
    /married true, /fileJointly true, /canBeClaimed false, /earnedIncome 300000, /otherIncome 112345.67
    /dateOfBirth 1955-03-10, /blind true, /spouseDateOfBirth 1957-07-04, /spouseBlind false
    #1/childRelationship false, #1/relatedOrMember true, #1/grossIncome 4700, #1/supportedByFiler true
    #2/dateOfBirth 2007-03-05, #2/childRelationship true, #2/livedWithFiler true, #2/selfSupported false, #2/jointReturn false
    #2/hasNumber true
    """,
    # a joint return comes before what would make them anything else
    rest="""
    /consideredUnmarried false, /spouseDied true, /remarried false, /childInHome true, /paidHalfOfHome true, /qualifyingPerson true
    /spouseItemizes true
    #1/dateOfBirth 1930-02-14, #1/student false, #1/disabled true, #1/livedWithFiler false, #1/selfSupported false
    #1/jointReturn false, #1/hasNumber true
    #2/student false, #2/disabled false, #2/relatedOrMember true, #2/grossIncome 0, #2/supportedByFiler true
    """,
    figures="""
    /joint                 true                  true
    /unmarried             false                 false
    /filingStatus          marriedFilingJointly  marriedFilingJointly
    /basicAmount           27700.00              29200.00
    /additionalAmount      1500.00               1550.00
    /boxes                 3                     3                     -- both are 65, and one is blind
    /standardDeduction     32200.00              33850.00              -- 27,700 + 3 x 1,500; 29,200 + 3 x 1,550
    /totalIncome           412345.67             412345.67
    /taxableIncome         380145.67             378495.67             -- less 32,200 and 33,850
    #1/underAge            false                 false                 -- 93 in 2023
    #1/younger             false                 false                 -- than neither
    #1/qualifyingChild     false                 false
    #1/qualifyingRelative  false                 true                  -- 4,700 isn't below 4,700, and is below 5,050
    #1/isDependent         false                 true
    #2/underAge            true                  true                  -- 16 and 17
    #2/younger             true                  true
    #2/qualifyingChild     true                  true
    #2/qualifyingRelative  false                 false                 -- a qualifying child is none
    #2/isDependent         true                  true
    /dependentList         [#2]                  [#1 #2]
    /dependentCount        1                     2
    /qualifyingChildCount  1                     1
    /firstDependent        #2                    #1
    """,
    tax="""
    /end10                 22000.00
    /end12                 89450.00
    /end22                 190750.00
    /end24                 364200.00
    /end32                 462500.00
    /end35                 693750.00
    /tax10                 2200.00     -- of 22,000
    /tax12                 8094.00     -- of 89,450 - 22,000 = 67,450
    /tax22                 22286.00    -- of 190,750 - 89,450 = 101,300
    /tax24                 41628.00    -- of 364,200 - 190,750 = 173,450
    /tax32                 5102.61     -- of 380,145.67 - 364,200 = 15,945.67: 5,102.6144
    /tax35                 0.00
    /tax37                 0.00
    /scheduleTax           79310.61    -- the sum; by the worksheet 32 percent of 380,145.67 less 42,336: 121,646.6144 - 42,336
    #1/creditChild         false
    #1/otherDependent      false       -- no dependent of 2023
    #2/creditChild         true        -- under 17 at the end of 2023, with the number
    #2/otherDependent      false
    /creditChildCount      1
    /otherDependentCount   0
    /creditBase            2000.00
    /excess                12345.67    -- 412,345.67 - 400,000
    /reduction             650.00      -- 5 percent of 13,000
    /childCredit           1350.00     -- 2,000 - 650, and the tax is more
    /taxAfterCredits       77960.61    -- 79,310.61 - 1,350
    """,
)

APART = Household(
    "considered unmarried, with children of 11, 18 and 13 in 2023, the last without a number; the tax ends at half a cent",
    3,
    # of the second, who is 19 in 2024, that year wants more than 2023
    asked="""
    /married true, /fileJointly false, /consideredUnmarried true, /paidHalfOfHome true, /qualifyingPerson true
    /canBeClaimed false, /dateOfBirth 1985-11-30, /blind false, /earnedIncome 102500, /otherIncome 310.25
    #1/dateOfBirth 2012-06-15, #1/childRelationship true, #1/livedWithFiler true, #1/selfSupported false, #1/jointReturn false
    #1/hasNumber true
    #2/dateOfBirth 2005-08-20, #2/childRelationship true, #2/livedWithFiler true, #2/selfSupported false, #2/jointReturn false
    #2/student false, #2/disabled false, #2/relatedOrMember true, #2/grossIncome 4900, #2/supportedByFiler true
    #3/dateOfBirth 2010-01-10, #3/childRelationship true, #3/livedWithFiler true, #3/selfSupported false, #3/jointReturn false
    #3/hasNumber false
    """,
    # the spouse's boxes are of a joint return, and that the spouse itemizes takes the deduction from a separate return alone
    rest="""
    /spouseDateOfBirth 1950-01-01, /spouseBlind true, /spouseItemizes true, /spouseDied true, /remarried false, /childInHome true
    #1/student false, #1/disabled false, #1/relatedOrMember true, #1/grossIncome 0, #1/supportedByFiler true
    #2/hasNumber true
    #3/student true, #3/disabled false, #3/relatedOrMember true, #3/grossIncome 0, #3/supportedByFiler true
    """,
    figures="""
    /joint                 false            false
    /unmarried             true             true             -- considered so
    /filingStatus          headOfHousehold  headOfHousehold
    /basicAmount           20800.00         21900.00
    /additionalAmount      1850.00          1950.00
    /boxes                 0                0                -- 38 in 2023, and not blind
    /standardDeduction     20800.00         21900.00
    /totalIncome           102810.25        102810.25
    /taxableIncome         82010.25         80910.25         -- less 20,800 and 21,900
    #1/underAge            true             true             -- 11 and 12
    #1/younger             true             true
    #1/qualifyingChild     true             true
    #1/qualifyingRelative  false            false
    #1/isDependent         true             true
    #2/underAge            true             false            -- 18, and 19 without being a student
    #2/younger             true             true
    #2/qualifyingChild     true             false
    #2/qualifyingRelative  false            true             -- in 2023 a qualifying child; 4,900 is below 5,050
    #2/isDependent         true             true
    #3/underAge            true             true             -- 13 and 14
    #3/younger             true             true
    #3/qualifyingChild     true             true
    #3/qualifyingRelative  false            false
    #3/isDependent         true             true
    /dependentList         [#1 #2 #3]       [#1 #2 #3]
    /dependentCount        3                3
    /qualifyingChildCount  3                2
    /firstDependent        #1               #1
    """,
    tax="""
    /end10                 15700.00
    /end12                 59850.00
    /end22                 95350.00
    /end24                 182100.00
    /end32                 231250.00
    /end35                 578100.00
    /tax10                 1570.00     -- of 15,700
    /tax12                 5298.00     -- of 59,850 - 15,700 = 44,150
    /tax22                 4875.26     -- of 82,010.25 - 59,850 = 22,160.25: 4,875.255, which is rounded up
    /tax24                 0.00
    /tax32                 0.00
    /tax35                 0.00
    /tax37                 0.00
    /scheduleTax           11743.26    -- the sum; by the schedule 6,868 and 22 percent of 22,160.25: 11,743.255
    #1/creditChild         true
    #1/otherDependent      false
    #2/creditChild         false       -- 18 isn't under 17
    #2/otherDependent      true
    #3/creditChild         false       -- without the number
    #3/otherDependent      true
    /creditChildCount      1
    /otherDependentCount   2
    /creditBase            3000.00     -- 2,000 + 2 x 500
    /excess                0.00
    /reduction             0.00
    /childCredit           3000.00
    /taxAfterCredits       8743.26     -- 11,743.26 - 3,000
    """,
)

SURVIVOR = Household(
    "a surviving spouse of 65, whose spouse died in 2022, with a child of 14 in 2023 and a member of the household; less a loss",
    2,
    asked="""
    /married false, /spouseDied true, /remarried false, /childInHome true, /paidHalfOfHome true
    /canBeClaimed false, /dateOfBirth 1958-12-31, /blind false, /earnedIncome 208000, /otherIncome -2500.50
    #1/dateOfBirth 2009-04-01, #1/childRelationship true, #1/livedWithFiler true, #1/selfSupported false, #1/jointReturn false
    #1/hasNumber true
    #2/childRelationship false, #2/relatedOrMember true, #2/grossIncome 0, #2/supportedByFiler true
    """,
    # without a marriage there is no joint return, and no box of a spouse
    rest="""
    /fileJointly true, /consideredUnmarried false, /qualifyingPerson true, /spouseItemizes true
    /spouseDateOfBirth 1940-01-01, /spouseBlind true
    #1/student false, #1/disabled false, #1/relatedOrMember true, #1/grossIncome 0, #1/supportedByFiler true
    #2/dateOfBirth 1990-09-09, #2/student false, #2/disabled false, #2/livedWithFiler true, #2/selfSupported false
    #2/jointReturn false, #2/hasNumber true
    """,
    figures="""
    /joint                 false                      false
    /unmarried             true                       true
    /filingStatus          qualifyingSurvivingSpouse  qualifyingSurvivingSpouse  -- before head of household; 2022 is one of the two years before each
    /basicAmount           27700.00                   29200.00
    /additionalAmount      1500.00                    1550.00
    /boxes                 1                          1                          -- born before January 2, 1959
    /standardDeduction     29200.00                   30750.00                   -- 27,700 + 1,500; 29,200 + 1,550
    /totalIncome           205499.50                  205499.50                  -- 208,000.00 - 2,500.50
    /taxableIncome         176299.50                  174749.50                  -- less 29,200 and 30,750
    #1/underAge            true                       true                       -- 14 and 15
    #1/younger             true                       true
    #1/qualifyingChild     true                       true
    #1/qualifyingRelative  false                      false
    #1/isDependent         true                       true
    #2/underAge            false                      false                      -- 33 and 34
    #2/younger             true                       true
    #2/qualifyingChild     false                      false                      -- no relationship of a child
    #2/qualifyingRelative  true                       true
    #2/isDependent         true                       true
    /dependentList         [#1 #2]                    [#1 #2]
    /dependentCount        2                          2
    /qualifyingChildCount  1                          1
    /firstDependent        #1                         #1
    """,
    tax="""
    /end10                 22000.00
    /end12                 89450.00
    /end22                 190750.00
    /end24                 364200.00
    /end32                 462500.00
    /end35                 693750.00
    /tax10                 2200.00     -- of 22,000
    /tax12                 8094.00     -- of 67,450
    /tax22                 19106.89    -- of 176,299.50 - 89,450 = 86,849.50
    /tax24                 0.00
    /tax32                 0.00
    /tax35                 0.00
    /tax37                 0.00
    /scheduleTax           29400.89    -- the sum; by the worksheet 22 percent of 176,299.50 less 9,385: 38,785.89 - 9,385
    #1/creditChild         true
    #1/otherDependent      false
    #2/creditChild         false
    #2/otherDependent      true
    /creditChildCount      1
    /otherDependentCount   1
    /creditBase            2500.00     -- 2,000 + 500
    /excess                5499.50     -- 205,499.50 - 200,000: the 400,000 are of a joint return alone
    /reduction             300.00      -- 5 percent of 6,000
    /childCredit           2200.00     -- 2,500 - 300
    /taxAfterCredits       27200.89    -- 29,400.89 - 2,200
    """,
)

CLAIMED = Household(
    "a blind student who can be claimed: earned income and an amount, and the box on top; the tax ends at half a cent",
    0,
    asked="""
    /married false, /spouseDied false, /paidHalfOfHome false, /canBeClaimed true, /dateOfBirth 2004-05-06, /blind true
    /earnedIncome 9321.40, /otherIncome 2450.75
    """,
    rest="""
    /fileJointly false, /consideredUnmarried false, /remarried true, /childInHome false, /qualifyingPerson false
    /spouseDateOfBirth 2003-02-28, /spouseBlind false, /spouseItemizes false
    """,
    figures="""
    /joint                 false       false
    /unmarried             true        true
    /filingStatus          single      single
    /basicAmount           13850.00    14600.00
    /additionalAmount      1850.00     1950.00
    /boxes                 1           1           -- blind
    /standardDeduction     11571.40    11721.40    -- 9,321.40 + 400 = 9,721.40, and 1,850; 9,321.40 + 450 = 9,771.40, and 1,950
    /totalIncome           11772.15    11772.15    -- 9,321.40 + 2,450.75
    /taxableIncome         200.75      50.75
    /dependentList         []          []
    /dependentCount        0           0
    /qualifyingChildCount  0           0
    /firstDependent        incomplete  incomplete
    """,
    tax="""
    /end10                 11000.00
    /end12                 44725.00
    /end22                 95375.00
    /end24                 182100.00
    /end32                 231250.00
    /end35                 578125.00
    /tax10                 20.08       -- of 200.75: 20.075, which is rounded up
    /tax12                 0.00
    /tax22                 0.00
    /tax24                 0.00
    /tax32                 0.00
    /tax35                 0.00
    /tax37                 0.00
    /scheduleTax           20.08
    /creditChildCount      0
    /otherDependentCount   0
    /creditBase            0.00
    /excess                0.00
    /reduction             0.00
    /childCredit           0.00
    /taxAfterCredits       20.08
    """,
)


def whole(path: str) -> str:
    """A path in which the list of persons is named too."""
    return f"/dependents/{path}" if path.startswith("#") else path


def answers(text: str, is_of_income: bool) -> list[str]:
    """The commands that give the answers."""
    given = [answer.split(" ") for line in text.split("\n") for answer in line.strip().split(", ") if answer]
    return [f"set {whole(path)} {value}" for path, value in given if is_of_income or not path.endswith("/hasNumber")]


def figures(text: str, column: int) -> dict[str, str]:
    """The values of a column by their paths."""
    lines = [line.partition("--")[0].split("  ") for line in text.split("\n")]
    cells = [[cell.strip() for cell in line if cell.strip()] for line in lines]
    return {whole(row[0]): row[1 + column] for row in cells if row}


def turns(household: Household, words: str) -> Iterator[tuple[str, str]]:
    """The commands, each with the reply that is due."""
    is_of_income = words == "income 2023"
    due = figures(household.figures, int(words == "year 2024")) | (figures(household.tax, 0) if is_of_income else {})
    for number in range(household.persons):
        yield "add /dependents", f"ok #{number + 1}"
    if household.persons == 0:
        yield "open /dependents", "ok"
    for command in answers(household.asked, is_of_income):
        yield command, "ok"
    for path in [*OF_THE_YEAR, *(OF_THE_INCOME if is_of_income else ())]:
        yield f"final {path}", f"final {due[path]}"
    for command in answers(household.rest, is_of_income):
        yield command, "ok"
    for path, value in due.items():
        is_there = value != "incomplete"
        yield f"get {path}", f"complete {value}" if is_there else value
        yield f"final {path}", f"final {value}" if is_there else "open"


def cases() -> Iterator[Made]:
    """Each household over each dictionary of a year."""
    for household in (ALONE, COUPLE, APART, SURVIVOR, CLAIMED):
        given = {command.split(" ")[1] for command in answers(household.asked + household.rest, True)}
        assert len(given) == OF_THE_FILER + household.persons * OF_A_PERSON, "a household answers everything"
        for words in ("year 2023", "year 2024", "income 2023"):
            said = list(turns(household, words))
            script, text = ("".join(f"{turn[part]}\n" for turn in said).encode() for part in (0, 1))
            yield f"{household.title}; {words}", words, None, script, text, 0
