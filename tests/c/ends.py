"""Command lines for a mild and a harsh job, with what is due: words, exit status, standard output, and standard error whole.

The figures are J's of the papers under sheet T: its pole force is 20,093 N and grows by 360 N a metre, its ground bears 100 N for
each kPa under a soil of factor 0.5 and 80 N for each under one of 0.4, it stands up to 3277 cm and is permitted 3173.
"""
from jobs import J, SINGLE, SUPPORT, changed, job_file

OUTCOMES = {"1": "passes throughout", "2": "fails throughout", "3": "undecided"}
CHECKS = ("transom moment", "transom deflection", "ledger moment", "ledger deflection", "slip at the coupler",
          "slenderness of the pole between ledgers", "pole stability without wind", "pole stability with wind", "tie force",
          "pole force against 40000 N", "pole force against what the ground under the pad bears",
          "height against the permitted height")
PASSES = ("rembilung: no check fails for any accepted job between the two ends: whatever is found there, the scaffold passes")
FAMILY = "it may be 1 (double row) or 2 (single row)"
SHIELD = "it may be 1 to 2000 thousandths when open, 1 to 700 when half closed, 1 to 1000 when fully closed"
A_SUPPORT = (f"number 1, family, is 3; {FAMILY}; 3 marks a formwork support, and only scaffold jobs have jobs between them")
NO_ORDER = "rembilung: the harsh job is not the mild one or a harsher one: "
HELP = "; --help shows what may be given"
COUNT = "rembilung: 'between' takes two job files or 50 numbers, and "
RULE = "an entry is 1 to 1000 and no greater than the one before it, and entry 250 is at least 117"
DAMAGED = "the number there is missing, cut off, not in its shortest form or above 4294967295"
T = ["--sheet", "t.dat"]
ODD_NAME = "o\nd\u00e9.job"

FILES = {
    "201.job": job_file(changed(J, f24=201)),
    "bay-200.job": job_file(changed(J, f4=200)),
    "strength.job": job_file(changed(J, f24=9)),
    "live.job": job_file(changed(J, f12=2999)),
    "make.job": job_file(changed(SINGLE, f21=2)),
    ODD_NAME: job_file(J)[:-1],
}


# Of each field that is not free: its name, a number at the mild end and one at the harsh that differ, and how they may.
NO_SMALLER, NO_GREATER = "in the harsh job it may be no smaller", "in the harsh job it may be no greater"
ALIKE = "it has to be the same in both"
SOIL = "in the harsh job its factor may be no greater, which is 0.4 for 1, 2 and 3, 0.5 for 4 and 1.0 for 5"
FIELDS = {
    1: ("family", 1, 2, ALIKE), 2: ("tube", 1, 2, ALIKE), 3: ("pole spacing across", 105, 155, NO_SMALLER),
    4: ("bay", 60, 200, NO_SMALLER), 5: ("step", 60, 200, NO_SMALLER), 6: ("tie interval", 2, 3, NO_SMALLER),
    7: ("height", 100, 5000, NO_SMALLER), 8: ("boards", 1, 3, ALIKE), 9: ("boarded layers", 1, 10, NO_SMALLER),
    10: ("working layers", 1, 9, NO_SMALLER), 11: ("greatest live load on one layer", 0, 10000, NO_SMALLER),
    12: ("live load summed over layers", 0, 30000, NO_SMALLER), 13: ("nets per pole", 0, 5000, NO_SMALLER),
    14: ("structure weight per pole", 50, 500, NO_SMALLER), 15: ("basic wind", 0, 2000, NO_SMALLER),
    16: ("height factor", 100, 4000, NO_SMALLER), 17: ("enclosure", 1, 3, ALIKE), 18: ("shield", 1, 1000, NO_SMALLER),
    19: ("wall behind", 1, 2, ALIKE), 22: ("tie capacity", 100000, 8000, NO_GREATER), 23: ("soil", 5, 1, SOIL),
    24: ("ground strength", 2000, 10, NO_GREATER), 25: ("pad area", 10000, 100, NO_GREATER),
}
# The mildest job, whose pole force is 285 N: everything passes; and the harshest, of which everything fails.
MILDEST = [FIELDS[k][1] if k in FIELDS else {20: 240, 21: 1}[k] for k in range(1, 26)]
ONE_WAY = [k for k in FIELDS if FIELDS[k][3] != ALIKE]
HARSHEST = [FIELDS[k][2] if k in ONE_WAY else MILDEST[k - 1] for k in range(1, 26)]


def wrong_way(field):
    """A pair of which that field alone runs the wrong way, or is unlike."""
    name, mild, harsh, asked = FIELDS[field]
    # Enough layers are boarded, and enough load is summed, for whatever the field is.
    first, second = [changed(MILDEST, **{"f9": 10, "f12": 30000, f"f{field}": number}) for number in (harsh, mild)]
    return first + second, field, f"number {field}, {name}, is {harsh} in the mild job and {mild} in the harsh job; {asked}"


def shown(checks, mild, harsh):
    """Standard output of outcomes, a digit for each check, and two heights."""
    lines = [f"{k} {digit} {OUTCOMES[digit]}: {name}\n" for k, (digit, name) in enumerate(zip(checks, CHECKS), 1)]
    return "".join(lines) + f"heights {mild} {harsh} stability at the mild and at the harsh end, cm\n"


def fails(checks):
    verb = "fail" if "s" in checks.split(" ")[0] else "fails"
    return (f"rembilung: {checks} {verb} for every accepted job between the two ends: whatever is found there, "
            "the scaffold has to be changed")


def waits(checks, numbers):
    passes, and_fails, and_waits = ("pass", "fail", "wait") if "s" in checks.split(" ")[0] else ("passes", "fails", "waits")
    return (f"rembilung: {checks} {passes} at the mild end and {and_fails} at the harsh end, and {and_waits} for what is found of "
            f"{numbers}")


def two(mild, harsh):
    return changed(J, **mild) + changed(J, **harsh)


def half_closed(shield):
    """Numbers of J that make it pass but for its ties, which bear 8425 N of the wind on 29.9 %, 151 N/m2, and 8448 N on 30 %."""
    return {"f7": 2800, "f15": 500, "f16": 1200, "f17": 2, "f18": shield, "f22": 8430}


ANSWERED = [
    (T + two({"f24": 201}, {"f24": 200}), shown("111111111131", 3277, 3277),
     waits("check 11", "number 24, ground strength, from 201 to 200")),
    (T + ["201.job", "j.job"], shown("111111111131", 3277, 3277),
     waits("check 11", "number 24, ground strength, from 201 to 200")),
    (T + ["j.job", "j.job"], shown("111111111121", 3277, 3277), fails("check 11")),
    (T + two({}, {}), shown("111111111121", 3277, 3277), fails("check 11")),
    (T + two({"f24": 202}, {"f24": 201}), shown("111111111111", 3277, 3277), PASSES),
    (T + two({"f24": "0202"}, {"f24": "00201"}), shown("111111111111", 3277, 3277), PASSES),
    (T + two({"f24": 300, "f7": 3173}, {"f24": 300, "f7": 3278}), shown("111111311113", 3277, 3277),
     waits("checks 7 and 12", "number 7, height, from 3173 to 3278")),
    (T + two({"f24": 300, "f7": 3173}, {"f24": 200, "f7": 3278}), shown("111111311133", 3277, 3277),
     waits("checks 7, 11 and 12", "number 7, height, from 3173 to 3278; number 24, ground strength, from 300 to 200")),
    (T + two({"f23": 5}, {}), shown("111111111131", 3277, 3277), waits("check 11", "number 23, soil, from 5 to 4")),
    # What fails throughout has to be changed, whatever the undecided wait for.
    (T + two({"f7": 3173}, {"f7": 3174}), shown("111111111123", 3277, 3277), fails("check 11")),
    # No check hangs on the wall behind a double row, and soils 1 and 3 are alike.
    (T + two({"f23": 1, "f24": 252, "f20": 0, "f21": 3}, {"f23": 3, "f24": 251, "f20": 500}), shown("111111111131", 3277, 3277),
     waits("check 11", "number 24, ground strength, from 252 to 251")),
    (T + changed(MILDEST) + changed(HARSHEST), shown("3" * 12, 6000, "none"),
     waits("checks 1, 2, 3, 4, 5, 6, 7, 8, 9, 10, 11 and 12",
           "; ".join(f"number {k}, {FIELDS[k][0]}, from {FIELDS[k][1]} to {FIELDS[k][2]}" for k in ONE_WAY))),
    # Mw / W takes 17.19 and 17.30 N/mm2 of 205: by check 8 the pole bears 19322.8 N up to 3081 cm, and 19311.1 N up to 3078.
    (T + two(half_closed(299), half_closed(300)), shown("111111113111", 3081, 3078),
     waits("check 9", "number 18, shield, from 299 to 300")),
    (T + changed(SINGLE) * 2, shown("112121221222", "none", "none"), fails("checks 3, 5, 7, 8, 10, 11 and 12")),
]

REFUSED = [
    (two(half_closed(0), half_closed(1)), "3 18", f"mild job: number 18, shield, is 0; {SHIELD}"),
    (two(half_closed(1), half_closed(701)), "3 43", f"harsh job: number 18, shield, is 701; {SHIELD}"),
    (two({"f4": 59}, {}), "3 4", "mild job: number 4, bay, is 59; it may be 60 to 200 cm"),
    (two({}, {"f4": 59}), "3 29", "harsh job: number 4, bay, is 59; it may be 60 to 200 cm"),
    (two({}, {"f24": 2001}), "3 49", "harsh job: number 24, ground strength, is 2001; it may be 10 to 2000 kPa"),
    (two({"f25": 99}, {"f1": 0}), "3 25", "mild job: number 25, pad area, is 99; it may be 100 to 10000 cm2"),
    (two({}, {"f1": 4294967295}), "3 26", f"harsh job: number 1, family, is 4294967295; {FAMILY}"),
    (two({"f1": 3}, {}), "3 1", f"mild job: {A_SUPPORT}"),
    (two({}, {"f1": 3}), "3 26", f"harsh job: {A_SUPPORT}"),
    (two({"f10": 5}, {}), "4 10", "mild job: number 10, working layers, is greater than number 9, boarded layers"),
    (two({}, {"f12": 2999}), "4 37",
     "harsh job: number 12, live load summed over layers, is less than number 11, greatest live load on one layer"),
    (changed(SINGLE, f20=180) + changed(SINGLE), "5 20",
     "mild job: number 20, wall thickness: a single row needs a wall of more than 180 mm"),
    (changed(SINGLE) + changed(SINGLE, f21=3), "5 46", "harsh job: number 21, wall make: a single row needs a sound wall, 1"),
    (["bay.job", "j.job"], "3 4", "mild job, 'bay.job': number 4, bay, is outside its range; it may be 60 to 200 cm"),
    (["j.job", "strength.job"], "3 49",
     "harsh job, 'strength.job': number 24, ground strength, is outside its range; it may be 10 to 2000 kPa"),
    (["j.job", "live.job"], "4 37", "harsh job, 'live.job': number 12, live load summed over layers, is less than number 11, "
     "greatest live load on one layer"),
    (["make.job", "j.job"], "5 21", "mild job, 'make.job': number 21, wall make: a single row needs a sound wall, 1"),
    (["empty", "j.job"], "6 0", f"mild job, 'empty': the job file is damaged at offset 0: {DAMAGED}"),
    (["j.job", "cut.job"], "6 36", f"harsh job, 'cut.job': the job file is damaged at offset 36: {DAMAGED}"),
    (["j.job", ODD_NAME], "6 36", f"harsh job, 'o\\x0Ad\u00e9.job': the job file is damaged at offset 36: {DAMAGED}"),
    (["extra.job", "j.job"], "7 38", "mild job, 'extra.job': the job file goes on after its 25th number, from offset 38"),
    (["j.job", "most"], "7 25", "harsh job, 'most': the job file goes on after its 25th number, from offset 25"),
    (["cut.job", "extra.job"], "6 36", f"mild job, 'cut.job': the job file is damaged at offset 36: {DAMAGED}"),
    (["support.job", "empty"], "3 1", f"mild job, 'support.job': {A_SUPPORT}"),
    (["j.job", "support.job"], "3 26", f"harsh job, 'support.job': {A_SUPPORT}"),
    (["overhang.job", "j.job"], "3 1", f"mild job, 'overhang.job': {A_SUPPORT}"),
    (["j.job", "support-cut.job"], "6 19", f"harsh job, 'support-cut.job': the job file is damaged at offset 19: {DAMAGED}"),
    (["support-of-25.job", "j.job"], "7 18",
     "mild job, 'support-of-25.job': the job file goes on after its 13th number, from offset 18"),
    (["--sheet", "short.dat", "empty", "empty"], "1 500", "the column sheet has 500 bytes, and a column sheet has 502"),
    (["--sheet", "odd.dat"] + two({"f4": 59}, {}), "1 503", "the column sheet has 503 bytes, and a column sheet has 502"),
    (["--sheet", "zero.dat"] + two({}, {"f24": 201}), "2 3",
     f"the column sheet is damaged at entry 3 (bytes 6 and 7): {RULE}"),
    (["--sheet", "low.dat", "j.job", "cut.job"], "2 250", f"the column sheet is damaged at entry 250 (bytes 500 and 501): {RULE}"),
]


# Two jobs that are no mild and harsh one: field, and what is said of it.
UNORDERED = [
    (["j.job", "201.job"], 24, f"number 24, ground strength, is 200 in the mild job and 201 in the harsh job; {NO_GREATER}"),
    (["bay-200.job", "j.job"], 4, f"number 4, bay, is 200 in the mild job and 150 in the harsh job; {NO_SMALLER}"),
    (two({"f8": 1}, {"f8": 2, "f24": 201}), 8, f"number 8, boards, is 1 in the mild job and 2 in the harsh job; {ALIKE}"),
    (two({"f23": 1}, {"f23": 4}), 23, f"number 23, soil, is 1 in the mild job and 4 in the harsh job; {SOIL}"),
    *[wrong_way(field) for field in FIELDS],
]

UNUSABLE = [
    ([], f"{COUNT}0 words are given: the mild job is missing{HELP}"),
    (["j.job"], f"{COUNT}1 word is given: the harsh job is missing{HELP}"),
    (["j.job", "j.job", "201.job"], f"{COUNT}3 words are given: '201.job' is the first too many{HELP}"),
    (["7"], f"{COUNT}1 word is given: mild job, number 2, tube, is missing{HELP}"),
    (["7", "j.job"], f"{COUNT}2 words are given: mild job, number 3, pole spacing across, is missing{HELP}"),
    (changed(J), f"{COUNT}25 words are given: harsh job, number 1, family, is missing{HELP}"),
    (two({}, {})[:24], f"{COUNT}24 words are given: mild job, number 25, pad area, is missing{HELP}"),
    (two({}, {})[:49], f"{COUNT}49 words are given: harsh job, number 25, pad area, is missing{HELP}"),
    (two({}, {}) + ["9"], f"{COUNT}51 words are given: '9' is the first too many{HELP}"),
    (["j.job"] + changed(J), f"{COUNT}26 words are given: '1' is the first too many{HELP}"),
    (changed(SUPPORT) * 2, f"{COUNT}26 words are given: harsh job, number 2, tube, is missing{HELP}"),
    (["j.job", "--sheet", "t.dat"], f"{COUNT}3 words are given: 't.dat' is the first too many{HELP}"),
    (two({"f24": "2x"}, {"f24": "x"}), "rembilung: mild job, number 24, ground strength: '2x' is not a whole number; "
     "it may be 10 to 2000 kPa"),
    (two({"f4": 59}, {"f24": "-1"}), "rembilung: harsh job, number 24, ground strength: '-1' is not a whole number; "
     "it may be 10 to 2000 kPa"),
    (two({"f1": "one"}, {}), f"rembilung: mild job, number 1, family: 'one' is not a whole number; {FAMILY}"),
    (two({}, {"f25": 4294967296}), "rembilung: harsh job, number 25, pad area: '4294967296' is too great; "
     "it may be 100 to 10000 cm2"),
    (["no.job", "j.job"], "rembilung: cannot read 'no.job': No such file or directory"),
    (["empty", "no.job"], "rembilung: cannot read 'no.job': No such file or directory"),
    (["j.job", "."], "rembilung: cannot read '.': Is a directory"),
    (["", "j.job"], "rembilung: cannot read '': No such file or directory"),
    (["-", "j.job"], "rembilung: cannot read '-': No such file or directory"),
    (["j.job", "vast"], "rembilung: 'vast' has more than 1048576 bytes, and is no column sheet or job file"),
    (["--sheet", "no.dat", "j.job", "j.job"], "rembilung: cannot read 'no.dat': No such file or directory"),
    (["--sheet", "vast", "j.job", "j.job"], "rembilung: 'vast' has more than 1048576 bytes, and is no column sheet or job file"),
    (["--sheet"], f"rembilung: a file has to be named after '--sheet'{HELP}"),
    (["--sheet", "t.dat", "--sheet", "t.dat", "j.job", "j.job"], f"rembilung: given twice: '--sheet'{HELP}"),
    (["--save", "new.job", "j.job", "j.job"], f"rembilung: there is no option '--save'{HELP}"),
]


def lines():
    """Every line of these tables: the words after the name of the command, status, standard output and standard error."""
    rows = [(words, 0, out, said) for words, out, said in ANSWERED]
    rows += [(words, 1, f"refused {due}\n", f"rembilung: {said}") for words, due, said in REFUSED]
    rows += [(words, 1, f"refused 12 {field}\n", NO_ORDER + said) for words, field, said in UNORDERED]
    return rows + [(words, 2, "", said) for words, said in UNUSABLE]


def answer_shown(answer):
    """Standard output where the answer of a vector is not refused."""
    *checks, mild, harsh = answer.split(" ")
    return shown("".join(checks), *["none" if height == "4294967295" else height for height in (mild, harsh)])
