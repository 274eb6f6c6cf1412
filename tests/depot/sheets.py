"""Column sheets as text and job files, and what is due when they are packed or shown."""
import given
import tables
from given import T

RULE = "an entry is 1 to 1000 and no greater than the one before it, and entry 250 is at least 117"


def a_line_each(entries):
    return "".join(f"{entry}\n" for entry in entries)


def changed(k, entry):
    return T[:k] + [entry] + T[k + 1:]


# Texts that pack to sheet T.
GOOD = [
    ("a line each", a_line_each(T)),
    ("no last line end", a_line_each(T).rstrip("\n")),
    ("CRLF", a_line_each(T).replace("\n", "\r\n")),
    ("CR", a_line_each(T).replace("\n", "\r")),
    ("commas", ",".join(map(str, T))),
    ("semicolons and spaces", "; ".join(map(str, T)) + ";\n"),
    ("tabs", "\t".join(map(str, T))),
    ("ten a line", "\n".join(" ".join(map(str, T[k:k + 10])) for k in range(0, 251, 10))),
    ("a byte order mark", b"\xef\xbb\xbf" + a_line_each(T).encode()),
    ("remarks", "# sheet T, 251 entries\n" + a_line_each(T).replace("\n", " # 7 8 9\n", 100) + "#"),
    ("blank lines", "\n\n  \n" + a_line_each(T).replace("\n", "\n\n") + "\n"),
    ("leading zeros", a_line_each(T).replace("996", "00996")),
]


def refusal_2(k, line, word):
    return f"refused 2 {k}\n", [f"rembilung: line {line}: entry {k}, '{word}', cannot stand there: {RULE}"]


def refusal_1(count):
    return f"refused 1 {count}\n", [f"rembilung: the text has {count} numbers, and a column sheet has 251"]


# Texts that are refused, with status 1: standard output and standard error.
REFUSED = [
    ("empty", "", refusal_1(0)),
    ("a remark alone", "# 1 2 3\n", refusal_1(0)),
    ("250 entries", a_line_each(T[:-1]), refusal_1(250)),
    ("252 entries", a_line_each(T + [150]), refusal_1(252)),
    ("100000 entries", "1 " * 100000, refusal_1(100000)),
    ("250 entries and one of 0", a_line_each(changed(5, 0)[:-1]), refusal_1(250)),
    ("entry 0 above 1000", a_line_each(changed(0, 1001)), refusal_2(0, 1, "1001")),
    ("entry 0 is 0", a_line_each(changed(0, 0)), refusal_2(0, 1, "0")),
    ("entry 3 is 0", a_line_each(changed(3, 0)), refusal_2(3, 4, "0")),
    ("entry 37 rises", a_line_each(changed(37, T[36] + 1)), refusal_2(37, 38, str(T[36] + 1))),
    ("the first of two", a_line_each(changed(200, 0)[:7] + [1000] + changed(200, 0)[8:]), refusal_2(7, 8, "1000")),
    ("entry 250 is 116", a_line_each(changed(250, 116)), refusal_2(250, 251, "116")),
    ("what is 1000 in 16 bits", a_line_each(changed(0, 65536 + 1000)), refusal_2(0, 1, "66536")),
    ("what is 1000 in 32 bits", a_line_each(changed(0, 2**32 + 1000)), refusal_2(0, 1, "4294968296")),
    ("many digits", a_line_each(changed(1, 10**60)), refusal_2(1, 2, "1" + "0" * 39 + "...")),
    ("the line after CRLF, remarks and blank lines", "# head\r\n\r\n" + a_line_each(changed(2, 999)).replace("\n", "\r\n"),
     refusal_2(2, 5, "999")),
    ("the line in a table of tens", "\n".join(" ".join(map(str, changed(42, 999)[k:k + 10])) for k in range(0, 251, 10)),
     refusal_2(42, 5, "999")),
]

DIGITS = "is not a whole number; digits alone are read"
# Texts that cannot be used, with status 2: standard error.
UNUSABLE = [
    ("a word", a_line_each(T).replace("996", "99x"), [f"rembilung: line 2: entry 1, '99x', {DIGITS}"]),
    ("decimals", a_line_each(T).replace("\n992\n", "\n0.992\n"), [f"rembilung: line 3: entry 2, '0.992', {DIGITS}"]),
    ("a sign", a_line_each(T).replace("\n992\n", "\n-992\n"), [f"rembilung: line 3: entry 2, '-992', {DIGITS}"]),
    ("a word after 251 entries", a_line_each(T) + "end\n", [f"rembilung: line 252: entry 251, 'end', {DIGITS}"]),
    ("a zero byte", a_line_each(T).replace("996", "9\x006"), [rf"rembilung: line 2: entry 1, '9\x006', {DIGITS}"]),
    ("UTF-16", a_line_each(T).encode("utf-16"),
     [rf"rembilung: line 1: entry 0, '\xFF\xFE1\x000\x000\x000\x00', {DIGITS}"]),
    ("quotes", '"1000","996"', [f"rembilung: line 1: entry 0, '\"1000\"', {DIGITS}"]),
]


def shown(sheet):
    """What show-sheet prints of a sheet: ten entries a line."""
    rows = [(k, min(k + 9, 250)) for k in range(0, 251, 10)]
    return "".join(" ".join(str(sheet[k]) for k in range(a, b + 1)) + f" # {a} to {b}\n" for a, b in rows)


# What show prints of job J, whole.
SHOWN_J = """\
   1  family: 1  [1 (double row) or 2 (single row)]
   2  tube: 1  [1 (48 by 3.5 mm) or 2 (51 by 3.0 mm)]
   3  pole spacing across: 105  [105, 130 or 155 cm in a double row, 60 to 150 cm in a single row]
   4  bay: 150  [60 to 200 cm]
   5  step: 180  [60 to 200 cm]
   6  tie interval: 2  [2 or 3 steps]
   7  height: 3000  [1 to 5000 cm in a double row, 1 to 2400 cm in a single row]
   8  boards: 3  [1 (steel), 2 (bamboo) or 3 (timber)]
   9  boarded layers: 4  [1 to 10]
  10  working layers: 2  [1 to 9]
  11  greatest live load on one layer: 3000  [0 to 10000 N/m2]
  12  live load summed over layers: 5000  [0 to 30000 N/m2]
  13  nets per pole: 0  [0 to 5000 N]
  14  structure weight per pole: 300  [50 to 500 N/m]
  15  basic wind: 300  [0 to 2000 N/m2]
  16  height factor: 1000  [100 to 4000 thousandths]
  17  enclosure: 1  [1 (open), 2 (half closed) or 3 (fully closed)]
  18  shield: 200  [1 to 2000 thousandths when open, 1 to 700 when half closed, 1 to 1000 when fully closed]
  19  wall behind: 1  [1 (closed) or 2 (open, framed or pierced)]
  20  wall thickness: 240  [0 to 2000 mm]
  21  wall make: 1  [1 (sound), 2 (hollow or light) or 3 (mortar M1.0 or weaker)]
  22  tie capacity: 8000  [8000 to 100000 N]
  23  soil: 4  [1 (gravel), 2 (sand), 3 (fill), 4 (clay) or 5 (rock or concrete)]
  24  ground strength: 200  [10 to 2000 kPa]
  25  pad area: 2000  [100 to 10000 cm2]
"""

# Support S as words, and what show prints of it, whole.
SUPPORT = [str(number) for number in given.S]
SHOWN_SUPPORT = """\
   1  kind: 3  [3 (support)]
   2  tube: 1  [1 (48 by 3.5 mm) or 2 (51 by 3.0 mm)]
   3  step: 150  [60 to 200 cm]
   4  overhang above the top ledger: 30  [0 to 100 cm]
   5  bay: 100  [60 to 200 cm]
   6  dead load per pole: 9000  [0 to 60000 N]
   7  live load per pole: 6000  [0 to 60000 N]
   8  basic wind: 300  [0 to 2000 N/m2]
   9  height factor: 1000  [100 to 4000 thousandths]
  10  shape factor: 400  [0 to 2000 thousandths]
  11  soil: 4  [1 (gravel), 2 (sand), 3 (fill), 4 (clay) or 5 (rock or concrete)]
  12  ground strength: 200  [10 to 2000 kPa]
  13  pad area: 2000  [100 to 10000 cm2]
"""


def job_file(cells):
    return given.job_file(map(int, cells.split(",")))


JOB = job_file(tables.J)
SUPPORT_FILE = job_file(",".join(SUPPORT))
# Job files that are refused when shown: the line on standard output, and standard error.
JOBS_REFUSED = [
    ("nothing", b"", "refused 6 0\n", "rembilung: the job file is damaged at offset 0: the number there is missing, cut off, "
     "not in its shortest form or above 4294967295"),
    ("a byte too many", JOB + b"\0", f"refused 7 {len(JOB)}\n",
     f"rembilung: the job file goes on after its 25th number, from offset {len(JOB)}"),
    ("a bay of 59", job_file(tables.with_cell(4, "59")), "refused 3 4\n",
     "rembilung: number 4, bay, is outside its range; it may be 60 to 200 cm"),
    ("too many working layers", job_file(tables.with_cell(10, "5")), "refused 4 10\n",
     "rembilung: number 10, working layers, is greater than number 9, boarded layers"),
    ("a thin wall", job_file(tables.with_cell(20, "180", tables.SINGLE)), "refused 5 20\n",
     "rembilung: number 20, wall thickness: a single row needs a wall of more than 180 mm"),
    ("a support with a byte too many", SUPPORT_FILE + b"\0", f"refused 7 {len(SUPPORT_FILE)}\n",
     f"rembilung: the job file goes on after its 13th number, from offset {len(SUPPORT_FILE)}"),
    ("a support with an overhang of 101", job_file(",".join(SUPPORT[:3] + ["101"] + SUPPORT[4:])), "refused 3 4\n",
     "rembilung: number 4, overhang above the top ledger, is outside its range; it may be 0 to 100 cm"),
    ("a support of 12 numbers", job_file(",".join(SUPPORT[:12])), "refused 6 19\n",
     "rembilung: the job file is damaged at offset 19: the number there is missing, cut off, not in its shortest form or above "
     "4294967295"),
]


def vectors(name):
    """The lines of a file of vectors, with their numbers."""
    text = (given.HERE / name).read_text(encoding="ascii")
    return [(at, line.split(";")) for at, line in enumerate(text.splitlines(), 1) if not line.startswith("#")]
