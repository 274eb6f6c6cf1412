"""The cases of the program verdict: what stands in column.dat and comes on standard input, and what is printed.

What is printed was worked out by hand from the papers, not taken from the program.
"""

import pathlib, sys
sys.path.insert(0, str(pathlib.Path(__file__).resolve().parents[1] / "vectors"))
from given import S, S_REPORT, T, groups, job_file, packed

# job J, its fields by number from 1
J = [1, 1, 105, 150, 180, 2, 3000, 3, 4, 2, 3000, 5000, 0, 300, 300, 1000, 1, 200, 1, 240, 1, 8000, 4, 200, 2000]

# document 01: the whole report of job J under sheet T; heights and column as request 1 of document 02 has them,
# line 12 as request 5 has it
REPORT = """1 1 477521
2 1 1584
3 1 571785
4 1 2777
5 1 4160
6 1 171
7 1 20093
8 0 19030
9 1 5953
10 1 20093
11 2 20093
12 1 3173
height 3277 3173
wind 42 24291
column 1974
"""

def job(**changed):
    fields = {f"field{k}": n for k, n in enumerate(J, 1)} | changed
    return job_file(fields.values())

# support S, its numbers by place from 1
def support(**changed):
    numbers = {f"number{k}": n for k, n in enumerate(S, 1)} | changed
    return job_file(numbers.values())

SHEET = packed(T)
FILE = job()  # 38 bytes
SUPPORT_FILE = support()  # 21 bytes
LONGEST = groups(4294967295) * 25  # five bytes each

# what the crate verdict is run on: column.dat, standard input, standard output
STORED = {"verdict": (SHEET, FILE, REPORT)}

# the same without a crate: column.dat (None: missing), standard input, standard output
MORE = {
    # 1: the length of column.dat in bytes, whatever else is wrong
    "no column.dat": (None, b"", "refused 1 0\n"),
    "empty column.dat": (b"", FILE, "refused 1 0\n"),
    "column.dat cut short": (SHEET[:501], FILE, "refused 1 501\n"),
    "one byte of column.dat too many": (SHEET + b"\0", FILE, "refused 1 503\n"),
    "column.dat longer than any buffer": (SHEET + bytes(4498), FILE, "refused 1 5000\n"),
    "column.dat of megabytes": (bytes(3000001), FILE, "refused 1 3000001\n"),
    # 2: entry 250 may be 117 and not 116; it comes before 6
    "last entry 116": (packed(T[:250] + [116]), b"", "refused 2 250\n"),
    # 3: the strength of the ground is from 10 on
    "strength 9": (SHEET, job(field24=9), "refused 3 24\n"),
    "25 numbers of five bytes": (SHEET, LONGEST, "refused 3 1\n"),
    # 4: five working layers of four boarded ones
    "five working layers of four": (SHEET, job(field10=5), "refused 4 10\n"),
    # 5: a single row on a wall of 180 mm
    "single row on a thin wall": (SHEET, job(field1=2, field7=2400, field20=180), "refused 5 20\n"),
    # 6: the last number, of two bytes at offset 36, is cut off
    "job file cut off": (SHEET, FILE[:-1], "refused 6 36\n"),
    "no standard input": (SHEET, b"", "refused 6 0\n"),
    # 7: thousands of bytes after 25 numbers
    "one byte after job J": (SHEET, FILE + b"\0", "refused 7 38\n"),
    "far more than 25 numbers": (SHEET, LONGEST + bytes(5000), "refused 7 125\n"),
    # a first number of 3: 13 numbers, and a report without heights
    "a support": (SHEET, SUPPORT_FILE, S_REPORT),
    "a support under a sheet cut short": (SHEET[:501], SUPPORT_FILE, "refused 1 501\n"),
    # its number 4, the overhang, is up to 100
    "overhang 101": (SHEET, support(number4=101), "refused 3 4\n"),
    # its last number, of two bytes at offset 19, is cut off
    "a support cut off": (SHEET, SUPPORT_FILE[:-1], "refused 6 19\n"),
    "one byte after a support": (SHEET, SUPPORT_FILE + b"\0", "refused 7 21\n"),
    "far more than 13 numbers": (SHEET, SUPPORT_FILE + bytes(5000), "refused 7 21\n"),
    # job J after a first number of 3: its first 13 numbers have 18 bytes
    "25 numbers that begin with 3": (SHEET, job(field1=3), "refused 7 18\n"),
    # any other first number makes 25 numbers, of which 12 are missing
    "13 numbers that begin with 4": (SHEET, support(number1=4), "refused 6 21\n"),
}
