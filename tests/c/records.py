"""Command lines for the records of a load cell, with what is due: words, exit status, standard output, and standard error whole.

Records are bytes written by hand: kind 1 push, 2 pull, 3 silence, three zero bytes, and newtons as a single, low byte first, of
which 5 is 0000A040, 90 is 0000B442 and 100000 is 0050C347. What a picture shows is worked out here, in exact fractions.
"""
import fractions
import math
import struct

HELP = "; --help shows what may be given"
W = "rembilung: w, the number of records that a greatest push is taken over, is "
BEFORE = "rembilung: w, which stands before the file: "
RANGE = "; it may be 1 to 500"
MISSING = "No such file or directory"
NEWTONS = "; they may be 0 to 100000"
HEAD = "record,kind,newtons,maximum\n"

PUSH_5, PULL_90, SILENCE = "010000000000A040", "020000000000B442", "0300000000000000"
PUSH_MOST = "010000000050C347"
DAY = [PUSH_5, PULL_90, SILENCE, "0100000000005040", "010000000000003F", "0100000000000080", "010000000000E040", SILENCE, SILENCE,
       "0100000001000000", "01000000FF4FC347", "02000000CDCCCC3D"]
# What each of them is in a table.
DAY_KEYED = ["push,5", "pull,90", "silent,0", "push,3.25", "push,0.5", "push,-0", "push,7", "silent,0", "silent,0", "push,1.4013e-45",
             "push,99999.99", "pull,0.1"]
DAY_BY_1 = [5, 0, 0, 4, 1, 0, 7, 0, 0, 1, 100000, 0]
DAY_BY_2 = [5, 5, 0, 4, 4, 1, 7, 7, 0, 1, 100000, 100000]
DAY_BY_3 = [5, 5, 5, 4, 4, 4, 7, 7, 7, 1, 100000, 100000]
DAY_BY_500 = [5] * 6 + [7] * 4 + [100000] * 2
LONG = [PUSH_MOST] + [SILENCE] * 7999


def run_of(*records):
    return bytes.fromhex("".join(records))


FILES = {
    "day.cells": run_of(*DAY),
    "silent.cells": run_of(*[SILENCE] * 3),
    "long.cells": run_of(*LONG),
    "7-bytes.cells": run_of(PUSH_5)[:7],
    "15-bytes.cells": run_of(PUSH_5, "0900000000000000")[:15],
    "64001-bytes.cells": run_of(*LONG, "01"),
    "8001.cells": run_of("0900000000000000", *LONG),
    "kind-0.cells": run_of("0000000000000000"),
    "kind-4.cells": run_of(PUSH_5, "04FF0000FFFFFFFF", "0000000000000000"),
    "120.cells": run_of(*DAY * 10),
    "zero-byte-1.cells": run_of("0180000000000000"),
    "zero-byte-2.cells": run_of(PUSH_5, SILENCE, "0300010000000080"),
    "zero-byte-3.cells": run_of(PULL_90, "02000001000000FF"),
    "silence.cells": run_of("0300000000000080"),
    "above.cells": run_of("020000000150C347"),
    "far-above.cells": run_of("01000000FFFF7F7F"),
    "negative.cells": run_of("01000000000080BF"),
    "least-negative.cells": run_of("0200000001000080"),
    "infinity.cells": run_of("010000000000807F"),
    "minus-infinity.cells": run_of("02000000000080FF"),
    "no-number.cells": run_of("010000000000C07F"),
    "no-number-signed.cells": run_of("02000000010080FF"),
    "last-bad.cells": run_of(*LONG[:-1], "030000000000803F"),
}


def lines_of(numbers):
    return "".join(f"{number}\n" for number in numbers)


def table_of(keyed, numbers):
    return HEAD + "".join(f"{k},{words},{number}\n" for k, (words, number) in enumerate(zip(keyed, numbers)))


def table_faults(text, data, numbers):
    """What differs from a table of these records and numbers; newtons have to read back as the bits that were logged."""
    rows = [line.split(",") for line in text.removeprefix(HEAD).splitlines()]
    kinds = ["", "push", "pull", "silent"]
    due = [[str(k), kinds[data[8 * k]], data[8 * k + 4:8 * k + 8], str(number)] for k, number in enumerate(numbers)]
    found = [[place, kind, struct.pack("<f", float(newtons)), number] for place, kind, newtons, number in rows]
    wrong = [f"the table has {row!r}, and {known!r} is due" for row, known in zip(found, due) if row != known]
    return wrong[:3] + ([] if text.startswith(HEAD) and len(found) == len(due) else [f"the table has {len(found)} rows"])


def bar(push, longest):
    return " " + "#" * math.ceil(fractions.Fraction(50 * push, longest)) if push else ""


def push_of(record):
    """What a record counts as."""
    return math.ceil(fractions.Fraction(struct.unpack("<f", record[4:])[0])) if record[0] == 1 else 0


def picture_of(data, w):
    """Standard output of a picture of records that stand."""
    each = [push_of(data[k:k + 8]) for k in range(0, len(data), 8)]
    of_line = next(times * w for times in range(1, 8001) if 60 * times * w >= len(each))
    parts = [each[k:k + of_line] for k in range(0, len(each), of_line)]
    longest, rows = max(each, default=0), []
    for k, part in enumerate(parts):
        first, last = k * of_line, k * of_line + len(part) - 1
        rows.append(f"{first:4} to {last:4} {max(part):6}{bar(max(part), longest)}\n")
    return f"records: {len(each)}, records of a line: {of_line}, longest bar: {longest} N\n" + "".join(rows)


DAY_PICTURE = """\
records: 12, records of a line: 5, longest bar: 100000 N
   0 to    4      5 #
   5 to    9      7 #
  10 to   11 100000 ##################################################
"""
LONG_PICTURE = "records: 8000, records of a line: 400, longest bar: 100000 N\n   0 to  399 100000 " + "#" * 50 + "\n" + "".join(
    f"{first:4} to {first + 399:4}      0\n" for first in range(400, 8000, 400))

ANSWERED = [
    (["1", "day.cells"], lines_of(DAY_BY_1)),
    (["2", "day.cells"], lines_of(DAY_BY_2)),
    (["3", "day.cells"], lines_of(DAY_BY_3)),
    (["0003", "day.cells"], lines_of(DAY_BY_3)),
    (["500", "day.cells"], lines_of(DAY_BY_500)),
    (["12", "day.cells"], lines_of(DAY_BY_500)),
    (["1", "empty"], ""),
    (["500", "silent.cells"], "0\n0\n0\n"),
    (["500", "long.cells"], "100000\n" * 500 + "0\n" * 7500),
    (["499", "long.cells"], "100000\n" * 499 + "0\n" * 7501),
    (["--csv", "1", "day.cells"], table_of(DAY_KEYED, DAY_BY_1)),
    (["--csv", "2", "day.cells"], table_of(DAY_KEYED, DAY_BY_2)),
    (["--csv", "--csv", "500", "day.cells"], table_of(DAY_KEYED, DAY_BY_500)),
    (["--csv", "1", "empty"], HEAD),
    (["--csv", "2", "long.cells"], table_of(["push,100000"] + ["silent,0"] * 7999, [100000] * 2 + [0] * 7998)),
    (["--picture", "5", "day.cells"], DAY_PICTURE),
    (["--picture", "1", "day.cells"], picture_of(FILES["day.cells"], 1)),
    (["--picture", "500", "day.cells"], f"records: 12, records of a line: 500, longest bar: 100000 N\n   0 to   11 100000 {'#' * 50}\n"),
    (["--picture", "4", "silent.cells"], "records: 3, records of a line: 4, longest bar: 0 N\n   0 to    2      0\n"),
    (["--picture", "7", "empty"], "records: 0, records of a line: 7, longest bar: 0 N\n"),
    (["--picture", "400", "long.cells"], LONG_PICTURE),
    # Where 60 lines of w records are too few, the least multiple of w.
    (["--picture", "200", "long.cells"], picture_of(FILES["long.cells"], 200)),
    (["--picture", "100", "long.cells"], picture_of(FILES["long.cells"], 200)),
    (["--picture", "1", "long.cells"], picture_of(FILES["long.cells"], 134)),
    (["--picture", "133", "long.cells"], picture_of(FILES["long.cells"], 266)),
    (["--picture", "1", "120.cells"], picture_of(FILES["120.cells"], 2)),
    (["--picture", "2", "120.cells"], picture_of(FILES["120.cells"], 2)),
    (["--picture", "3", "120.cells"], picture_of(FILES["120.cells"], 3)),
    (["--picture", "500", "long.cells"], picture_of(FILES["long.cells"], 500)),
]


def bad(place, what, shown):
    bytes_shown = " ".join(shown[k:k + 2] for k in range(0, 16, 2))
    return (f"rembilung: record {place}, counting from 0 (bytes {8 * place} to {8 * place + 7}), cannot stand: its bytes are "
            f"{bytes_shown} (hexadecimal); {what}")


def kind(number):
    return f"kind {number} is none of 1 (push), 2 (pull) and 3 (silence)"


def length(number, whole, after=0):
    rest = f", bytes after the last: {after}" if after else ""
    return (f"rembilung: the load cell's records have {number} bytes, whole records of 8 bytes: {whole}{rest}; "
            "a run has whole records alone, at most 8000")


IN_SILENCE = "the four bytes of newtons have to be zero in silence"
AFTER_KIND = "the three bytes after its kind have to be zero"
REFUSED = [
    (["0", "day.cells"], "13 0", f"{W}0{RANGE}"),
    (["501", "day.cells"], "13 501", f"{W}501{RANGE}"),
    (["4294967295", "day.cells"], "13 4294967295", f"{W}4294967295{RANGE}"),
    (["--csv", "0", "empty"], "13 0", f"{W}0{RANGE}"),
    (["--picture", "501", "empty"], "13 501", f"{W}501{RANGE}"),
    (["0", "15-bytes.cells"], "13 0", f"{W}0{RANGE}"),
    (["0", "8001.cells"], "13 0", f"{W}0{RANGE}"),
    (["1", "7-bytes.cells"], "15 7", length(7, 0, 7)),
    (["1", "15-bytes.cells"], "15 15", length(15, 1, 7)),
    (["1", "64001-bytes.cells"], "15 64001", length(64001, 8000, 1)),
    (["1", "8001.cells"], "15 64008", length(64008, 8001)),
    (["500", "most"], "15 1048576", length(1048576, 131072)),
    (["--picture", "1", "8001.cells"], "15 64008", length(64008, 8001)),
    (["1", "kind-0.cells"], "14 0", bad(0, kind(0), "0000000000000000")),
    (["1", "kind-4.cells"], "14 1", bad(1, kind(4), "04FF0000FFFFFFFF")),
    (["--csv", "1", "kind-4.cells"], "14 1", bad(1, kind(4), "04FF0000FFFFFFFF")),
    (["--picture", "9", "kind-4.cells"], "14 1", bad(1, kind(4), "04FF0000FFFFFFFF")),
    (["3", "zero-byte-1.cells"], "14 0", bad(0, AFTER_KIND, "0180000000000000")),
    (["3", "zero-byte-2.cells"], "14 2", bad(2, AFTER_KIND, "0300010000000080")),
    (["3", "zero-byte-3.cells"], "14 1", bad(1, AFTER_KIND, "02000001000000FF")),
    (["3", "silence.cells"], "14 0", bad(0, IN_SILENCE, "0300000000000080")),
    (["3", "last-bad.cells"], "14 7999", bad(7999, IN_SILENCE, "030000000000803F")),
    (["3", "above.cells"], "14 0", bad(0, f"its newtons are 100000.01{NEWTONS}", "020000000150C347")),
    (["3", "far-above.cells"], "14 0", bad(0, f"its newtons are 3.4028235e+38{NEWTONS}", "01000000FFFF7F7F")),
    (["3", "negative.cells"], "14 0", bad(0, f"its newtons are -1{NEWTONS}", "01000000000080BF")),
    (["3", "least-negative.cells"], "14 0", bad(0, f"its newtons are -1.4013e-45{NEWTONS}", "0200000001000080")),
    (["3", "infinity.cells"], "14 0", bad(0, f"its newtons are infinity{NEWTONS}", "010000000000807F")),
    (["3", "minus-infinity.cells"], "14 0", bad(0, f"its newtons are minus infinity{NEWTONS}", "02000000000080FF")),
    (["3", "no-number.cells"], "14 0", bad(0, f"its newtons are no number{NEWTONS}", "010000000000C07F")),
    (["3", "no-number-signed.cells"], "14 0", bad(0, f"its newtons are no number{NEWTONS}", "02000000010080FF")),
    # A column sheet and a job file are none, nor is a text.
    (["1", "t.dat"], "15 502", length(502, 62, 6)),
    (["1", "j.job"], "15 38", length(38, 4, 6)),
]

NAMED = f"rembilung: w and a file of records has to be named after 'cells'{HELP}"
TOO_MANY = "rembilung: there is a word too many (options stand before the files): "
UNUSABLE = [
    ([], NAMED),
    (["1"], NAMED),
    (["day.cells"], NAMED),
    (["--csv"], NAMED),
    (["1", "day.cells", "day.cells"], f"{TOO_MANY}'day.cells'{HELP}"),
    (["1", "day.cells", "--csv"], f"{TOO_MANY}'--csv'{HELP}"),
    (["--csv", "--picture", "1", "day.cells"], f"rembilung: --csv is not given with '--picture'{HELP}"),
    (["--picture", "--csv", "1", "day.cells"], f"rembilung: --csv is not given with '--picture'{HELP}"),
    (["--sheet", "t.dat", "1", "day.cells"], f"rembilung: there is no option '--sheet'{HELP}"),
    (["--w", "1", "day.cells"], f"rembilung: there is no option '--w'{HELP}"),
    (["--out"], f"rembilung: a file has to be named after '--out'{HELP}"),
    (["--out", "a", "--out", "b", "1", "day.cells"], f"rembilung: given twice: '--out'{HELP}"),
    (["day.cells", "1"], f"{BEFORE}'day.cells' is not a whole number{RANGE}"),
    (["", "day.cells"], f"{BEFORE}'' is not a whole number{RANGE}"),
    (["-1", "day.cells"], f"{BEFORE}'-1' is not a whole number{RANGE}"),
    (["+1", "day.cells"], f"{BEFORE}'+1' is not a whole number{RANGE}"),
    (["1.0", "day.cells"], f"{BEFORE}'1.0' is not a whole number{RANGE}"),
    (["0x1", "day.cells"], f"{BEFORE}'0x1' is not a whole number{RANGE}"),
    ([" 1", "day.cells"], f"{BEFORE}' 1' is not a whole number{RANGE}"),
    (["1\n", "day.cells"], f"{BEFORE}'1\\x0A' is not a whole number{RANGE}"),
    (["4294967296", "day.cells"], f"{BEFORE}'4294967296' is too great{RANGE}"),
    (["4294967297", "day.cells"], f"{BEFORE}'4294967297' is too great{RANGE}"),
    (["9" * 60, "no.cells"], f"{BEFORE}'{'9' * 40}...' is too great{RANGE}"),
    (["1", "no.cells"], f"rembilung: cannot read 'no.cells': {MISSING}"),
    (["0", "no.cells"], f"rembilung: cannot read 'no.cells': {MISSING}"),
    (["1", ""], f"rembilung: cannot read '': {MISSING}"),
    (["1", "-"], f"rembilung: cannot read '-': {MISSING}"),
    (["1", "."], "rembilung: cannot read '.': Is a directory"),
    (["1", "day.cells/1"], "rembilung: cannot read 'day.cells/1': Not a directory"),
    (["1", "vast"], "rembilung: 'vast' has more than 1048576 bytes, and 8000 records of a load cell have 64000"),
    (["501", "vast"], "rembilung: 'vast' has more than 1048576 bytes, and 8000 records of a load cell have 64000"),
    (["1", "/dev/zero"], "rembilung: '/dev/zero' has more than 1048576 bytes, and 8000 records of a load cell have 64000"),
    (["--out", "no-such/x", "1", "day.cells"], f"rembilung: cannot write 'no-such/x': {MISSING}"),
    (["--out", "there.job", "1", "day.cells"], "rembilung: cannot write 'there.job': File exists"),
    (["--out", "day.cells", "--csv", "1", "day.cells"], "rembilung: cannot write 'day.cells': File exists"),
]


def lines():
    """Every line of these tables: the words after the name of the command, status, standard output and standard error."""
    rows = [(words, 0, out, "") for words, out in ANSWERED]
    rows += [(words, 1, f"refused {due}\n", said + "\n") for words, due, said in REFUSED]
    return rows + [(words, 2, "", said + "\n") for words, said in UNUSABLE]
