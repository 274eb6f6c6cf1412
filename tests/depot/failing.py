"""Books and tables whose first failing row is asked for, and what is due for each, by hand from the papers and docs/DEPOTS.md.

Under sheet T, J of tables.py fails check 11 alone, PASS and AS_PERMITTED fail none, HIGHER fails 12 alone, SHIELDED 11 alone,
and SINGLE seven. Under sheet C, which is weaker at J's slenderness, 7 fails of J too: it does not stand at its own height, so 12
fails.
"""
import books
import sheets
import tables
from tables import AS_PERMITTED, HEAD, HIGHER, J, J_BACK, PASS, SHIELDED, SINGLE, lines, name_note, other_note, with_cell

NAMES = {3: "ledger moment", 5: "slip at the coupler", 7: "pole stability without wind", 8: "pole stability with wind",
         10: "pole force against 40000 N", 11: "pole force against what the ground under the pad bears",
         12: "height against the permitted height"}
SINGLE_FAILS = [3, 5, 7, 8, 10, 11, 12]
SEVEN = "checks 3, 5, 7, 8, 10, 11 and 12"
NOT_AFTER = {0: "", 1: "; the row after it was not judged", 2: "; the 2 rows after it were not judged",
             3: "; the 3 rows after it were not judged", 199: "; the 199 rows after it were not judged"}

# Rows, the first that fails (None: none does), its place in words, the checks that fail, and the same in words.
FOUND = [
    ("J", [J], 0, "the 1st of 1 row", [11], "check 11"),
    ("J, half closed", [SHIELDED], 0, "the 1st of 1 row", [11], "check 11"),
    ("a centimetre higher than permitted", [HIGHER], 0, "the 1st of 1 row", [12], "check 12"),
    ("seven checks", [SINGLE], 0, "the 1st of 1 row", SINGLE_FAILS, SEVEN),
    ("a row that passes", [PASS], None, "", [], ""),
    ("two rows that pass", [PASS, AS_PERMITTED], None, "", [], ""),
    ("as high as permitted, and a centimetre higher", [AS_PERMITTED, HIGHER], 1, "the 2nd of 2 rows", [12], "check 12"),
    ("the first of two that fail, of other checks", [PASS, HIGHER, J], 1, "the 2nd of 3 rows", [12], "check 12"),
    ("the same, the other first", [PASS, J, HIGHER], 1, "the 2nd of 3 rows", [11], "check 11"),
    ("one that passes between two that fail", [J, PASS, J], 0, "the 1st of 3 rows", [11], "check 11"),
    ("seven checks behind two that pass", [PASS, AS_PERMITTED, SINGLE, J, PASS, SINGLE], 2, "the 3rd of 6 rows", SINGLE_FAILS,
     SEVEN),
    ("200 rows that pass", [PASS] * 200, None, "", [], ""),
    ("the first of 200", [J] + [PASS] * 199, 0, "the 1st of 200 rows", [11], "check 11"),
    ("the last of 200", [PASS] * 199 + [J], 199, "the 200th of 200 rows", [11], "check 11"),
    ("200 that fail", [J] * 200, 0, "the 1st of 200 rows", [11], "check 11"),
    *[(f"row {place}", [PASS] * place + [J], place, f"the {nth} of {place + 1} rows", [11], "check 11")
      for place, nth in ((3, "4th"), (8, "9th"), (9, "10th"), (10, "11th"), (11, "12th"), (12, "13th"), (13, "14th"),
                         (20, "21st"), (21, "22nd"), (22, "23rd"), (99, "100th"), (100, "101st"), (110, "111th"),
                         (111, "112th"), (112, "113th"), (120, "121st"))],
]


def book(rows):
    return books.book_of([list(map(int, row.split(","))) for row in rows])


def printed(place, rows, checks):
    """Standard output."""
    if place is None:
        return f"row none\njudged {rows}\n"
    return f"row {place}\njudged {place + 1}\n" + "".join(f"{check} {NAMES[check]}\n" for check in checks)


def said(where, place, rows, nth, words):
    """The sentence on standard error; where is how it names the row."""
    if place is None:
        return [f"rembilung: no row fails a check; rows judged: {rows}"]
    return [f"rembilung: {where} counting from 0, {nth}, fails {words}{NOT_AFTER[rows - place - 1]}"]


def of_book(rows, place, nth, checks, words):
    """What is due of a book of these rows: standard output and standard error."""
    return printed(place, len(rows), checks), said(f"row {place} of the book", place, len(rows), nth, words)


def of_table(rows, place, nth, checks, words, before):
    """The same of a table that has so many rows before them."""
    where = f"row {place + before + 1} of the table, row {place}" if place is not None else ""
    return printed(place, len(rows), checks), said(where, place, len(rows), nth, words)


# Books of no rows.
EMPTY = [
    ("a file of no bytes", b"", ["rembilung: the book has no bytes: an empty season, of which no row fails and none was judged"]),
    ("no rows", books.NONE, ["rembilung: the book has no rows: an empty season, of which no row fails and none was judged"]),
]
NO_TABLE_ROWS = ["rembilung: the table has no rows: an empty season, of which no row fails and none was judged"]


def second(name, row, after, nth="the 2nd of 3 rows"):
    """What is said of J as row 1 of the book; the name stands in quotes, and is empty where there is none."""
    return [f"rembilung: row {row} of the table, {name + ', ' if name else ''}row 1 counting from 0, {nth}, fails check 11"
            f"{NOT_AFTER[after]}"]


def named(name, shown):
    """A table in which J has a name, and what is due."""
    table = "facade," + HEAD + "\n" + "a," + PASS + "\n" + name + "," + J + "\nb," + J + "\n"
    return table, printed(1, 3, [11]), [name_note("A", "facade")] + second(shown, 3, 1)


BACK = ",".join(reversed(tables.FIELDS))
PASS_BACK = ",".join(reversed(PASS.split(",")))
# Tables in all forms, with standard output and standard error.
TABLES = [
    ("names alone", lines(HEAD), "row none\njudged 0\n", NO_TABLE_ROWS),
    ("names alone, and blank rows", lines("", HEAD, "", ","), "row none\njudged 0\n",
     NO_TABLE_ROWS + ["rembilung: blank rows passed over: 3"]),
    ("a name", *named("North", "'North'")),
    ("no name", *named("", "")),
    ("a name of spaces", *named("  ", "'  '")),
    ("a name with a comma and quotes", *named('"a, ""b"""', "'a, \"b\"'")),
    ("a name in UTF-8", *named("Süd 漢字 😀", "'Süd 漢字 😀'")),
    ("a name with controls", *named("a\x1b[31m\x7f", r"'a\x1B[31m\x7F'")),
    ("a name that is no UTF-8", *named("S\udcfcd", r"'S\xFCd'")),
    ("a name of 40 bytes", *named("n" * 40, f"'{'n' * 40}'")),
    ("a name of 41 bytes", *named("n" * 41, f"'{'n' * 40}...'")),
    ("a name of 60000 bytes", *named("n" * 60000, f"'{'n' * 40}...'")),
    ("a name that ends with a character of four bytes", *named("n" * 39 + "😀", f"'{'n' * 39}😀'")),
    ("a name that goes on after it", *named("n" * 39 + "😀n", f"'{'n' * 39}😀...'")),
    ("a name cut inside it", *named("n" * 39 + "\udcf0\udc9f\udc98", f"'{'n' * 39}\\xF0...'")),
    ("a name at the end, and another column", lines(HEAD + ",who,notes", PASS + ",a,x", J + ",b,y"), printed(1, 2, [11]),
     [name_note("Z", "who"), other_note("AA", "notes")] + second("'b'", 3, 0, "the 2nd of 2 rows")),
    ("a name of two lines, and blank rows",
     lines("facade," + HEAD, "", '"No\nrth",' + PASS, "," * 25, '"So\r\nuth",' + J, "", "x," + J),
     printed(1, 3, [11]), [name_note("A", "facade")] + second(r"'So\x0D\x0Auth'", 5, 1)
     + ["rembilung: blank rows passed over: 3", "rembilung: rows with a line end inside a cell: 2, the first is row 3"]),
    ("columns without a name", lines("," + HEAD + ",,", "7," + PASS + ",,8", "7," + J + ",,8"), printed(1, 2, [11]),
     second("", 3, 0, "the 2nd of 2 rows")),
    ("the table of a book", lines(books.TABLE_HEAD, "0," + PASS, "1," + J, "2," + J), printed(1, 3, [11]),
     [name_note("A", "book row")] + second("'1'", 3, 1)),
    ("columns backwards", lines(BACK, PASS_BACK, J_BACK), printed(1, 2, [11]), second("", 3, 0, "the 2nd of 2 rows")),
    ("semicolons and CRLF", lines(HEAD, PASS, J, J).replace(",", ";").replace("\n", "\r\n"), printed(1, 3, [11]),
     ["rembilung: cells are separated by semicolons"] + second("", 3, 1)),
    ("tabs, no names, no last line end", (PASS + "\n" + J).replace(",", "\t"), printed(1, 2, [11]),
     ["rembilung: cells are separated by tabs"] + second("", 2, 0, "the 2nd of 2 rows")),
    ("a byte order mark", b"\xef\xbb\xbf" + lines(HEAD, PASS, J, J).encode(), printed(1, 3, [11]), second("", 3, 1)),
    ("leading zeros", lines(HEAD, PASS, with_cell(5, "000180"), J), printed(1, 3, [11]), second("", 3, 1)),
]

# Tables that are refused though their first row fails: standard output and standard error.
TABLES_REFUSED = books.REFUSED + [
    ("a bay of 59 behind", lines(HEAD, J, PASS, with_cell(4, "59")),
     books.row_refused(4, 2, "column D: number 4, bay, is 59; it may be 60 to 200 cm")),
    ("a bay of 59 behind, with names", lines("facade," + HEAD, "a," + J, "b," + with_cell(4, "59")),
     ("refused 11 1\n", [name_note("A", "facade")]
      + books.row_refused(3, 1, "column E: number 4, bay, is 59; it may be 60 to 200 cm")[1])),
    ("more working than boarded layers behind", lines(HEAD, J, with_cell(10, "5")),
     books.row_refused(3, 1, "column J: number 10, working layers, is greater than number 9, boarded layers")),
    ("a thin wall behind", lines(HEAD, J, with_cell(20, "180", SINGLE)),
     books.row_refused(3, 1, "column T: number 20, wall thickness: a single row needs a wall of more than 180 mm")),
    ("a support behind", lines(J, with_cell(1, "3")), books.row_refused(2, 1, "column A: " + books.THREE)),
]

# Books that are refused though their first row fails.
BOOKS_REFUSED = books.DAMAGED + [
    ("a bay of 59 behind", book([J, PASS, with_cell(4, "59")]), books.row_is(2, "number 4, bay, is 59; it may be 60 to 200 cm")),
    ("the last of 200 behind", book([J] * 199 + [with_cell(25, "99")]),
     books.row_is(199, "number 25, pad area, is 99; it may be 100 to 10000 cm2")),
    ("two bad rows behind", book([J, with_cell(25, "99"), with_cell(1, "0")]),
     books.row_is(1, "number 25, pad area, is 99; it may be 100 to 10000 cm2")),
    ("a support behind", book([J, with_cell(1, "3")]), books.row_is(1, books.THREE)),
    ("a byte too many behind", book([J, PASS]) + b"\0", books.goes_on(len(book([J, PASS])))),
    ("the last number damaged", book([J, PASS])[:-1] + b"\x80", books.damaged(len(book([J, PASS])) - 2)),
]

# The sheet goes before all the rest: standard output and standard error.
SHEETS_REFUSED = [
    ("short.dat", "refused 1 500\n", ["rembilung: the column sheet has 500 bytes, and a column sheet has 502"]),
    ("zero.dat", "refused 2 3\n", [f"rembilung: the column sheet is damaged at entry 3 (bytes 6 and 7): {sheets.RULE}"]),
    ("low.dat", "refused 2 250\n", [f"rembilung: the column sheet is damaged at entry 250 (bytes 500 and 501): {sheets.RULE}"]),
    ("j.csv", f"refused 1 {len(lines(HEAD, J))}\n",
     [f"rembilung: the column sheet has {len(lines(HEAD, J))} bytes, and a column sheet has 502"]),
]
