"""Command lines for the first failing row of a book, or of a table, with what is due: words, exit status, standard output, and
standard error whole.

By the papers J fails check 11 alone under sheet T, and passes it with 201 kPa; with 208 kPa it passes as high as 3173 cm, and
fails check 12 alone a centimetre higher.
"""
import given
from jobs import J, SINGLE, changed

HELP = "; --help shows what may be given"
RULE = "an entry is 1 to 1000 and no greater than the one before it, and entry 250 is at least 117"
EXAMPLE = ("rembilung: judged under the example sheet C; before it counts, compare it with the printed code, or name a sheet "
           "with --sheet\n")
SHORTEST = "not in its shortest form or above 4294967295"
BAY = "number 4, bay, is 59; it may be 60 to 200 cm"
GROUND = "11 pole force against what the ground under the pad bears\n"
HEIGHT = "12 height against the permitted height\n"
T, TABLE = ["--sheet", "t.dat"], ["--sheet", "t.dat", "--table"]
PASS, TALL = changed(J, f24=201), changed(J, f7=3174, f24=208)


def book_of(*rows):
    """The book of rows, column by column."""
    return given.groups(len(rows)) + b"".join(given.groups(int(number)) for column in zip(*rows) for number in column)


def table_of(*rows):
    return "".join(",".join(row) + "\n" for row in rows).encode("ascii")


NAMES = ["family", "tube", "pole spacing across", "bay", "step", "tie interval", "height", "boards", "boarded layers",
         "working layers", "greatest live load on one layer", "live load summed over layers", "nets per pole",
         "structure weight per pole", "basic wind", "height factor", "enclosure", "shield", "wall behind", "wall thickness",
         "wall make", "tie capacity", "soil", "ground strength", "pad area"]
ROWS = [PASS, changed(J), PASS, TALL]
BAD_BEHIND = [changed(J), PASS, changed(J, f4=59)]

FILES = {
    "rows.book": book_of(*ROWS),
    "pass.book": book_of(PASS, PASS),
    "tall.book": book_of(PASS, TALL),
    "none.book": b"\0",
    "201.book": b"\xc9\x01",
    "count.book": b"\x80\x00",
    "cut.book": book_of(*ROWS)[:-1],
    "on.book": book_of(*ROWS) + b"\0",
    "bad.book": book_of(*BAD_BEHIND),
    "support.book": book_of(changed(J), changed(J, f1=3)),
    "wall.book": book_of(changed(J), changed(SINGLE, f20=180)),
    "rows.csv": table_of(["facade"] + NAMES, *[[name] + row for name, row in zip(["a", "b", "c", "d"], ROWS)]),
    "pass.csv": table_of(PASS, PASS),
    "names.csv": table_of(NAMES),
    "201.csv": table_of(*[changed(J)] * 201),
    "bad.csv": table_of(*BAD_BEHIND),
    "word.csv": table_of(changed(J), changed(J, f4="x"), changed(J, f25="")),
}
FACADE = "rembilung: column A, 'facade', is no number of a job and is carried into the answers as the name\n"
SECOND = "counting from 0, the 2nd of 4 rows, fails check 11; the 2 rows after it were not judged\n"


def no_rows(what, of):
    return f"rembilung: the {what} has no {of}: an empty season, of which no row fails and none was judged\n"


ANSWERED = [
    ([*T, "rows.book"], f"row 1\njudged 2\n{GROUND}", f"rembilung: row 1 of the book {SECOND}"),
    ([*TABLE, "rows.csv"], f"row 1\njudged 2\n{GROUND}", f"{FACADE}rembilung: row 3 of the table, 'b', row 1 {SECOND}"),
    (["--table", "rows.csv", *T], f"row 1\njudged 2\n{GROUND}", f"{FACADE}rembilung: row 3 of the table, 'b', row 1 {SECOND}"),
    ([*T, "tall.book"], f"row 1\njudged 2\n{HEIGHT}",
     "rembilung: row 1 of the book counting from 0, the 2nd of 2 rows, fails check 12\n"),
    ([*T, "pass.book"], "row none\njudged 2\n", "rembilung: no row fails a check; rows judged: 2\n"),
    ([*TABLE, "pass.csv"], "row none\njudged 2\n", "rembilung: no row fails a check; rows judged: 2\n"),
    ([*T, "none.book"], "row none\njudged 0\n", no_rows("book", "rows")),
    ([*T, "empty"], "row none\njudged 0\n", no_rows("book", "bytes")),
    ([*TABLE, "names.csv"], "row none\njudged 0\n", no_rows("table", "rows")),
    (["none.book"], "row none\njudged 0\n", EXAMPLE + no_rows("book", "rows")),
    (["--table", "names.csv"], "row none\njudged 0\n", EXAMPLE + no_rows("table", "rows")),
]

WHOLE = len(FILES["rows.book"])
IN_ROW = "row {} of the book, counting from 0, cannot stand: {}"
IN_TABLE = "row {} of the table, row {} of the book counting from 0, cannot stand: {}"
REFUSED = [
    ([*T, "count.book"], "9 0", f"the book is damaged at offset 0: the number of its rows is cut off, {SHORTEST}"),
    ([*T, "cut.book"], f"9 {WHOLE - 2}",
     f"the book is damaged at offset {WHOLE - 2}: the number there is missing, cut off, {SHORTEST}"),
    ([*T, "on.book"], f"9 {WHOLE}", f"the book goes on after its last number, from offset {WHOLE}"),
    ([*T, "most"], "9 1", "the book goes on after its last number, from offset 1"),
    ([*T, "201.book"], "10 201", "the book has 201 rows, and a book has at most 200"),
    ([*TABLE, "201.csv"], "10 201",
     "the table has 201 rows, and a book has at most 200: row 201 of the table is the first too many"),
    ([*T, "bad.book"], "11 2", IN_ROW.format(2, BAY)),
    ([*TABLE, "bad.csv"], "11 2", IN_TABLE.format(3, 2, f"column D: {BAY}")),
    ([*T, "support.book"], "11 1",
     IN_ROW.format(1, "number 1, family, is 3; it may be 1 (double row) or 2 (single row); 3 marks a formwork support, and only "
                   "scaffold jobs go into a book")),
    ([*T, "wall.book"], "11 1", IN_ROW.format(1, "number 20, wall thickness: a single row needs a wall of more than 180 mm")),
    ([*T, "pass.csv"], f"9 {len(FILES['pass.csv'])}",
     f"the book is damaged at offset {len(FILES['pass.csv'])}: the number there is missing, cut off, {SHORTEST}; the file may be a "
     "table, which is named after --table"),
    (["--sheet", "short.dat", "rows.book"], "1 500", "the column sheet has 500 bytes, and a column sheet has 502"),
    (["--sheet", "odd.dat", "--table", "word.csv"], "1 503", "the column sheet has 503 bytes, and a column sheet has 502"),
    (["--sheet", "empty", "count.book"], "1 0", "the column sheet has 0 bytes, and a column sheet has 502"),
    (["--sheet", "zero.dat", "no.book"], "2 3", f"the column sheet is damaged at entry 3 (bytes 6 and 7): {RULE}"),
    (["--sheet", "low.dat", "--table", "201.csv"], "2 250",
     f"the column sheet is damaged at entry 250 (bytes 500 and 501): {RULE}"),
]

NAMED = f"rembilung: a book, or --table and a table, has to be named after 'first-failing'{HELP}"
TOO_MANY = "rembilung: there is a word too many (options stand before the files): "
MISSING = "No such file or directory"
WORD = ("rembilung: row 2, unreadable: column D, bay: 'x' is not a whole number; it may be 60 to 200 cm; digits alone are read, "
        "no thousands separator, decimals, sign or unit\n"
        "rembilung: row 3, unreadable: column Y, pad area: the cell is empty; it may be 100 to 10000 cm2\n"
        "rembilung: rows that cannot be read: 2; no row was judged")
ZERO_BYTE = "rembilung: row 1, damaged: column A: a zero byte stands in the row; export the table as CSV in UTF-8\n"
UNUSABLE = [
    ([], NAMED),
    (T, NAMED),
    (["rows.book", "rows.book"], f"{TOO_MANY}'rows.book'{HELP}"),
    (["rows.book", *T], f"{TOO_MANY}'--sheet'{HELP}"),
    ([*TABLE, "rows.csv", "rows.book"], f"{TOO_MANY}'rows.book'{HELP}"),
    (changed(J), f"{TOO_MANY}'1'{HELP}"),
    (["--table"], f"rembilung: a file has to be named after '--table'{HELP}"),
    (["--sheet"], f"rembilung: a file has to be named after '--sheet'{HELP}"),
    (["--table", "rows.csv", "--table", "rows.csv"], f"rembilung: given twice: '--table'{HELP}"),
    ([*T, *T, "rows.book"], f"rembilung: given twice: '--sheet'{HELP}"),
    (["--out", "new", "rows.book"], f"rembilung: there is no option '--out'{HELP}"),
    (["--csv", "rows.book"], f"rembilung: there is no option '--csv'{HELP}"),
    ([*T, "no.book"], f"rembilung: cannot read 'no.book': {MISSING}"),
    ([*T, ""], f"rembilung: cannot read '': {MISSING}"),
    ([*T, "-"], f"rembilung: cannot read '-': {MISSING}"),
    ([*T, "."], "rembilung: cannot read '.': Is a directory"),
    ([*TABLE, "no.csv"], f"rembilung: cannot read 'no.csv': {MISSING}"),
    ([*TABLE, "."], "rembilung: cannot read '.': Is a directory"),
    ([*TABLE, "empty"], "rembilung: the table is empty; a book of no rows is made from the row of names alone"),
    ([*TABLE, "-"], "rembilung: the table is empty; a book of no rows is made from the row of names alone"),
    ([*TABLE, "word.csv"], WORD),
    ([*TABLE, "rows.book"],
     f"{ZERO_BYTE}rembilung: no row was judged\nrembilung: 'rows.book' is a book, which is named without --table"),
    ([*TABLE, "cut.book"], f"{ZERO_BYTE}rembilung: no row was judged"),
    (["--sheet", "no.dat", "rows.book"], f"rembilung: cannot read 'no.dat': {MISSING}"),
    (["--sheet", "vast", "rows.book"], "rembilung: 'vast' has more than 1048576 bytes, and is no column sheet or job file"),
]


def lines():
    """Every line of these tables: the words after the name of the command, status, standard output and standard error."""
    rows = [(words, 0, out, said) for words, out, said in ANSWERED]
    rows += [(words, 1, f"refused {due}\n", f"rembilung: {said}\n") for words, due, said in REFUSED]
    return rows + [(words, 2, "", said + "\n") for words, said in UNUSABLE]
