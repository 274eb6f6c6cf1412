"""Season's books and the tables they are made from, and what is due for each, by hand from the papers and docs/DEPOTS.md."""
import given
import tables
from tables import HEAD, J, SHIELDED, SINGLE, lines, with_cell

# The numbers of job J in groups of seven bits: 150 is 1 x 128 + 22, so 96 01; 3000 is 23 x 128 + 56, so B8 17.
J_GROUPS = ("01 01 69 9601 B401 02 B817 03 04 02 B817 8827 00 AC02 AC02 E807 01 C801 01 F001 01 C03E 04 C801 D00F").split(" ")
# Every number at its greatest; 100000 is (6 x 128 + 13) x 128 + 32, so A0 8D 06.
MOST = "1,2,155,200,200,3,5000,3,10,9,10000,30000,5000,500,2000,4000,3,1000,2,2000,3,100000,5,2000,10000"
MOST_GROUPS = ("01 02 9B01 C801 C801 03 8827 03 0A 09 904E B0EA01 8827 F403 D00F A01F 03 E807 02 D00F 03 A08D06 05 D00F 904E"
               ).split(" ")


def alike(count, number, groups):
    """A book of so many rows that are all alike, its count given as bytes."""
    return bytes.fromhex(count) + b"".join(bytes.fromhex(group) * number for group in groups)


NONE = b"\0"
ONE_J = bytes.fromhex("01 01 01 69 96 01 B4 01 02 B8 17 03 04 02 B8 17 88 27 00 AC 02 AC 02 E8 07 01 C8 01 01 F0 01 01 C0 3E 04 "
                      "C8 01 D0 0F")
# J and then the single row of tables.py, column by column.
TWO = bytes.fromhex("02  01 02  01 02  69 6C  9601 B401  B401 9601  02 02  B817 DE08  03 01  04 07  02 01  B817 DB2A  8827 B0EA01"
                    "  00 A406  AC02 8801  AC02 DF02  E807 9207  01 02  C801 D804  01 01  F001 DF01  01 01  C03E 807D  04 04"
                    "  C801 9601  D00F 8506")
# J half closed: enclosure 2, and 299 is 2 x 128 + 43, so AB 02.
ONE_SHIELDED = ONE_J.replace(bytes.fromhex("E807 01 C801"), bytes.fromhex("E807 02 AB02"))
J_200 = alike("C801", 200, J_GROUPS)
MOST_200 = alike("C801", 200, MOST_GROUPS)
# 200 rows whose numbers all are 4294967295, of five bytes: no number is damaged, and so long no book can stand.
GREATEST_200 = alike("C801", 200, ["FFFFFFFF0F"] * 25)

ONE_ROW, TWO_ROWS = ["rembilung: rows: 1"], ["rembilung: rows: 2"]
BACK = ",".join(reversed(tables.FIELDS))
SINGLE_BACK = ",".join(reversed(SINGLE.split(",")))

# Tables that make a book: name, table, book, standard error.
PACKED = [
    ("names and one row", lines(HEAD, J), ONE_J, ONE_ROW),
    ("half closed, 29.9 % shielded", lines(HEAD, SHIELDED), ONE_SHIELDED, ONE_ROW),
    ("names alone", lines(HEAD), NONE, ["rembilung: rows: 0"]),
    ("names alone, and blank rows", lines("", HEAD, "", ","), NONE, ["rembilung: rows: 0", "rembilung: blank rows passed over: 3"]),
    ("two rows", lines(HEAD, J, SINGLE), TWO, TWO_ROWS),
    ("two rows, no names", lines(J, SINGLE), TWO, TWO_ROWS),
    ("two rows, no last line end", HEAD + "\n" + J + "\n" + SINGLE, TWO, TWO_ROWS),
    ("columns backwards", lines(BACK, tables.J_BACK, SINGLE_BACK), TWO, TWO_ROWS),
    ("semicolons and CRLF", lines(HEAD, J, SINGLE).replace(",", ";").replace("\n", "\r\n"), TWO,
     ["rembilung: cells are separated by semicolons"] + TWO_ROWS),
    ("a byte order mark", b"\xef\xbb\xbf" + lines(HEAD, J, SINGLE).encode(), TWO, TWO_ROWS),
    ("names of facades, which a book has not", lines("facade," + HEAD + ",notes", '"North, ""A""",' + J + ",", "South," + SINGLE + ",x"),
     TWO, [tables.other_note("A", "facade"), tables.other_note("AA", "notes")] + TWO_ROWS),
    ("blank rows, and a line end inside a cell", lines("facade," + HEAD, "", '"No\nrth",' + J, "," * 25, "South," + SINGLE, ""),
     TWO, [tables.other_note("A", "facade")] + TWO_ROWS + ["rembilung: blank rows passed over: 3",
                                                         "rembilung: rows with a line end inside a cell: 1, the first is row 3"]),
    ("leading zeros", lines(HEAD, with_cell(5, "000180")), ONE_J, ONE_ROW),
    ("200 rows", lines(HEAD, *[J] * 200), J_200, ["rembilung: rows: 200"]),
    ("200 rows of the greatest numbers", lines(HEAD, *[MOST] * 200), MOST_200, ["rembilung: rows: 200"]),
]


def too_many(count, first):
    return f"refused 10 {count}\n", [f"rembilung: the table has {count} rows, and a book has at most 200: row {first} of the table "
                                     "is the first too many"]


def row_refused(row, place, words):
    return f"refused 11 {place}\n", [f"rembilung: row {row} of the table, row {place} of the book counting from 0, cannot stand: {words}"]


SUPPORT = "; 3 marks a formwork support, and only scaffold jobs go into a book"
THREE = "number 1, family, is 3; it may be 1 (double row) or 2 (single row)" + SUPPORT
# Tables that are refused, with status 1: standard output and standard error. Single bad rows are those of tables.py.
REFUSED = [
    ("201 rows", lines(HEAD, *[J] * 201), too_many(201, 202)),
    ("201 rows, no names", lines(*[J] * 201), too_many(201, 201)),
    ("201 rows after blank ones", lines("", HEAD, "", *[J] * 201), too_many(201, 204)),
    ("5000 rows", lines(HEAD, *[J] * 5000), too_many(5000, 202)),
    ("201 rows, the first of which cannot stand", lines(HEAD, with_cell(4, "59"), *[J] * 200), too_many(201, 202)),
    ("the lowest of two bad rows, whose bad number is the later", lines(HEAD, J, with_cell(25, "99"), with_cell(1, "0")),
     row_refused(3, 1, "column Y: number 25, pad area, is 99; it may be 100 to 10000 cm2")),
    ("the last of 200 rows", lines(HEAD, *[J] * 199, with_cell(4, "201")),
     row_refused(201, 199, "column D: number 4, bay, is 201; it may be 60 to 200 cm")),
    ("a bad row after blank ones, columns backwards", lines(BACK, "", tables.J_BACK, "", tables.J_BACK.replace(",150,", ",201,")),
     row_refused(5, 1, "column V: number 4, bay, is 201; it may be 60 to 200 cm")),
    ("a support in the first row", lines(with_cell(1, "3")), row_refused(1, 0, "column A: " + THREE)),
]

EMPTY = ["rembilung: the table is empty; a book of no rows is made from the row of names alone"]
# What is not done, by each command that makes a book of a table.
PACK, JUDGE = "no book was made", "no row was judged"


def unread(number, undone=PACK):
    return [f"rembilung: rows that cannot be read: {number}; {undone}"]


def of_bad_row(answer, words, undone=PACK):
    """What is due for a table of J, a bad row of tables.BAD as row 3, and J: status, standard output, standard error."""
    number = int(answer.split(",")[3] or 0)
    if not number:
        return 2, "", [words] + unread(1, undone)
    out, said = row_refused(3, 1, words.split(": ", 2)[2])
    return 1, out, [line + (SUPPORT if "family, is 3;" in line else "") for line in said]


def of_unusable(said, undone=PACK):
    """Standard error for a table that depot cannot use, from what depot says of it."""
    if said == tables.NO_ROWS:
        return EMPTY
    own = [line.replace(tables.LAST, "") for line in said]
    if undone == PACK:
        own = [line.replace("carried into the answers as the name", "passed over") for line in own]
    rows = sum(", unreadable: " in line for line in own)
    return own + (unread(rows, undone) if rows else [f"rembilung: {undone}"])


TABLE_HEAD = "book row," + HEAD
# Books that are shown as tables.
SHOWN = [
    ("no bytes", b"", lines(TABLE_HEAD)),
    ("no rows", NONE, lines(TABLE_HEAD)),
    ("J", ONE_J, lines(TABLE_HEAD, "0," + J)),
    ("half closed, 29.9 % shielded", ONE_SHIELDED, lines(TABLE_HEAD, "0," + SHIELDED)),
    ("two rows", TWO, lines(TABLE_HEAD, "0," + J, "1," + SINGLE)),
    ("200 rows", J_200, lines(TABLE_HEAD, *[f"{k},{J}" for k in range(200)])),
    ("200 rows of the greatest numbers", MOST_200, lines(TABLE_HEAD, *[f"{k},{MOST}" for k in range(200)])),
]


def damaged(offset):
    number = "the number there is missing, cut off" if offset else "the number of its rows is cut off"
    return f"refused 9 {offset}\n", (f"rembilung: the book is damaged at offset {offset}: {number}, not in its shortest form or "
                                     "above 4294967295")


def goes_on(offset):
    return f"refused 9 {offset}\n", f"rembilung: the book goes on after its last number, from offset {offset}"


def rows_are(count):
    return f"refused 10 {count}\n", f"rembilung: the book has {count} rows, and a book has at most 200"


def row_is(place, words):
    return f"refused 11 {place}\n", f"rembilung: row {place} of the book, counting from 0, cannot stand: {words}"


def changed_j(number, groups, *more):
    """The book of J with the bytes of a number, from 1, set to others."""
    return bytes.fromhex("01" + "".join(J_GROUPS[:number - 1] + [groups] + J_GROUPS[number:])) + bytes(more)


def changed_two(*changes):
    """The book of J and the single row with numbers set to other bytes, each change as row, number and bytes."""
    columns = [[given.groups(int(cell)) for cell in cells] for cells in zip(J.split(","), SINGLE.split(","))]
    for row, number, groups in changes:
        columns[number - 1][row] = bytes.fromhex(groups)
    return b"\2" + b"".join(column[0] + column[1] for column in columns)


# Books that are refused, with status 1: standard output and standard error.
DAMAGED = [
    ("a count cut off", b"\xc8", damaged(0)),
    ("a count cut off after four bytes", b"\x80\x80\x80\x80", damaged(0)),
    ("a count in a longer form", b"\x80\x00", damaged(0)),
    ("a count above 32 bits", b"\xff\xff\xff\xff\x10", damaged(0)),
    ("a count and nothing else", b"\x01", damaged(1)),
    ("a count of 200 and nothing else", b"\xc8\x01", damaged(2)),
    ("201 rows", b"\xc9\x01", rows_are(201)),
    ("201 rows, and a damaged number", b"\xc9\x01\x80\x00", rows_are(201)),
    ("201 rows, all there", alike("C901", 201, J_GROUPS), rows_are(201)),
    ("as many rows as a count can say", b"\xff\xff\xff\xff\x0f", rows_are(4294967295)),
    ("the last byte cut off", ONE_J[:-1], damaged(37)),
    ("the last number cut off", ONE_J[:-2], damaged(37)),
    ("the first number in a longer form", changed_j(1, "8100"), damaged(1)),
    ("a number above 32 bits", changed_j(4, "FFFFFFFF10"), damaged(4)),
    ("a number of six bytes", changed_j(4, "968080808001"), damaged(4)),
    ("a byte too many", ONE_J + b"\0", goes_on(39)),
    ("a byte too many that begins a number", ONE_J + b"\x80", goes_on(39)),
    ("a book of no rows that goes on", b"\0\0", goes_on(1)),
    ("a byte too many after a row that cannot stand", changed_j(4, "3B", 0), goes_on(38)),
    ("a job file", bytes.fromhex("".join(J_GROUPS)), damaged(38)),
    ("a byte more than the longest book", MOST_200 + b"\0", goes_on(8402)),
    ("two million bytes after a book", ONE_J + bytes(2000000), goes_on(39)),
    ("the longest numbers", GREATEST_200, row_is(0, "number 1, family, is 4294967295; it may be 1 (double row) or 2 (single row)")),
    ("the longest numbers, and a byte", GREATEST_200 + b"\1", goes_on(25002)),
    ("the longest numbers, and two million bytes", GREATEST_200 + bytes(2000000), goes_on(25002)),
    ("the longest numbers, the last one damaged", GREATEST_200[:-1] + b"\x10" + bytes(2000000), damaged(24997)),
    ("a bay of 59", changed_j(4, "3B"), row_is(0, "number 4, bay, is 59; it may be 60 to 200 cm")),
    ("the lowest of two bad rows, whose bad number is the later", changed_two((0, 25, "63"), (1, 1, "00")),
     row_is(0, "number 25, pad area, is 99; it may be 100 to 10000 cm2")),
    ("a support", changed_two((1, 1, "03")), row_is(1, THREE)),
    ("more working than boarded layers", changed_two((1, 10, "08")),
     row_is(1, "number 10, working layers, is greater than number 9, boarded layers")),
    ("a thin wall", changed_two((1, 20, "B401")),
     row_is(1, "number 20, wall thickness: a single row needs a wall of more than 180 mm")),
    ("the last of 200 rows", J_200[:-2] + b"\x63", row_is(199, "number 25, pad area, is 99; it may be 100 to 10000 cm2")),
]


# Files that may be tables, given as books, and others that are neither: standard output, standard error, and whether it is said.
MISTAKEN = [
    ("a table", lines(HEAD, J).encode(), damaged(len(lines(HEAD, J))), True),
    # It begins with f, 102, and so would have 2550 numbers more.
    ("a longer table", lines(HEAD, *[J] * 40).encode(), goes_on(2551), True),
    ("a table with semicolons", lines(HEAD, J).replace(",", ";").encode(), damaged(len(lines(HEAD, J))), True),
    ("a table with tabs", lines(HEAD, J).replace(",", "\t").encode(), damaged(len(lines(HEAD, J))), True),
    ("a table in UTF-8", lines("fa\u00e7ade," + HEAD).encode(), damaged(len(HEAD) + 9), True),
    # EF BB BF and f are 111 + 59 x 128 + 63 x 16384 + 102 x 2097152.
    ("a byte order mark", b"\xef\xbb\xbf" + lines(HEAD, J).encode(), rows_are(214949359), True),
    # It begins with 1, 49, and a comma, 44.
    ("a table as long as a book", (lines(J) * 20).encode()[:1226],
     row_is(0, "number 1, family, is 44; it may be 1 (double row) or 2 (single row)"), True),
    ("a number and a line end", b"7\n", damaged(2), True),
    # P is 80.
    ("a spreadsheet's own file", b"PK\3\4" + bytes(26), damaged(30), True),
    ("three bytes of its mark", b"PK\3", damaged(3), False),
    ("another fourth byte", b"PK\3\5" + bytes(26), damaged(30), False),
    ("a word", b"season", damaged(6), False),
    ("a table with a control", lines(HEAD, "\x1b" + J).encode(), damaged(len(lines(HEAD, J)) + 1), False),
    ("a table with the control 7F", lines(HEAD, "\x7f" + J).encode(), damaged(len(lines(HEAD, J)) + 1), False),
    # FF FE and f are 127 + 126 x 128 + 102 x 16384.
    ("UTF-16", lines(HEAD, J).encode("utf-16"), rows_are(1687423), False),
]

ZERO_BYTE = ["rembilung: row 1, damaged: column A: a zero byte stands in the row; export the table as CSV in UTF-8"]
# Books, and what is none, given as tables: what is said before it is said that nothing is done, and whether it is a book.
NO_TABLES = [
    ("a book", TWO, ZERO_BYTE, True),
    ("a book of no rows", NONE, ZERO_BYTE, True),
    # Its first number of 10 is a line end.
    ("the longest book", MOST_200, tables.NEITHER, True),
    ("a damaged book", TWO[:-1], ZERO_BYTE, False),
    ("a book that goes on", TWO + b"\0", ZERO_BYTE, False),
    ("a book, and 65536 bytes", TWO + bytes(65536), ZERO_BYTE, False),
    ("a job file", bytes.fromhex("".join(J_GROUPS)), ZERO_BYTE, False),
]


def book_of(jobs):
    """The book of jobs, each a list of 25 numbers, as the papers have it."""
    columns = zip(*jobs)
    return given.groups(len(jobs)) + b"".join(given.groups(number) for column in columns for number in column)


def rows_of(data):
    """The rows of a book as lists of numbers, whatever they are; nothing where it has not the numbers of as many as it counts."""
    numbers, at = [], 0
    while at < len(data):
        found = given.number_at(data, at)
        if found is None:
            return None
        numbers, at = numbers + [found[0]], found[1]
    count = numbers[0] if numbers else 0
    whole = len(numbers) == 1 + 25 * count or not numbers
    return [numbers[1 + row::count] for row in range(count)] if whole else None
