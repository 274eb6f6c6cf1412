"""Tables as depots send them and what is due for each, by hand from the papers, their job J and docs/DEPOTS.md."""

FIELDS = ["family", "tube", "pole spacing across", "bay", "step", "tie interval", "height", "boards", "boarded layers",
          "working layers", "greatest live load on one layer", "live load summed over layers", "nets per pole",
          "structure weight per pole", "basic wind", "height factor", "enclosure", "shield", "wall behind", "wall thickness",
          "wall make", "tie capacity", "soil", "ground strength", "pad area"]
HEAD = ",".join(FIELDS)
ANSWERS = ("row,name,result,refusal,place,cell,words,first failing check,check 1,check 2,check 3,check 4,check 5,check 6,check 7,"
           "check 8,check 9,check 10,check 11,height,stability height,permitted height,figure 1,figure 2,figure 3,figure 4,"
           "figure 5,figure 6,figure 7,figure 8,figure 9,figure 10,figure 11,wind,wind moment,slenderness in tenths,"
           "check 12,figure 12")
# What stands behind the words where a row was not judged: the first failing check, and the columns of a judged row.
NOT_JUDGED = "," * 31

J = "1,1,105,150,180,2,3000,3,4,2,3000,5000,0,300,300,1000,1,200,1,240,1,8000,4,200,2000"
J_BACK = "2000,200,4,8000,1,240,1,200,1,1000,300,300,0,5000,3000,2,4,3,3000,2,180,150,105,1,1"
# J as document 01 reports it, heights and slenderness as request 1 of document 02 has them and check 12 as request 5 has it:
# check 11 alone fails.
J_DUE = ("fails,,,,check 11 fails: pole force against what the ground under the pad bears,11,1,1,1,1,1,1,1,0,1,1,2,"
         "3000,3277,3173,477521,1584,571785,2777,4160,171,20093,19030,5953,20093,20093,42,24291,1974,1,3173")
# Document 01: J with strength 201 passes 11.
PASS = "1,1,105,150,180,2,3000,3,4,2,3000,5000,0,300,300,1000,1,200,1,240,1,8000,4,201,2000"
PASS_DUE = ("passes,,,,,,1,1,1,1,1,1,1,0,1,1,1,"
            "3000,3277,3173,477521,1584,571785,2777,4160,171,20093,19030,5953,20093,20093,42,24291,1974,1,3173")
# By hand: N = 1.2 (300 H + 1837.5) + 7087.5 and Nw with 6024.375 in place of 7087.5; the ground bears 20800 N at strength 208.
AS_PERMITTED = "1,1,105,150,180,2,3173,3,4,2,3000,5000,0,300,300,1000,1,200,1,240,1,8000,4,208,2000"
AS_PERMITTED_DUE = ("passes,,,,,,1,1,1,1,1,1,1,0,1,1,1,"
                    "3173,3277,3173,477521,1584,571785,2777,4160,171,20716,19653,5953,20716,20716,42,24291,1974,1,3173")
HIGHER = "1,1,105,150,180,2,3174,3,4,2,3000,5000,0,300,300,1000,1,200,1,240,1,8000,4,208,2000"
HIGHER_DUE = ("fails,,,,check 12 fails: height against the permitted height,12,1,1,1,1,1,1,1,0,1,1,1,"
              "3174,3277,3173,477521,1584,571785,2777,4160,171,20719,19656,5953,20719,20719,42,24291,1974,2,3173")
# J half closed, 29.9 % of the face shielded: wk = 0.7 x 1.2 x 0.299 x 300 = 75.348, Mw = 1.19 x 76 x 1.5 x 1.8 x 1.8 / 10, check 8
# is due, and a tie bears 1.4 x 76 x 16.2 and 5000.
SHIELDED = "1,1,105,150,180,2,3000,3,4,2,3000,5000,0,300,300,1000,2,299,1,240,1,8000,4,200,2000"
SHIELDED_DUE = ("fails,,,,check 11 fails: pole force against what the ground under the pad bears,11,1,1,1,1,1,1,1,1,1,1,2,"
                "3000,3277,3173,477521,1584,571785,2777,4160,171,20093,19030,6724,20093,20093,76,43954,1974,1,3173")
# The second job of tests/vectors/jobs.txt: a single row that stands at no height.
SINGLE = "2,2,108,180,150,2,1118,1,7,1,5467,30000,804,136,351,914,2,600,1,223,1,16000,4,150,773"
SINGLE_DUE = ("fails,,,,check 3 fails: ledger moment,3,1,1,2,1,2,1,2,2,1,2,2,"
              "1118,none,none,1051571,3413,1481264,9650,8932,159,46301,40177,6675,46301,46301,162,78076,1835,2,0")

ONLY_DIGITS = "; digits alone are read, no thousands separator, decimals, sign or unit"
LAST = "; neither this row nor any after it was judged"


def quoted(text):
    return '"' + text.replace('"', '""') + '"' if any(c in text for c in ',;"') else text


def unread(row, cell, words, name="", result="unreadable"):
    """The answer to a row that was not judged, and what is said of it."""
    return f"{row},{name},{result},,,{cell},{quoted(words)}" + NOT_JUDGED, f"rembilung: row {row}, {result}: {words}"


def refused(row, refusal, place, cell, words, name=""):
    return (f"{row},{name},refused,{refusal},{place},{cell},{quoted(words)}" + NOT_JUDGED,
            f"rembilung: row {row}, refused {refusal} {place}: {words}")


def with_cell(field, cell, job=J):
    cells = job.split(",")
    cells[field - 1] = cell
    return ",".join(cells)


def sums(rows, passing=0, failing=0, checks=(), refusals=(), unreadable=0, more=()):
    """The summary: checks and refusals as (number, words, rows)."""
    lines = [f"rows: {rows}", f"accepted: {passing + failing}, of which {passing} pass every check due and {failing} fail"]
    lines += [f"failed check {k}, {words}: {n}" for k, words, n in checks]
    lines += [f"refused: {sum(n for _, _, n in refusals)}"]
    lines += [f"refused {k}, {words}: {n}" for k, words, n in refusals]
    return [f"rembilung: {line}" for line in lines + [f"unreadable: {unreadable}", *more]]


GROUND = (11, "pole force against what the ground under the pad bears")
HEIGHT = (12, "height against the permitted height")
RANGE = (3, "a number outside its range")
ONE_J = sums(1, failing=1, checks=[(*GROUND, 1)])
TWO_J = sums(2, failing=2, checks=[(*GROUND, 2)])


def lines(*rows):
    return "".join(row + "\n" for row in rows)


def answers(*rows):
    return lines(ANSWERS, *rows)


def name_note(letters, name):
    return f"rembilung: column {letters}, '{name}', is no number of a job and is carried into the answers as the name"


def other_note(letters, name):
    return f"rembilung: column {letters}, '{name}', is no number of a job and is passed over"


# Shapes of a good table: name, table, standard output, standard error as lines. All are judged under sheet T with status 0.
GOOD = [
    ("names and one row", lines(HEAD, J), answers("2,," + J_DUE), ONE_J),
    ("no names", lines(J), answers("1,," + J_DUE), ONE_J),
    ("no last line end", HEAD + "\n" + J, answers("2,," + J_DUE), ONE_J),
    ("no names, no last line end", J, answers("1,," + J_DUE), ONE_J),
    ("CRLF", f"{HEAD}\r\n{J}\r\n{J}\r\n", answers("2,," + J_DUE, "3,," + J_DUE), TWO_J),
    ("CRLF, no last line end", f"{HEAD}\r\n{J}", answers("2,," + J_DUE), ONE_J),
    ("CR alone", f"{HEAD}\r{J}\r{J}", answers("2,," + J_DUE, "3,," + J_DUE), TWO_J),
    ("a byte order mark", b"\xef\xbb\xbf" + lines(HEAD, J).encode(), b"\xef\xbb\xbf" + answers("2,," + J_DUE).encode(), ONE_J),
    ("a byte order mark and no names", b"\xef\xbb\xbf" + J.encode(), b"\xef\xbb\xbf" + answers("1,," + J_DUE).encode(), ONE_J),
    ("names in other cases, with spaces", lines(HEAD.upper().replace(",", " ,\t"), J), answers("2,," + J_DUE), ONE_J),
    ("columns backwards", lines(",".join(reversed(FIELDS)), J_BACK), answers("2,," + J_DUE), ONE_J),
    ("every cell quoted", lines('"' + HEAD.replace(",", '","') + '"', '"' + J.replace(",", '","') + '"'),
     answers("2,," + J_DUE), ONE_J),
    ("spaces and tabs around numbers", lines(HEAD, " " + J.replace(",", " ,\t ") + "\t"), answers("2,," + J_DUE), ONE_J),
    ("leading zeros", lines(HEAD, with_cell(5, "000180")), answers("2,," + J_DUE), ONE_J),
    ("blank rows at the end", lines(HEAD, J, "", "", ""), answers("2,," + J_DUE),
     ONE_J + ["rembilung: blank rows passed over: 3"]),
    ("blank rows before, between and of empty cells", lines("", HEAD, "," * 24, J, '  ,"",\t', J, ""),
     answers("4,," + J_DUE, "6,," + J_DUE), TWO_J + ["rembilung: blank rows passed over: 4"]),
    ("blank rows before numbers", "\r\n\r\n" + J + "\r\n", answers("3,," + J_DUE), ONE_J + ["rembilung: blank rows passed over: 2"]),
    ("semicolons", lines(HEAD, J, with_cell(4, "150")).replace(",", ";"),
     answers("2,," + J_DUE, "3,," + J_DUE).replace(",", ";"), ["rembilung: cells are separated by semicolons"] + TWO_J),
    ("tabs, no names", lines(J).replace(",", "\t"), answers("1,," + J_DUE).replace(",", "\t"),
     ["rembilung: cells are separated by tabs"] + ONE_J),
    ("semicolons, with more commas in a quoted name",
     '"' + "a," * 30 + '";' + HEAD.replace(",", ";") + "\n" + "x, y;" + J.replace(",", ";"),
     answers().replace(",", ";") + '2;"x, y";' + J_DUE.replace(",", ";") + "\n",
     ["rembilung: cells are separated by semicolons", name_note("A", "a," * 20 + "...")] + ONE_J),
    ("a name, and another column", lines("facade," + HEAD + ",notes", "North," + J + ",windy", "South," + PASS + ","),
     answers("2,North," + J_DUE, "3,South," + PASS_DUE),
     [name_note("A", "facade"), other_note("AA", "notes")] + sums(2, 1, 1, [(*GROUND, 1)])),
    ("a name at the end", lines(HEAD + ",Facade Name", J + ",\"say \"\"north\"\"\""), answers('2,"say ""north""",' + J_DUE),
     [name_note("Z", "Facade Name")] + ONE_J),
    ("a name with a line end inside: a spreadsheet's row is no line",
     lines("facade," + HEAD, '"North\nwall",' + J, '"South\r\nwall",' + J, "East," + PASS),
     answers('2,"North\nwall",' + J_DUE, '3,"South\r\nwall",' + J_DUE, "4,East," + PASS_DUE),
     [name_note("A", "facade")] + sums(3, 1, 2, [(*GROUND, 2)],
                                       more=["rows with a line end inside a cell: 2, the first is row 2"])),
    ("a facade that is called as a number is", lines("facade," + HEAD, "bay," + J), answers("2,bay," + J_DUE),
     [name_note("A", "facade")] + ONE_J),
    ("columns without a name", lines("," + HEAD + ",,", "7," + J + ",,8"), answers("2,," + J_DUE), ONE_J),
    ("a name in UTF-8", lines("façade," + HEAD, "Süd," + J), answers('2,"Süd",' + J_DUE), [name_note("A", "façade")] + ONE_J),
    ("a name in Latin-1", ("fa\xe7ade," + HEAD + "\nS\xfcd," + J + "\n").encode("latin-1"),
     answers('2,"S\xfcd",' + J_DUE).encode("latin-1"), [name_note("A", r"fa\xE7ade")] + ONE_J),
    ("a heading with controls", lines("a\x1b[31m\x7f," + HEAD, "x," + J), answers("2,x," + J_DUE),
     [name_note("A", r"a\x1B[31m\x7F")] + ONE_J),
    ("a long heading", lines("n" * 100 + "," + HEAD, "x," + J), answers("2,x," + J_DUE), [name_note("A", "n" * 40 + "...")] + ONE_J),
    ("passes, fails, stands at no height", lines(HEAD, PASS, J, SINGLE), answers("2,," + PASS_DUE, "3,," + J_DUE, "4,," + SINGLE_DUE),
     sums(3, 1, 2, [(3, "ledger moment", 1), (5, "slip at the coupler", 1), (7, "pole stability without wind", 1),
                    (8, "pole stability with wind", 1), (10, "pole force against 40000 N", 1), (*GROUND, 2), (*HEIGHT, 1)])),
    ("half closed, 29.9 % shielded", lines(HEAD, SHIELDED), answers("2,," + SHIELDED_DUE), ONE_J),
    ("as high as permitted, and a centimetre higher", lines(HEAD, AS_PERMITTED, HIGHER),
     answers("2,," + AS_PERMITTED_DUE, "3,," + HIGHER_DUE), sums(2, 1, 1, [(*HEIGHT, 1)])),
    ("a row of exactly 65536 bytes", lines("n," + HEAD, "x" * (65536 - len(J.replace(",", ""))) + "," + J),
     answers("2," + "x" * (65536 - len(J.replace(",", ""))) + "," + J_DUE), [name_note("A", "n")] + ONE_J),
    ("1024 columns", lines(HEAD + "," * 999, J + "," * 999), answers("2,," + J_DUE), ONE_J),
]

BAY = "; it may be 60 to 200 cm"
SHIELD = "; it may be 1 to 2000 thousandths when open, 1 to 700 when half closed, 1 to 1000 when fully closed"
# A row among good ones: name, the row, and its answer with what is said of it, as row 3.
BAD = [
    ("a word", with_cell(4, "1x0"), unread(3, "D3", "column D, bay: '1x0' is not a whole number" + BAY + ONLY_DIGITS)),
    ("a thousands separator", with_cell(7, '"3,000"'),
     unread(3, "G3", "column G, height: '3,000' is not a whole number; it may be 1 to 5000 cm in a double row, 1 to 2400 cm in "
            "a single row" + ONLY_DIGITS)),
    ("a space inside", with_cell(4, "1 50"), unread(3, "D3", "column D, bay: '1 50' is not a whole number" + BAY + ONLY_DIGITS)),
    ("decimals", with_cell(4, "150.0"), unread(3, "D3", "column D, bay: '150.0' is not a whole number" + BAY + ONLY_DIGITS)),
    ("a sign", with_cell(4, "-150"), unread(3, "D3", "column D, bay: '-150' is not a whole number" + BAY + ONLY_DIGITS)),
    ("a plus", with_cell(4, "+150"), unread(3, "D3", "column D, bay: '+150' is not a whole number" + BAY + ONLY_DIGITS)),
    ("a unit", with_cell(4, "150cm"), unread(3, "D3", "column D, bay: '150cm' is not a whole number" + BAY + ONLY_DIGITS)),
    ("an exponent", with_cell(4, "1e2"), unread(3, "D3", "column D, bay: '1e2' is not a whole number" + BAY + ONLY_DIGITS)),
    ("an empty cell", with_cell(25, ""), unread(3, "Y3", "column Y, pad area: the cell is empty; it may be 100 to 10000 cm2")),
    ("a cell of spaces", with_cell(1, "  "),
     unread(3, "A3", "column A, family: the cell is empty; it may be 1 (double row) or 2 (single row)")),
    ("above 32 bits", with_cell(4, "4294967296"), unread(3, "D3", "column D, bay: '4294967296' is too great" + BAY)),
    ("what would wrap to 150", with_cell(4, "4294967446"), unread(3, "D3", "column D, bay: '4294967446' is too great" + BAY)),
    ("what would wrap to 150 in 64 bits", with_cell(4, "18446744073709551766"),
     unread(3, "D3", "column D, bay: '18446744073709551766' is too great" + BAY)),
    ("the lowest of several bad cells", with_cell(4, "x", with_cell(20, "", with_cell(9, "y"))),
     unread(3, "D3", "column D, bay: 'x' is not a whole number" + BAY + ONLY_DIGITS + "; cells of the row that are no number: 3")),
    ("a line end inside", with_cell(4, '"15\n0"'),
     unread(3, "D3", r"column D, bay: '15\x0A0' is not a whole number" + BAY + ONLY_DIGITS)),
    ("a byte that is no UTF-8", with_cell(4, "15\udce90"),
     unread(3, "D3", r"column D, bay: '15\xE90' is not a whole number" + BAY + ONLY_DIGITS)),
    ("a long cell", with_cell(4, "a" * 50000),
     unread(3, "D3", "column D, bay: '" + "a" * 40 + "...' is not a whole number" + BAY + ONLY_DIGITS)),
    ("a cell too few", J.rsplit(",", 1)[0],
     unread(3, "Y3", "the row has 24 cells and the row of names has 25: column Y, pad area, is missing")),
    ("one cell", "1", unread(3, "B3", "the row has 1 cell and the row of names has 25: column B, tube, is missing")),
    ("a cell too many", J + ",7", unread(3, "Z3", "the row has 26 cells and the row of names has 25: column Z is the first too many")),
    ("an empty cell too many", J + ",",
     unread(3, "Z3", "the row has 26 cells and the row of names has 25: column Z is the first too many")),
    ("a thousands separator without quotes", with_cell(7, "3,000"),
     unread(3, "Z3", "the row has 26 cells and the row of names has 25: column Z is the first too many")),
    ("a row of 65537 bytes", with_cell(4, "1" * (65537 - len(J.replace(",", "")) + 3)),
     unread(3, "", "the row has more than 65536 bytes, and is not read")),
    ("a row of 300000 bytes in quotes", '"' + "ab\n" * 100000 + '"', unread(3, "", "the row has more than 65536 bytes, and is not read")),
    ("1025 cells", "," * 1023 + "1,", unread(3, "", "the row has more than 1024 cells, and is not read")),
    ("outside its range", with_cell(4, "59"), refused(3, 3, 4, "D3", "column D: number 4, bay, is 59" + BAY)),
    ("half closed, nothing shielded", with_cell(18, "0", SHIELDED), refused(3, 3, 18, "R3", "column R: number 18, shield, is 0" + SHIELD)),
    ("half closed, 70.1 % shielded", with_cell(18, "701", SHIELDED),
     refused(3, 3, 18, "R3", "column R: number 18, shield, is 701" + SHIELD)),
    ("the lowest field outside its range", with_cell(25, "99", with_cell(8, "0")),
     refused(3, 3, 8, "H3", "column H: number 8, boards, is 0; it may be 1 (steel), 2 (bamboo) or 3 (timber)")),
    ("a support, which has no table", with_cell(1, "3"),
     refused(3, 3, 1, "A3", "column A: number 1, family, is 3; it may be 1 (double row) or 2 (single row)")),
    ("the greatest number", with_cell(4, "4294967295"), refused(3, 3, 4, "D3", "column D: number 4, bay, is 4294967295" + BAY)),
    ("more working than boarded layers", with_cell(10, "5"),
     refused(3, 4, 10, "J3", "column J: number 10, working layers, is greater than number 9, boarded layers")),
    ("a sum below one layer's load", with_cell(12, "2999"),
     refused(3, 4, 12, "L3", "column L: number 12, live load summed over layers, is less than number 11, greatest live load on one "
             "layer")),
    ("a thin wall", with_cell(20, "180", SINGLE),
     refused(3, 5, 20, "T3", "column T: number 20, wall thickness: a single row needs a wall of more than 180 mm")),
    ("a hollow wall", with_cell(21, "2", SINGLE), refused(3, 5, 21, "U3", "column U: number 21, wall make: a single row needs a sound wall, 1")),
]
KINDS = {3: "a number outside its range", 4: "two numbers that contradict each other", 5: "a wall unfit for a single row"}

OTHER_BAD = [
    # A table without names: its width, and no name column.
    ("a cell too few, no names", lines(J, J.rsplit(",", 1)[0]), ["1,," + J_DUE],
     unread(2, "Y2", "the row has 24 cells and a table without a row of names has 25: column Y, pad area, is missing"), []),
    ("a cell too many, no names", lines(J, J + ",1"), ["1,," + J_DUE],
     unread(2, "Z2", "the row has 26 cells and a table without a row of names has 25: column Z is the first too many"), []),
    # The first row of a table without names may be the bad one.
    ("the first row is bad, no names", lines(with_cell(1, "one")), [],
     unread(1, "A1", "column A, family: 'one' is not a whole number; it may be 1 (double row) or 2 (single row)" + ONLY_DIGITS), []),
    # The column of a number is where the names put it, beyond Z too.
    ("a bad cell in AA", lines("n1,n2," + HEAD, "p,q," + J, "p,q," + with_cell(25, "x")), ["2,p," + J_DUE],
     unread(3, "AA3", "column AA, pad area: 'x' is not a whole number; it may be 100 to 10000 cm2" + ONLY_DIGITS, "p"),
     [name_note("A", "n1"), other_note("B", "n2")]),
    ("a column of one's own is missing", lines(HEAD + ",notes", J + ",x", J), ["2,x," + J_DUE],
     unread(3, "Z3", "the row has 25 cells and the row of names has 26: column Z is missing"), [name_note("Z", "notes")]),
    ("a refusal where columns stand backwards", lines(",".join(reversed(FIELDS)), J_BACK, J_BACK.replace(",150,", ",201,")),
     ["2,," + J_DUE], refused(3, 3, 4, "V3", "column V: number 4, bay, is 201" + BAY), []),
    ("the name of a row that is not judged", lines("facade," + HEAD, "North," + J, "South," + with_cell(4, "")), ["2,North," + J_DUE],
     unread(3, "E3", "column E, bay: the cell is empty" + BAY, "South"), [name_note("A", "facade")]),
]

# Tables that cannot be used: name, table, standard output, standard error. The status is 2, and a file of answers is not left.
MISSING = [f"rembilung: row 1: no column is named '{name}'" for name in FIELDS]
NO_ROWS = ["rembilung: the table has no row to judge"]
NEITHER = ["rembilung: row 1 has neither the names of a job's numbers nor numbers, between commas, semicolons or tabs; "
           "depot --template prints the names"]


def damaged(row, cell, words):
    return unread(row, cell, words + LAST, result="damaged")


def stops(name, table, before, last):
    """A table that is judged up to a row, and not further."""
    return name, table, answers(*before, last[0]), [last[1]]


AGAIN = "names of a job's numbers stand here, and they may stand in the first row alone"
AFTER = "text follows the quote that closes a cell (a quote inside a cell is written twice)"
UNUSABLE = [
    ("an empty file", "", "", NO_ROWS),
    ("a byte order mark alone", b"\xef\xbb\xbf", "", NO_ROWS),
    ("blank rows alone", "\n\n,,,\n", "", NO_ROWS),
    ("names alone", lines(HEAD), answers(), NO_ROWS),
    ("a name missing", lines(HEAD.replace(",bay,", ",bay (cm),"), J), "", [name_note("D", "bay (cm)"), MISSING[3]]),
    ("two names missing", lines(HEAD.rsplit(",", 1)[0].replace("family,", "")), "", [MISSING[0], MISSING[24]]),
    ("a name twice", lines(HEAD + ",Bay", J + ",150"), "", ["rembilung: row 1: columns D and Z are both named 'bay'"]),
    ("a name twice and a name missing", lines(HEAD.replace("step", "bay"), J), "",
     ["rembilung: row 1: columns D and E are both named 'bay'", MISSING[4]]),
    ("a title", lines("Jobs of the season" + "," * 24, HEAD, J), "", NEITHER),
    ("a separator that is none", lines(HEAD.replace(",", "|"), J.replace(",", "|")), "", NEITHER),
    ("a year as a title", lines("2027,,", HEAD, J),
     answers(unread(1, "D1", "the row has 3 cells and a table without a row of names has 25: column D, bay, is missing")[0],
             damaged(2, "", AGAIN)[0]),
     [unread(1, "D1", "the row has 3 cells and a table without a row of names has 25: column D, bay, is missing")[1],
      damaged(2, "", AGAIN)[1]]),
    stops("names again", lines(HEAD, J, HEAD, J), ["2,," + J_DUE], damaged(3, "", AGAIN)),
    stops("names again in another order", lines(HEAD, J, ",".join(reversed(FIELDS)), J_BACK), ["2,," + J_DUE], damaged(3, "", AGAIN)),
    stops("a quote never closed", lines(HEAD, J, with_cell(4, '"150'), J), ["2,," + J_DUE],
          damaged(3, "D3", "column D: a cell begins with a quote that is never closed (it stands on line 3 of the file)")),
    ("a quote never closed, after a line end inside a cell", lines("f," + HEAD, '"a\r\nb",' + J, "c," + with_cell(4, '"150'), J),
     answers('2,"a\r\nb",' + J_DUE,
             damaged(3, "E3", "column E: a cell begins with a quote that is never closed (it stands on line 4 of the file)")[0]),
     [name_note("A", "f"),
      damaged(3, "E3", "column E: a cell begins with a quote that is never closed (it stands on line 4 of the file)")[1]]),
    stops("a quote never closed in 200000 bytes", lines(HEAD, J, '"' + "1,2,3,4,5,6,7,8\n" * 12500), ["2,," + J_DUE],
          damaged(3, "A3", "column A: a cell begins with a quote that is never closed (it stands on line 3 of the file)")),
    stops("text after a closing quote", lines(HEAD, J, with_cell(4, '"150"0'), J), ["2,," + J_DUE], damaged(3, "D3", "column D: " + AFTER)),
    stops("a space after a closing quote", lines(HEAD, J, with_cell(4, '"150" '), J), ["2,," + J_DUE],
          damaged(3, "D3", "column D: " + AFTER)),
    stops("a quote inside a cell", lines(HEAD, J, with_cell(4, '15"0'), J), ["2,," + J_DUE],
          damaged(3, "D3", "column D: a quote stands inside a cell that does not begin with one")),
    stops("a zero byte", lines(HEAD, J, with_cell(4, "15\0"), J), ["2,," + J_DUE],
          damaged(3, "D3", "column D: a zero byte stands in the row; export the table as CSV in UTF-8")),
    stops("a zero byte in quotes", lines(HEAD, J, with_cell(4, '"\0"'), J), ["2,," + J_DUE],
          damaged(3, "D3", "column D: a zero byte stands in the row; export the table as CSV in UTF-8")),
    ("UTF-16", lines(HEAD, J).encode("utf-16"), "",
     [damaged(1, "", "the file is in UTF-16; export the table as CSV in UTF-8")[1]]),
    ("UTF-16, high byte first", b"\xfe\xff" + lines(HEAD, J).encode("utf-16-be"), "",
     [damaged(1, "", "the file is in UTF-16; export the table as CSV in UTF-8")[1]]),
    ("UTF-16 without a mark", lines(HEAD, J).encode("utf-16-le"), "",
     [damaged(1, "A1", "column A: a zero byte stands in the row; export the table as CSV in UTF-8")[1]]),
    ("a quote never closed in the names", '"' + lines(HEAD, J), "",
     [damaged(1, "A1", "column A: a cell begins with a quote that is never closed (it stands on line 1 of the file)")[1]]),
    ("a first row too long", lines("n" * 65537 + "," + HEAD, J), "", ["rembilung: row 1: the row has more than 65536 bytes, and is not read"]),
]
