"""What the tests share: sheets T and C, support S, the bytes of sheets and job files, and the cases that requests of document 02 came with.

A line `sheet;NAME;ENTRIES` of request-NN.txt is a column sheet for the cases of that file. Every other line that is no comment
is a case: the word of its call, and the parts after it. A part of no bytes or no numbers is '-'.

The answers in a request's file are those after that request. Since request 5 a report has a line 12, so the reports in the files
of earlier requests are handed out as `report_since_5` makes them, from what was given alone; since request 8 a half closed face
takes shields below 300, and what an earlier refusal of one became stands in `SINCE_8`; since request 9 a book of no bytes has no
rows, which `rows_since_9` says of earlier cases. The files stay as they are.
"""
import collections
import pathlib
import re

HERE = pathlib.Path(__file__).resolve().parent
ENTRIES = 251
ENTRY_MOST = 65535
NUMBER_MOST = 2**32 - 1
# How many numbers a scaffold job has, and a support, whose first is 3.
NUMBERS, SUPPORT_NUMBERS, SUPPORT = 25, 13, 3
# Where a scaffold's own height, its number 7, stands among its numbers.
HEIGHT = 6
REFUSED = r"refused [1-9][0-9]? [0-9]{1,10}"
REPORT = r"[0-9a-z]+( [0-9a-z]+)+(\|[0-9a-z]+( [0-9a-z]+)+)+"
# A report before request 5: eleven checks, the heights of a scaffold, and the rest.
BEFORE_5 = r"((?:[0-9]+ [012] [0-9]+\|){11})(?:height (none|[0-9]+ [0-9]+)\|)?(wind .*)"
SUPPORT_LINE_12 = "12 0 0|"
# Cases of earlier files whose refusal was of field 18, half closed, at 1 to 299: the file and the line, and what is due by the
# papers since request 8.
SINCE_8 = {
    # The harsh job's shield is 2, and both jobs stand; 12 names their enclosures, 3 at the mild end and 2 at the harsh.
    ("request-06.txt", 84): "refused 12 17",
}
# A book of no bytes, read: before request 9, and since.
EMPTY_BEFORE_9, EMPTY_SINCE_9 = "refused 9 0", "0 rows: -"
HEXADECIMAL = r"-|([0-9a-f]{2})+"
NUMBER_ROW = r"[0-9]{1,10}( [0-9]{1,10})*"
# The bytes of a book or of records, W*N being the word W N times, and rows, one followed by *N standing N times.
HEXADECIMAL_RUN = r"([0-9a-f]{2})+(\*[0-9]{1,4})?"
BOOK = rf"-|{HEXADECIMAL_RUN}( {HEXADECIMAL_RUN})*"
ROW_RUN = rf"{NUMBER_ROW}( \*[0-9]{{1,4}})?"
ROWS = rf"-|{ROW_RUN}( / {ROW_RUN})*"
# What holds of every job between two: an outcome for each of the twelve checks, and two heights.
OUTCOMES = r"([123] ){12}[0-9]{1,10} [0-9]{1,10}"
# The first failing row of a book, or NONE, and how many rows are judged.
NONE, FIRST_FAILING = NUMBER_MOST, r"[0-9]{1,10} [0-9]{1,3}"
# What load cells' records come to: so many bytes, and the numbers, V*N being the number V N times.
NUMBER_RUN = r"[0-9]{1,10}(\*[0-9]{1,4})?"
PUSHES = rf"(0|[1-9][0-9]{{0,4}}) bytes: (-|{NUMBER_RUN}( {NUMBER_RUN})*)"
# Sheet T of document 01.
T = [max(1000 - 4 * k, 150) for k in range(ENTRIES)]
# Support S, worked out by hand from clause 5.6, and its report under sheet T; request-05.txt gives the same.
S = [3, 1, 150, 30, 100, 9000, 6000, 300, 1000, 400, 4, 200, 2000]
S_REPORT = """\
1 0 0
2 0 0
3 0 0
4 0 0
5 0 0
6 0 0
7 1 19200
8 1 17940
9 0 0
10 1 19200
11 1 19200
12 0 0
wind 84 22491
column 1330
"""

# Where a case stands, the word of its call, the parts after it, and the sheets of its file, bytes by name.
Case = collections.namedtuple("Case", "file line word parts sheets")
# A case of the whole call: the name of its sheet and that sheet's bytes, the numbers of its job file, and the answer as text.
Verdict = collections.namedtuple("Verdict", "file line sheet_name sheet numbers answer")
# A case of writing a job file: its numbers, how long the buffer is, and the answer as text.
Writing = collections.namedtuple("Writing", "file line numbers room answer")
# A case of reading one: its bytes, and the answer as text.
Reading = collections.namedtuple("Reading", "file line data answer")
# A case of the whole call on a file's own bytes.
FileVerdict = collections.namedtuple("FileVerdict", "file line sheet data room answer")
# A case of writing a book: all numbers that are lent, how long the buffer is, and the answer as text.
BookWriting = collections.namedtuple("BookWriting", "file line numbers room answer")
# A case of reading one: its bytes, room for how many numbers, and the answer as text.
BookReading = collections.namedtuple("BookReading", "file line data room answer")
# A case of a mild and a harsh job: the bytes of its sheet, the numbers of both, and the answer as text.
Between = collections.namedtuple("Between", "file line sheet mild harsh answer")
# A case of load cells' records: their bytes, w, how long the output is, and the answer as text.
Cells = collections.namedtuple("Cells", "file line data w room answer")
# A case of the first failing row of a book: the bytes of its sheet and of the book, and the answer as text.
FirstFailing = collections.namedtuple("FirstFailing", "file line sheet data answer")


class Fault(Exception):
    """What is wrong with a line of the vectors; its text is shown."""


def groups(number):
    """A number in groups of seven bits, low group first, top bit set on every byte but the last."""
    return bytes([number]) if number < 128 else bytes([number % 128 + 128]) + groups(number // 128)


def job_file(numbers):
    return b"".join(groups(number) for number in numbers)


def bytes_of(text):
    """The bytes of a part in hexadecimal, '-' for none."""
    return b"" if text == "-" else bytes.fromhex(text)


def book_bytes(text):
    """The bytes of a book, given as words W or W*N."""
    words = [] if text == "-" else [word.split("*") for word in text.split(" ")]
    return b"".join(bytes.fromhex(word[0]) * int((word + ["1"])[1]) for word in words)


def run_numbers(text):
    """The numbers of words V or V*N."""
    words = [] if text == "-" else [word.partition("*") for word in text.split(" ")]
    return [int(number) for number, _, times in words for _ in range(int(times or 1))]


def pushes(answer):
    """The numbers of an answer 'B bytes: NUMBERS'."""
    return run_numbers(answer.partition(" bytes: ")[2])


def row_run(text):
    """The numbers of a row, and how often it stands."""
    row, _, times = text.partition(" *")
    return [int(word) for word in row.split(" ")], int(times or 1)


def row_numbers(text):
    """The numbers of rows, one row after another."""
    runs = [] if text == "-" else [row_run(part) for part in text.split(" / ")]
    return [number for row, times in runs for _ in range(times) for number in row]


def count_after(first):
    """How many numbers a job file has that begins with this one."""
    return SUPPORT_NUMBERS if first == SUPPORT else NUMBERS


def number_at(data, at):
    """The number that begins at an offset, and the offset after it; nothing where it is damaged."""
    found = re.compile(rb"[\x80-\xff]{0,4}[\x00-\x7f]").match(data, at)
    if not found or (len(found.group()) > 1 and found.group()[-1] == 0):
        return None
    value = sum((byte % 128) << (7 * k) for k, byte in enumerate(found.group()))
    return (value, found.end()) if value <= NUMBER_MOST else None


def numbers_of_file(data):
    """The numbers of a job file, or nothing where it is not the numbers that its first asks for, to its end."""
    row, at = [], 0
    while at < len(data) and (not row or len(row) < count_after(row[0])):
        found = number_at(data, at)
        if found is None:
            return None
        row, at = row + [found[0]], found[1]
    return row if row and len(row) == count_after(row[0]) and at == len(data) else None


def packed(entries):
    return b"".join(entry.to_bytes(2, "little") for entry in entries)


def entries_in(data):
    return [int.from_bytes(data[k:k + 2], "little") for k in range(0, len(data), 2)]


def table_row(at, first, text):
    """The entries of a row of sheet C, ten of them after the slenderness of the first."""
    found = re.fullmatch(r"([0-9]{1,3})((?: [0-9]{1,4}){1,10})", text)
    entries = [int(word) for word in found[2].split()] if found else []
    if not found or int(found[1]) != first or len(entries) != min(10, ENTRIES - first):
        raise Fault(f"tests/vectors/sheet-c.txt:{at}: not the next row of the table")
    return entries


def table_c():
    """The entries of sheet C."""
    entries = []
    for at, text in enumerate((HERE / "sheet-c.txt").read_text(encoding="ascii").splitlines(), 1):
        entries += [] if text.startswith("#") else table_row(at, len(entries), text)
    if len(entries) != ENTRIES:
        raise Fault(f"tests/vectors/sheet-c.txt: {ENTRIES} entries expected, {len(entries)} found")
    return entries


def own_sheets():
    """The sheets that every file of vectors may name."""
    return {"T": packed(T), "C": packed(table_c())}


def run_of(word):
    """The entries that a word V or V*N stands for."""
    found = re.fullmatch(r"([0-9]{1,9})(?:\*([0-9]{1,4}))?", word)
    if not found or int(found[1]) > ENTRY_MOST:
        raise Fault(f"'{word}' is no entry V of 16 bits, and no run V*N of such entries")
    return [int(found[1])] * int(found[2] or 1)


def sheet_bytes(text):
    """The bytes of entries, and of the byte more that a sheet of an odd length has."""
    entries, more, byte = text.partition(" and the byte ")
    if more and not (re.fullmatch(r"[0-9]{1,3}", byte) and int(byte) < 256):
        raise Fault(f"'{byte}' is no byte")
    words = [] if entries == "-" else entries.split(" ")
    return packed(entry for word in words for entry in run_of(word)) + (bytes([int(byte)]) if more else b"")


def add_sheet(sheets, parts):
    if len(parts) != 2:
        raise Fault(f"a sheet is sheet;NAME;ENTRIES, and this line has {len(parts) + 1} parts")
    name, text = parts
    if name in sheets:
        raise Fault(f"sheet {name} is given twice")
    sheets[name] = sheet_bytes(text)


def cases_of(path):
    """The cases of one file."""
    sheets, found = own_sheets(), []
    for at, text in enumerate(path.read_text(encoding="ascii").splitlines(), 1):
        word, *parts = text.split(";")
        try:
            if word == "sheet":
                add_sheet(sheets, parts)
            elif not text.startswith("#"):
                found.append(Case(path.name, at, word, parts, sheets))
        except Fault as fault:
            raise Fault(f"tests/vectors/{path.name}:{at}: {fault}") from None
    return found


def cases():
    """The cases of every request-NN.txt."""
    return [case for path in sorted(HERE.glob("request-*.txt")) for case in cases_of(path)]


def fault_in(case, words):
    return Fault(f"tests/vectors/{case.file}:{case.line}: {words}")


def parts_of(case, form):
    """The parts of a case, as many as its form has."""
    if len(case.parts) != len(form.split(";")):
        raise fault_in(case, f"{case.word};{form} expected, {len(case.parts) + 1} parts found")
    return case.parts


def sheet_in(case, name):
    if name not in case.sheets:
        raise fault_in(case, f"there is no sheet '{name}'")
    return case.sheets[name]


def numbers_in(case, text, count=None):
    """The numbers of a part; without a count, as many as a file has that begins with the first."""
    numbers = [int(word) for word in text.split(" ")] if re.fullmatch(NUMBER_ROW, text) else []
    due = count_after(numbers[0] if numbers else 0) if count is None else count
    if len(numbers) != due or max(numbers) > NUMBER_MOST:
        raise fault_in(case, f"{due} whole numbers below 2^32 expected, '{text}' found")
    return numbers


def bytes_in(case, text):
    if not re.fullmatch(HEXADECIMAL, text):
        raise fault_in(case, f"bytes in hexadecimal, or -, expected, '{text}' found")
    return bytes_of(text)


def room_in(case, text):
    if not re.fullmatch(r"[0-9]{1,5}", text):
        raise fault_in(case, f"a length of up to five digits expected, '{text}' found")
    return int(text)


def answer_in(case, text, form, what):
    """An answer, held to the form that it has where nothing is refused."""
    if not re.fullmatch(f"{REFUSED}|{form}", text):
        raise fault_in(case, f"{what} or a refusal expected, '{text}' found")
    return text


def is_before(case, request):
    """Whether the answers of its file are those before a request; the names of the files sort by request."""
    return case.file < f"request-{request:02}.txt"


def lines_since_5(heights, height):
    """The lines 12 and "height" since request 5, of the heights that the report had and the job's own height."""
    if heights == "none":
        return "12 2 0|height none|"
    stability, permitted = map(int, heights.split(" "))
    # The paper: "a stability height from 2,535 to 2,599 now gives 2,534 before the caps", of which that of a single row is lower.
    permitted = min(permitted, 2534) if 2535 <= stability <= 2599 else permitted
    return f"12 {1 if height <= permitted else 2} {permitted}|height {stability} {permitted}|"


def report_since_5(case, report, numbers):
    """A report that was given before request 5 as it is since; nothing is judged, all follows from the report and the height."""
    found = re.fullmatch(BEFORE_5, report)
    if not found or len(numbers) != (NUMBERS if found[2] else SUPPORT_NUMBERS):
        raise fault_in(case, f"a report before request 5 on a job of {len(numbers)} numbers expected, '{report}' found")
    checks, heights, rest = found.groups()
    return checks + (lines_since_5(heights, numbers[HEIGHT]) if heights else SUPPORT_LINE_12) + rest


def answer_since_5(case, answer, numbers):
    """An answer with room enough, as it is since request 5."""
    return report_since_5(case, answer, numbers) if is_before(case, 5) and not answer.startswith("refused ") else answer


def verdict_of(case):
    """The case of a line verdict;SHEET;NUMBERS;ANSWER."""
    name, text, answer = parts_of(case, "SHEET;NUMBERS;ANSWER")
    numbers, due = numbers_in(case, text), answer_in(case, answer, REPORT, "a report")
    return Verdict(case.file, case.line, name, sheet_in(case, name), numbers, answer_since_5(case, due, numbers))


def writing_of(count):
    """What makes the case of a line CALL;NUMBERS;ROOM;ANSWER, the call taking so many numbers."""
    def read(case):
        numbers, room, answer = parts_of(case, "NUMBERS;ROOM;ANSWER")
        due = answer_in(case, answer, HEXADECIMAL, "bytes in hexadecimal")
        return Writing(case.file, case.line, numbers_in(case, numbers, count), room_in(case, room), due)
    return read


def reading_of(case):
    """The case of a line read_job;BYTES;ANSWER."""
    data, answer = parts_of(case, "BYTES;ANSWER")
    return Reading(case.file, case.line, bytes_in(case, data), answer_in(case, answer, NUMBER_ROW, "numbers"))


def too_short_since_5(case, answer, numbers):
    """Refusal 8 since request 5. A support's report is longer by its line 12; how long a scaffold's is, no length alone says."""
    if len(numbers) != SUPPORT_NUMBERS:
        raise fault_in(case, "before request 5 refusal 8 of a scaffold's report does not say how long the report is since")
    return f"refused 8 {int(answer.rpartition(' ')[2]) + len(SUPPORT_LINE_12)}"


def room_and_answer_since_5(case, data, room, answer):
    """The room grows as the report does, so that what was just enough or a byte short still is; no room stays none."""
    short = answer.startswith("refused 8 ")
    if not is_before(case, 5) or (answer.startswith("refused ") and not short):
        return room, answer
    numbers = numbers_of_file(data) or []
    due = too_short_since_5(case, answer, numbers) if short else report_since_5(case, answer, numbers)
    more = len(SUPPORT_LINE_12) if short else len(due) - len(answer)
    return (room + more if room > 0 else 0), due


def file_verdict_of(case):
    """The case of a line verdict_file;SHEET;BYTES;ROOM;ANSWER."""
    name, text, length, answer = parts_of(case, "SHEET;BYTES;ROOM;ANSWER")
    data, first = bytes_in(case, text), answer_in(case, answer, REPORT, "a report")
    room, due = room_and_answer_since_5(case, data, room_in(case, length), first)
    return FileVerdict(case.file, case.line, sheet_in(case, name), data, room, due)


def rows_in(case, text):
    """The numbers of rows; only the last row may have fewer than 25, and it then stands once."""
    runs = [row_run(part) for part in text.split(" / ")] if text != "-" and re.fullmatch(ROWS, text) else []
    whole = all(len(row) == NUMBERS for row, _ in runs[:-1])
    last, times = runs[-1] if runs else ([], 1)
    stands = len(last) == NUMBERS or (len(last) < NUMBERS and times == 1)
    if not re.fullmatch(ROWS, text) or not whole or not stands or max(row_numbers(text), default=0) > NUMBER_MOST:
        raise fault_in(case, f"rows of {NUMBERS} whole numbers below 2^32 expected, '{text[:120]}' found")
    return row_numbers(text)


def book_in(case, text):
    if not re.fullmatch(BOOK, text):
        raise fault_in(case, f"bytes in hexadecimal, or -, expected, '{text[:120]}' found")
    return book_bytes(text)


def book_writing_of(case):
    """The case of a line write_book;ROWS;ROOM;ANSWER."""
    rows, room, answer = parts_of(case, "ROWS;ROOM;ANSWER")
    due = answer_in(case, answer, BOOK, "bytes in hexadecimal")
    return BookWriting(case.file, case.line, rows_in(case, rows), room_in(case, room), due)


def rows_since_9(case, data, answer):
    """What reading a book answers as it is since request 9: a book of no bytes, until then damaged, has no rows, in any room."""
    if data or not is_before(case, 9):
        return answer
    if answer != EMPTY_BEFORE_9:
        raise fault_in(case, f"before request 9 a book of no bytes was '{EMPTY_BEFORE_9}', and '{answer}' is found")
    return EMPTY_SINCE_9


def book_reading_of(case):
    """The case of a line read_book;BYTES;NUMBERS;ANSWER, where the answer names its rows and shows them."""
    data, room, answer = parts_of(case, "BYTES;NUMBERS;ANSWER")
    due = answer_in(case, answer, f"[0-9]{{1,3}} rows: ({ROWS})", "rows")
    count, _, rows = due.partition(" rows: ")
    if rows and len(rows_in(case, rows)) != int(count) * NUMBERS:
        raise fault_in(case, f"{count} rows are said, and as many are not shown")
    book = book_in(case, data)
    return BookReading(case.file, case.line, book, room_in(case, room), rows_since_9(case, book, due))


def answer_since_8(case, answer):
    """An answer as it is since request 8."""
    due = SINCE_8.get((case.file, case.line))
    if due and answer not in ("refused 3 18", "refused 3 43"):
        raise fault_in(case, f"a refusal of field 18 of either job expected, '{answer}' found")
    return due or answer


def between_of(case):
    """The case of a line between;SHEET;MILD;HARSH;ANSWER."""
    name, mild, harsh, answer = parts_of(case, "SHEET;MILD;HARSH;ANSWER")
    due = answer_in(case, answer, OUTCOMES, "twelve outcomes and two heights")
    ends = [numbers_in(case, text, NUMBERS) for text in (mild, harsh)]
    return Between(case.file, case.line, sheet_in(case, name), *ends, answer_since_8(case, due))


def cells_of(case):
    """The case of a line cells;RECORDS;W;ROOM;ANSWER, where the answer names its bytes and shows the numbers."""
    records, w, room, answer = parts_of(case, "RECORDS;W;ROOM;ANSWER")
    due = answer_in(case, answer, PUSHES, "bytes and numbers")
    length, shown, _ = due.partition(" bytes: ")
    if shown and int(length) != 4 * len(pushes(due)):
        raise fault_in(case, f"{length} bytes are said, and as many are not shown")
    return Cells(case.file, case.line, book_in(case, records), numbers_in(case, w, 1)[0], room_in(case, room), due)


def first_failing_of(case):
    """The case of a line first_failing;SHEET;BYTES;ANSWER: a place, or none, and how many rows are judged."""
    name, data, answer = parts_of(case, "SHEET;BYTES;ANSWER")
    due = answer_in(case, answer, FIRST_FAILING, "a place and how many rows are judged")
    place, judged = map(int, due.removeprefix("refused ").split(" "))
    if not due.startswith("refused ") and place not in (judged - 1, NONE):
        raise fault_in(case, f"of a failing row {place} no {judged} rows are judged")
    return FirstFailing(case.file, case.line, sheet_in(case, name), book_in(case, data), due)


# By the word of a call: what makes its case of a line.
CALLS = {"verdict": verdict_of, "write_job": writing_of(NUMBERS), "write_support": writing_of(SUPPORT_NUMBERS),
         "read_job": reading_of, "verdict_file": file_verdict_of, "write_book": book_writing_of,
         "read_book": book_reading_of, "between": between_of, "cells": cells_of, "first_failing": first_failing_of}


def cases_of_call(word):
    """The cases of one call, of every request-NN.txt."""
    return [CALLS[word](case) for case in cases() if case.word == word]
