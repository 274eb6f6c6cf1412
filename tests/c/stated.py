"""The ranges that the header and --help name for the numbers of a job, read from their words, and command lines that try them."""
import collections
import pathlib
import re

HEADER = pathlib.Path(__file__).resolve().parent.parent.parent / "include" / "rembilung.h"
# Jobs that stay accepted when any one number goes to an end of its range.
PLAIN = {25: [1, 1, 105, 100, 100, 2, 2000, 1, 10, 1, 0, 30000, 0, 100, 200, 1000, 1, 500, 1, 240, 1, 8000, 1, 100, 1000],
         13: [3, 1, 100, 50, 100, 1000, 1000, 200, 1000, 500, 1, 100, 1000]}
# Where a range holds in one case alone, the words that say so, and the number and its value that they mean.
WHERE = {"double row": (1, 1), "single row": (1, 2), "open": (17, 1), "half closed": (17, 2), "fully closed": (17, 3)}

# A range from low to high of a number, counted from 1, of a job of so many; where is a case as WHERE has it, or nothing.
Range = collections.namedtuple("Range", "count number where low high")


def case_in(words):
    """The last case that words name."""
    found = re.findall("|".join(WHERE), words.lower())
    return WHERE[found[-1]] if found else None


def of_header(count, number, words):
    """The ranges in the words of one number, each after the case in which it holds."""
    found = re.findall(r"(.*?)([0-9]+) to ([0-9]+)", re.sub(r",| \([^)]*\)", "", words))
    return [Range(count, number, case_in(before), int(low), int(high)) for before, low, high in found]


def of_help(count, number, words):
    """The same, each before the case in which it holds."""
    found = re.findall(r"([0-9]+) to ([0-9]+)([^0-9]*)", words)
    return [Range(count, number, case_in(after), int(low), int(high)) for low, high, after in found]


def in_header():
    """The ranges of both kinds that the header names beside the numbers of each."""
    text = re.sub(r"\n +\* +", " ", HEADER.read_text(encoding="ascii"))
    ranges = []
    for enum, count in (("rembilung_number", 25), ("rembilung_support_number", 13)):
        numbers = re.findall(r"/\* +([0-9]+)  (.*?) \*/", re.search(rf"enum {enum} {{(.*?)}};", text, re.DOTALL)[1])
        ranges += [found for number, words in numbers for found in of_header(count, int(number), words)]
    return ranges


def in_help(text):
    """The ranges of both kinds that --help names."""
    ranges = []
    for count in PLAIN:
        part = re.search(rf"The {count} numbers of .*?(?:\n\n|\Z)", text, re.DOTALL)[0]
        numbers = re.findall(r"^ +([0-9]+)  [^:]*: (.*)$", part, re.MULTILINE)
        ranges += [found for number, words in numbers for found in of_help(count, int(number), words)]
    return ranges


def with_numbers(count, *changes):
    """The plain job of so many numbers with some of them set, as words."""
    job = list(PLAIN[count])
    for number, value in changes:
        job[number - 1] = value
    return [str(value) for value in job]


def trials(found):
    """Command lines for the ends of a range and the numbers beside them, and whether each stands."""
    where = [found.where] if found.where else []
    values = [(found.low - 1, False), (found.low, True), (found.high, True), (found.high + 1, False)]
    return [(with_numbers(found.count, *where, (found.number, value)), stands) for value, stands in values if value >= 0]
