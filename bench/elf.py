"""Reads 64-bit ELF files: sections, symbols, relocations, and what a function reaches through them."""
import collections
import struct

EXECUTED, ALLOCATED, WRITTEN = 4, 2, 1
SYMBOLS, RELOCATIONS = 2, 4

Section = collections.namedtuple("Section", "name type flags address offset size link info")
Symbol = collections.namedtuple("Symbol", "name kind section value size")


class Elf:
    """One object or program: `sections`, `symbols`, and `points`, the symbols that each section's relocations name."""

    def __init__(self, path):
        self.data = path.read_bytes()
        if self.data[:6] != b"\x7fELF\x02\x01":
            raise ValueError(f"{path.name} is not a 64-bit little-endian ELF file")
        table, count, names = struct.unpack_from("<Q", self.data, 40)[0], *struct.unpack_from("<HH", self.data, 60)
        raw = [struct.unpack_from("<IIQQQQIIQQ", self.data, table + 64 * k) for k in range(count)]
        text = raw[names][4]
        self.sections = [Section(self.text(text + r[0]), *r[1:8]) for r in raw]
        self.symbols = self.read_symbols()
        self.points = self.read_relocations()

    def text(self, at):
        return self.data[at:self.data.index(b"\0", at)].decode()

    def read_symbols(self):
        symbols = []
        for section in (s for s in self.sections if s.type == SYMBOLS):
            names = self.sections[section.link].offset
            for at in range(section.offset, section.offset + section.size, 24):
                name, info, _, home, value, size = struct.unpack_from("<IBBHQQ", self.data, at)
                symbols.append(Symbol(self.text(names + name), info & 15, home, value, size))
        return symbols

    def read_relocations(self):
        points = collections.defaultdict(list)
        for section in (s for s in self.sections if s.type == RELOCATIONS):
            for at in range(section.offset, section.offset + section.size, 24):
                points[section.info].append(self.symbols[struct.unpack_from("<QQq", self.data, at)[1] >> 32])
        return points

    def word(self, address):
        """The four bytes of constants at an address of a program as a number with a sign, or nothing where none stand there."""
        for section in (s for s in self.sections if kind(s) == "constants"):
            if section.address <= address <= section.address + section.size - 4:
                return struct.unpack_from("<i", self.data, section.offset + address - section.address)[0]
        return None

    def reached(self, names):
        """The sections that functions reach through relocations, and the names that they ask for from outside."""
        todo = [s.section for s in self.symbols if s.name in names and s.section]
        found, asked = set(), set()
        while todo:
            section = todo.pop()
            if section in found:
                continue
            found.add(section)
            asked |= {s.name for s in self.points[section] if s.section == 0}
            todo += [s.section for s in self.points[section] if s.section]
        return [self.sections[k] for k in sorted(found)], asked


def kind(section):
    """What a section is to one who burns it: code, constants, unwind tables, data that is written, or nothing."""
    if not section.flags & ALLOCATED or section.size == 0:
        return "nothing"
    if section.flags & EXECUTED:
        return "code"
    if section.name.startswith((".eh_frame", ".gcc_except_table")):
        return "unwind"
    if section.flags & WRITTEN and not section.name.startswith(".data.rel.ro"):
        return "written"
    return "constants"


def sizes(sections):
    """Bytes by kind."""
    counted = collections.Counter()
    for section in sections:
        counted[kind(section)] += section.size
    return counted
