"""Bounds the stack of each function of a linked x86-64 program from its disassembly, and fails at what it cannot bound."""
import collections
import re

Instruction = collections.namedtuple("Instruction", "at name operands next")
ENDS = {"ret", "retq", "ud2", "hlt"}
# How the compiler jumps by a number: a table's address, the entry of the number, both added, and there.
BY_TABLE = (("lea", r"(-?)(0x[0-9a-f]+)\(%rip\),(?P<table>%\w+)"), ("movslq", r"\((?P<table>%\w+),%\w+,4\),(?P<to>%\w+)"),
            ("add", r"(?P<table>%\w+),(?P<to>%\w+)"), ("jmp", r"\*(?P<to>%\w+)"))


class Unbounded(Exception):
    """Why no bound can be given; its text is shown."""


def functions(disassembly):
    """By name: the instructions of each function, from what objdump -d --no-show-raw-insn prints."""
    found, name = collections.OrderedDict(), None
    for line in disassembly.splitlines():
        begins = re.match(r"^[0-9a-f]+ <(.+)>:$", line)
        one = re.match(r"^ *([0-9a-f]+):\t(\S+)\s*(.*?)\s*(?:#.*)?$", line)
        if begins:
            name = begins.group(1)
            found[name] = []
        elif one and name:
            found[name].append([int(one.group(1), 16), one.group(2), one.group(3)])
    for lines in found.values():
        following = [line[0] for line in lines[1:]] + [None]
        lines[:] = [Instruction(*line, after) for line, after in zip(lines, following)]
    return found


def signed(text):
    value = int(text, 16)
    return value - (1 << 64) if value >= 1 << 63 else value


def moved(one):
    """By how much an instruction lowers the stack pointer; one that sets it otherwise cannot be followed."""
    if one.name in ("push", "pushf", "pushfq"):
        return 8
    if one.name in ("pop", "popf", "popfq") and one.operands != "%rsp":
        return -8
    by = re.fullmatch(r"\$(0x[0-9a-f]+),%rsp", one.operands)
    if by and one.name in ("sub", "add"):
        return signed(by.group(1)) * (1 if one.name == "sub" else -1)
    by = re.fullmatch(r"(-?)(0x[0-9a-f]+)\(%rsp\),%rsp", one.operands)
    if by and one.name == "lea":
        return int(by.group(2), 16) * (1 if by.group(1) else -1)
    if one.name in ("leave", "enter") or (re.search(r"(^|,)%[er]?sp$", one.operands) and one.name not in ("cmp", "test")):
        raise Unbounded(f"the stack pointer is set by {one.name} {one.operands}")
    return 0


def below(one):
    """How far below the stack pointer an instruction reaches."""
    reach = re.search(r"-(0x[0-9a-f]+)\(%rsp", one.operands)
    return int(reach.group(1), 16) if reach else 0


def target(one):
    """Where a call or jump goes; through a register or memory it cannot be followed."""
    if "*" in one.operands:
        raise Unbounded(f"{one.name} {one.operands} goes to no fixed place")
    return int(one.operands.split()[0], 16)


def table_address(lines):
    """The address of the table by which the last of these instructions jumps, or nothing where they are not of that form."""
    found = [re.fullmatch(form, one.operands) if one.name == name else None for one, (name, form) in zip(lines, BY_TABLE)]
    if len(lines) < len(BY_TABLE) or not all(found):
        return None
    registers = [one.groupdict() for one in found]
    if len({r["table"] for r in registers[:3]}) > 1 or len({r["to"] for r in registers[1:]}) > 1:
        return None
    sign, distance = found[0].group(1, 2)
    return lines[0].next + int(sign + distance, 16)


class Frames:
    """The stack of every function, in bytes below the return address to its caller. word_at has the constants of the program."""

    def __init__(self, disassembly, word_at):
        self.code, self.word_at = functions(disassembly), word_at
        self.entry = {lines[0].at: name for name, lines in self.code.items() if lines}
        self.depths, self.active = {}, []

    def callee(self, at):
        if at not in self.entry:
            raise Unbounded(f"a call or jump goes to {at:x}, where no function begins")
        return self.entry[at]

    def depth(self, name):
        """The greatest depth below the return address, over every path, and the path that reaches it."""
        if name in self.active:
            raise Unbounded(f"recursion: {' calls '.join(self.active[self.active.index(name):] + [name])}")
        if name not in self.depths:
            self.active.append(name)
            try:
                self.depths[name] = self.follow(name)
            except Unbounded as fault:
                raise Unbounded(str(fault) if ", in " in str(fault) else f"{fault}, in {name}") from None
            self.active.pop()
        return self.depths[name]

    def follow(self, name):
        inside = {one.at: one for one in self.code[name]}
        seen, todo = {}, [(self.code[name][0].at, 0)]
        deepest = (0, [name])
        while todo:
            at, down = todo.pop()
            if seen.setdefault(at, down) != down:
                raise Unbounded(f"two ways to {at:x} have different stacks")
            one = inside[at]
            after = down + moved(one)
            deepest = max(deepest, (max(after, down + below(one)), [name]))
            if one.name.startswith("call"):
                depth, path = self.depth(self.callee(target(one)))
                deepest = max(deepest, (down + 8 + depth, [name] + path))
            elif one.name.startswith("j") and "*" not in one.operands and target(one) not in inside:
                deepest = max(deepest, self.left(name, one, down))
            todo += [(to, after) for to in self.following(one, inside) if (to, after) not in seen.items()]
        return deepest

    def left(self, name, one, down):
        """A jump out of the function stands for a call that returns to its caller."""
        if down != 0:
            raise Unbounded(f"a jump leaves {name} with {down} bytes on the stack")
        depth, path = self.depth(self.callee(target(one)))
        return depth, [name] + path

    def following(self, one, inside):
        """Where the code goes on from an instruction within its function."""
        if one.name == "jmp" and "*" in one.operands:
            return self.by_table(one, inside)
        after = [target(one)] if one.name.startswith("j") and target(one) in inside else []
        ends = one.name in ENDS or one.name.startswith("jmp")
        if not ends and one.next is None:
            raise Unbounded(f"the code runs out at {one.at:x}")
        return after + ([] if ends else [one.next])

    def by_table(self, one, inside):
        """Where a jump by a table goes, if no other jump leads between the four instructions. The table's end is not known: an
        entry counts as long as it leads to an instruction of the function, which may be more than there are and never fewer."""
        lines = [inside[at] for at in sorted(inside) if at <= one.at][-len(BY_TABLE):]
        entered = {target(j) for j in inside.values() if j.name.startswith("j") and "*" not in j.operands}
        at = table = None if entered & {line.at for line in lines[1:]} else table_address(lines)
        found = []
        while at is not None and self.word_at(at) is not None and table + self.word_at(at) in inside:
            found, at = found + [table + self.word_at(at)], at + 4
        return found or [target(one)]
