#!/usr/bin/env python3
"""stack.py [--write] [ARCHIVE]: the most stack that each exported entry of the archive takes.

Reads the machine code (x86-64) with objdump. Each function's code is followed from its first instruction, with what is on the
stack at each place; what an entry takes is added up along its deepest path of calls, its own return address counted. Of what the
archive calls but does not have (memset, memcpy of the C library) only the return address is counted.

What it cannot follow it says, and exits with 1: a stack pointer set in another way, a call through a pointer, a place reached with
two depths, a return with something left on the stack, a function that calls itself. With --write the figures in
include/etglavino.h and docs/TRUST.md become those of the archive.
"""
import os
import re
import subprocess
import sys

ROOT = os.path.join(os.path.dirname(os.path.abspath(__file__)), "..")
ARCHIVE = os.path.join(ROOT, "crates", "etglavino_c", "out", "libetglavino_c.a")
# The lines that tell an entry's figure.
TOLD = {"include/etglavino.h": " *   {:<23}{:>9}", "docs/TRUST.md": "| `{}` | {} |"}
WORD = 8
HEAD = re.compile(r"^[0-9a-f]+ <(.+)>:$")
LINE = re.compile(r"^ *([0-9a-f]+):\t(\S+) *(.*)$")
RELOCATION = re.compile(r"^\t+[0-9a-f]+: R_X86_64_\w+\t(.+)$")
# Those that may stand for a place on the stack.
REGISTERS = ("%rsp", "%r11", "%rbp")
# What may stand between stretches of code.
PADDING = ("nop", "nopw", "nopl", "xchg", "data16", "cs", "int3")


class Unclear(Exception):
    """What the code does to the stack cannot be told."""


class Instruction:
    """An instruction: its place, name and operands, and the function that a call or a jump out goes to."""

    def __init__(self, at, name, operands):
        self.at, self.name, self.operands, self.target = at, name, operands, None


def functions(listing):
    """The functions of a listing by `objdump -d -r`, as lists of instructions by name."""
    found = {}
    code = []
    for line in listing.splitlines():
        head, instruction, relocation = HEAD.match(line), LINE.match(line), RELOCATION.match(line)
        if head:
            if head[1] in found:
                raise Unclear(f"there are two functions {head[1]}")
            code = found[head[1]] = []
        elif instruction:
            at, name, operands = instruction.groups()
            code.append(Instruction(int(at, 16), name, operands.split(" #")[0].strip()))
            itself = re.fullmatch(r"[0-9a-f]+ <([^+]+)>", operands)
            if name == "call" and itself:
                code[-1].target = itself[1]
        elif relocation and code[-1].name.startswith(("call", "j")):
            if not relocation[1].endswith("-0x4"):
                raise Unclear(f"a call or a jump to {relocation[1]}")
            code[-1].target = relocation[1].removeprefix(".text.").removesuffix("-0x4")
    return found


class Frame:
    '''How deep the stack is at each place of a function.

    >>> code = functions("""
    ... 0000000000000000 <f>:
    ...    0:\\tpush   %rbx
    ...    1:\\tmov    %rsp,%r11
    ...    4:\\tsub    $0x8000,%r11
    ...    9:\\tsub    $0x1000,%rsp
    ...   10:\\tmovq   $0x0,(%rsp)
    ...   18:\\tcmp    %r11,%rsp
    ...   1b:\\tjne    9 <f+0x9>
    ...   1d:\\tsub    $0x28,%rsp
    ...   21:\\tcall   26 <f+0x26>
    ... \\t\\t\\t22: R_X86_64_PLT32\\t.text.g-0x4
    ...   26:\\tadd    $0x8028,%rsp
    ...   2d:\\tpop    %rbx
    ...   2e:\\tret
    ... """)
    >>> frame = Frame("f", code["f"])
    >>> [frame.deepest == 8 + 0x8028 + 8, frame.calls == [("g", frame.deepest)]]
    [True, True]
    >>> code = functions("""
    ... 0000000000000000 <g>:
    ...    0:\\tpush   %rbx
    ...    1:\\tmov    %rax,-0x18(%rsp)
    ...    6:\\tpop    %rbx
    ...    7:\\tret
    ... """)
    >>> Frame("g", code["g"]).deepest == 8 + 0x18
    True
    '''

    def __init__(self, name, code):
        self.name = name
        self.code = code
        self.places = {instruction.at: index for index, instruction in enumerate(code)}
        self.depths = {}
        self.deepest = 0
        self.calls = []
        self.switches = []
        self.follow(0, (0, None, None))
        self.follow_switches()

    def unclear(self, instruction, why):
        words = f"{instruction.name} {instruction.operands}".strip()
        raise Unclear(f"{self.name}, {instruction.at:x}: {words}: {why}")

    def follow(self, index, state):
        """From an instruction on, with the depths that the registers stand for before it."""
        todo = [(index, state)]
        while todo:
            index, state = todo.pop()
            if index == len(self.code):
                raise Unclear(f"{self.name}: goes on past its end")
            instruction = self.code[index]
            if index in self.depths:
                if self.depths[index] != state[0]:
                    self.unclear(instruction, f"reached with {self.depths[index]} and {state[0]} octets")
                continue
            self.depths[index] = state[0]
            todo.extend(self.steps(index, instruction, state))

    def follow_switches(self):
        """What only a table of jumps leads to begins as deep as the jumps through such tables are."""
        for index, instruction in enumerate(self.code):
            if index in self.depths or instruction.name in PADDING:
                continue
            if len({state[0] for state in self.switches}) != 1:
                self.unclear(instruction, "no jump leads here, or jumps from several depths")
            self.follow(index, (self.switches[0][0], None, None))

    def steps(self, index, instruction, state):
        """Where it goes on after the instruction, and how deep."""
        name, operands = instruction.name, instruction.operands
        depth = state[0]
        below = re.search(r"-(0x[0-9a-f]+)\(%rsp", operands)
        if below:
            # A function that calls nothing may use what lies below the stack pointer.
            self.reach(depth + int(below[1], 16))
        if name == "ret":
            if depth:
                self.unclear(instruction, f"{depth} octets are left")
            return []
        if name in ("ud2", "int3"):
            return []
        if name == "call":
            if not instruction.target:
                self.unclear(instruction, "through a pointer")
            self.reach(depth + WORD)
            self.calls.append((instruction.target, depth + WORD))
            return [(index + 1, state)]
        if name.startswith("j") and instruction.target:
            if depth:
                self.unclear(instruction, f"{depth} octets are left")
            self.calls.append((instruction.target, 0))
            return [] if name == "jmp" else [(index + 1, state)]
        if name == "jmp" and operands.startswith("*"):
            self.switches.append(state)
            return []
        if name.startswith("j"):
            return self.jumps(index, instruction, state)
        state = self.changed(instruction, state)
        self.reach(state[0])
        return [(index + 1, state)]

    def jumps(self, index, instruction, state):
        target = self.places.get(int(instruction.operands.split()[0], 16))
        if target is None:
            self.unclear(instruction, "leads out of the function")
        if instruction.name == "jmp":
            return [(target, state)]
        before = self.code[index - 1]
        if instruction.name == "jne" and (before.name, before.operands) == ("cmp", "%r11,%rsp"):
            # A large frame is made page by page, up to the place that %r11 tells.
            depth, end, base = state
            if end is None or end < depth:
                self.unclear(instruction, "a loop over pages without an end")
            self.reach(end)
            return [(index + 1, (end, None, base))]
        return [(index + 1, state), (target, state)]

    def reach(self, depth):
        self.deepest = max(self.deepest, depth)

    def changed(self, instruction, state):
        """The depths after an instruction that goes on to the next."""
        name, operands = instruction.name, instruction.operands
        depths = dict(zip(REGISTERS, state))
        source, _, register = operands.rpartition(",")
        if name.startswith("push"):
            depths["%rsp"] += WORD
        elif name.startswith("pop"):
            depths["%rsp"] -= WORD
            if operands in depths:
                depths[operands] = None
        elif register in depths and name not in ("cmp", "test"):
            depths[register] = self.moved(name, source, depths, depths[register])
        elif re.fullmatch(r"%(r11[dwb]|ebp|bp|bpl)", register or operands):
            depths["%r11" if "r11" in operands else "%rbp"] = None
        if depths["%rsp"] is None or name in ("leave", "enter"):
            self.unclear(instruction, "sets the stack pointer")
        return tuple(depths.values())

    @staticmethod
    def moved(name, source, depths, depth):
        """The depth that a register stands for when it is set so; none where that cannot be told."""
        number = re.fullmatch(r"\$(-?0x[0-9a-f]+)", source)
        if number and depth is not None:
            if name == "sub":
                return depth + int(number[1], 16)
            if name == "add":
                return depth - int(number[1], 16)
            if name == "and":
                # At most that much is left out to stand at a multiple of a power of two.
                return depth + (-int(number[1], 16) & 0xFFFFFFFFFFFFFFFF) - WORD
        if name == "mov":
            return depths.get(source)
        place = re.fullmatch(r"(-?0x[0-9a-f]+)?\((%\w+)\)", source)
        if name == "lea" and place and depths.get(place[2]) is not None:
            return depths[place[2]] - int(place[1] or "0", 16)
        return None


# How often a function may stand on the stack that calls itself. `reader::read` calls itself for basic text outside braces, with form 1,
# for which it does not: the form is the measure by which it is proved to end.
AT_MOST = {"reader::read": 2}


class Stack:
    """An archive's functions, and what each takes at most."""

    def __init__(self, listing):
        self.functions = functions(listing)
        self.known = {}
        self.outside = set()

    def deepest(self, name, above=()):
        """The most octets that a function takes, and the functions on the way there.

        >>> code = '''
        ... 0000000000000000 <f>:
        ...    0:\\tpush   %rbx
        ...    1:\\tcall   6 <f+0x6>
        ... \\t\\t\\t2: R_X86_64_PLT32\\t.text.g-0x4
        ...    6:\\tpop    %rbx
        ...    7:\\tret
        ... 0000000000000000 <g>:
        ...    0:\\tsub    $0x28,%rsp
        ...    4:\\tcall   9 <g+0x9>
        ... \\t\\t\\t5: R_X86_64_PLT32\\tNAME-0x4
        ...    9:\\tadd    $0x28,%rsp
        ...    d:\\tret
        ... '''
        >>> Stack(code.replace("NAME", "memset")).deepest("f")
        (64, ('f', 'g'))
        >>> Stack(code.replace("NAME", ".text.f")).deepest("f")
        Traceback (most recent call last):
        stack.Unclear: f calls itself: f, g, f
        """
        if name in AT_MOST:
            return self.repeated(name, above)
        if name in above:
            cycle = above[above.index(name):] + (name,)
            raise Unclear(f"{name} calls itself: {', '.join(cycle)}")
        if name not in self.functions:
            self.outside.add(name)
            return 0, ()
        if name not in self.known:
            self.known[name] = self.along(name, above)
        return self.known[name]

    def along(self, name, above):
        """A function's own frame, or the deepest of those that it calls below it."""
        frame = Frame(name, self.functions[name])
        most = frame.deepest, (name,)
        for callee, depth in frame.calls:
            below, path = self.deepest(callee, above + (name,))
            most = max(most, (depth + below, (name,) + path), key=lambda found: found[0])
        return most

    def repeated(self, name, above):
        """A function that calls itself a known number of times at most: past that, nothing."""
        if above.count(name) >= AT_MOST[name]:
            return 0, ()
        return self.along(name, above)


def run(*words):
    return subprocess.run(words, check=True, capture_output=True, text=True).stdout


def entries(archive):
    """The names that the archive exports."""
    symbols = run("objdump", "-t", archive)
    return sorted(re.findall(r"^[0-9a-f]+ g +F \S+\t[0-9a-f]+ (.+)$", symbols, re.M))


def write(figures):
    """Puts the figures where they are told."""
    for name, line in TOLD.items():
        path = os.path.join(ROOT, name)
        with open(path, encoding="utf-8") as file:
            text = file.read()
        for entry, octets in figures.items():
            old = re.sub(r"(\\ )+", " +", re.escape(line.format(entry, "@"))).replace("@", r"[\d,]+")
            text, count = re.subn(f"^{old}$", line.format(entry, f"{octets:,}"), text, flags=re.M)
            if count != 1:
                raise Unclear(f"{name} has {count} lines for {entry}")
        with open(path, "w", encoding="utf-8") as file:
            file.write(text)


def main(words):
    told = "--write" in words
    archive = next((word for word in words if word != "--write"), ARCHIVE)
    stack = Stack(run("objdump", "-d", "-r", "--no-show-raw-insn", archive))
    figures, unclear = {}, []
    print("| entry | octets of stack | deepest by |\n|---|--:|---|")
    for entry in entries(archive):
        try:
            octets, path = stack.deepest(entry)
        except Unclear as why:
            unclear.append(f"{entry}: {why}")
            continue
        # The entry's own return address counts.
        figures[entry] = octets + WORD
        print(f"| `{entry}` | {figures[entry]:,} | {', '.join(f'`{name}`' for name in path[1:])} |")
    print(f"\nCalled and not in the archive: {', '.join(sorted(stack.outside)) or 'nothing'}.")
    if unclear:
        raise Unclear("\n".join(unclear))
    if told:
        write(figures)


if __name__ == "__main__":
    try:
        main(sys.argv[1:])
    except Unclear as unclear:
        sys.exit(f"{unclear}")
