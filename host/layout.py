#!/usr/bin/env python3
"""Checks that the unoptimised LLVM text of the proved library means the same on a target whose pointers take four bytes.

    layout.py MODULE.ll..

The text lays out all memory by itself, in bytes, with eight for a pointer. It means the same where a pointer takes four of them if

 1. no instruction sees a pointer as a number (ptrtoint, inttoptr, a comparison but with null, an atomic), and no type but `ptr` has a size that the
    target chooses: an `alloca ptr` is only loaded from and stored to as `ptr`, so that four bytes or eight make no difference. A pair of
    numbers, `{ i8, i64 }`, has its second number at a multiple of that number's size, on all these targets, and so has a slice,
    `{ ptr, i64 }`. A pointer that may be missing, `{ i8, ptr }`, would have its pointer after four bytes or eight: it is never loaded from
    memory as one value (host/apart.py loads its parts);
 2. no byte of a slot that holds a pointer is ever read or written as part of a number, nor the other way round; only a slot as a whole
    may be filled with zeros, which are the null pointer where it takes four bytes and where it takes eight.

The second is followed through calls, copies and pointers kept in memory, for all callers at once. Every line has to be of a known form:
one that is not is reported, never passed over. Exit status 1 with what is reported, 2 where a file can't be read."""
from __future__ import annotations

import re
import sys
from collections import defaultdict
from pathlib import Path

ANY = "any"          # an offset that is not known
FARTHEST = 65536     # an offset past this counts as any
LOOPS = 40           # rounds after which an offset that still grows, as in a loop, counts as any
SIZE = {"ptr": 8, "i64": 8, "i32": 4, "i16": 2, "i8": 1, "i1": 1}

VALUE = r'%(?:[\w.]+|"[^"]*")'
NAME = r'@(?:"[^"]*"|[\w.]+)'
NUMBER = r"i(?:1|8|16|32|64)"
PAIR = rf"\{{ {NUMBER}, {NUMBER} \}}"
LENT = r"\{ ptr, i64 \}|\{ i8, ptr \}"  # a slice, a pointer that may be missing
OPERAND = rf"(?:{VALUE}|-?\d+|true|false)"
PLACE = rf"(?:{OPERAND}|@static\.\d+)"
NOTES = r"(?:, ![\w.]+ !\d+)*"
FORMS = {kind: re.compile(form) for kind, form in {
    "alloca": rf"({VALUE}) = alloca (ptr|{NUMBER}|\[(\d+) x i8\]), align \d+",
    "gep": rf"({VALUE}) = getelementptr (?:inbounds )?(?:nuw )?i8, ptr ({VALUE}), i64 ({OPERAND})",
    "load": rf"({VALUE}) = load (ptr|{NUMBER}), ptr ({VALUE}), align \d+{NOTES}",
    "pair": rf"{VALUE} = load ({PAIR}), ptr ({VALUE}), align \d+{NOTES}",
    "part": rf"{VALUE} = extractvalue {PAIR} {VALUE}, [01]",
    "slice": rf"({VALUE}) = load {{ ptr, i64 }}, ptr ({VALUE}), align 8{NOTES}",
    "lent": rf"({VALUE}) = extractvalue (?:{{ ptr, i64 }} ({VALUE}), 0|{{ i8, ptr }} ({VALUE}), 1)",
    "beside": rf"{VALUE} = extractvalue (?:{{ ptr, i64 }} {VALUE}, 1|{{ i8, ptr }} {VALUE}, 0)",
    "byte": rf"{VALUE} = insertvalue {{ i8, ptr }} poison, i8 {OPERAND}, 0",
    "place": rf"({VALUE}) = insertvalue {{ i8, ptr }} {VALUE}, ptr ({VALUE}), 1",
    "store": rf"store (ptr|{NUMBER}) ({PLACE}), ptr ({VALUE}), align \d+",
    "call": rf"(?:({VALUE}) = )?(?:tail )?call (?:noundef )?(?:zeroext )?(void|ptr|{NUMBER}|{PAIR}|{LENT}) ({NAME})\((.*)\)(?: #\d+)?{NOTES}",
    "return": rf"ret (?:void|(ptr|{NUMBER}|{LENT}) ({OPERAND})|{PAIR} {VALUE})",
    "number": rf"{VALUE} = (?:add|sub|mul|udiv|urem|sdiv|srem|and|or|xor|shl|lshr|ashr)(?: nuw| nsw| exact)* {NUMBER} {OPERAND}, {OPERAND}",
    "compare": rf"{VALUE} = icmp (?:eq|ne|[us][gl][te]) {NUMBER} {OPERAND}, {OPERAND}",
    "null": rf"{VALUE} = icmp eq ptr {VALUE}, null",
    "convert": rf"{VALUE} = (?:zext|trunc)(?: nneg| nuw| nsw)* {NUMBER} {OPERAND} to {NUMBER}",
    "jump": rf"br (?:label {VALUE}|i1 {OPERAND}, label {VALUE}, label {VALUE}){NOTES}|unreachable",
    "switch": rf"switch {NUMBER} {OPERAND}, label {VALUE} \[|{NUMBER} -?\d+, label {VALUE}|\]",
}.items()}
FUNCTION = re.compile(rf"define (?:internal )?(?:noundef )?(?:zeroext )?(?:void|{NUMBER}|ptr|{PAIR}|{LENT}) ({NAME})\((.*)\) #[0-2] {{")
ARGUMENT = re.compile(rf"(ptr|{NUMBER})(?: noundef| zeroext| align \d+)* ({PLACE})")
# bytes that are only read, and no pointers
STATIC = re.compile(r'(@static\.\d+) = private (?:unnamed_addr )?constant \[(\d+) x i8\] (?:c"[^"]*"|zeroinitializer), align \d+')
OUTSIDE = re.compile(r"|;.*|source_filename = .*|target (?:datalayout|triple) = .*|attributes #\d+ = .*|!.*|}|[\w.]+:.*|\"[^\"]*\":.*|"
                     r"declare \w+ @llvm\.(?:memmove\.p0\.p0\.i64|memset\.p0\.i64|trap|ctlz\.i64)\(.*")


class Module:
    """What a module does with memory. A value is a function's name and its own; an access is an offset and a type."""

    def __init__(self, text: str) -> None:
        self.reports: list = []
        self.instructions = 0
        self.parameters: dict = {}           # function -> its values, None for those that are no pointer
        self.returned = defaultdict(list)    # function -> pointers that it returns
        self.calls: list = []                # (function, arguments, result)
        self.allocas: dict = {}              # value -> (bytes, whether it is one pointer, line)
        self.steps: list = []                # (value, the value that it starts from, offset between them)
        self.copies: list = []               # (value, value, bytes)
        self.seen = defaultdict(set)         # value -> accesses through it
        self.loaded: list = []               # (pointer, where it is loaded from)
        self.stored: list = []               # (pointer, where it is stored to)
        function = None
        for number, line in enumerate(text.split("\n"), 1):
            if line.startswith("define "):
                function = self._function(number, line)
            elif line.startswith("  ") and function:
                self._instruction(function, number, line.strip())
            elif static := STATIC.fullmatch(line):
                self.seen["", static[1]].add((0, int(static[2])))
            elif not OUTSIDE.fullmatch(line):
                self._report(number, line, "an unknown form")
            if line.startswith("}"):
                function = None
        self._join_calls()

    def _report(self, number: int, line: str, why: str) -> None:
        self.reports.append(f"line {number}: {why}: {line.strip()[:100]}")

    def _function(self, number: int, line: str):
        found = FUNCTION.fullmatch(line)
        if not found:
            self._report(number, line, "an unknown form of a function")
            return None
        function = found[1]
        self.parameters[function] = self._pointers(function, found[2], number, line)
        return function

    def _pointers(self, function: str, arguments: str, number: int, line: str) -> list:
        found = [ARGUMENT.fullmatch(one) for one in arguments.split(", ")] if arguments else []
        if None in found:
            self._report(number, line, "an unknown form of an argument")
            return []
        return [self._pointer(function, one[2]) if one[1] == "ptr" else None for one in found]

    @staticmethod
    def _pointer(function: str, name: str) -> tuple:
        """A value: one of the function's own, or the module's constant bytes."""
        return ("", name) if name.startswith("@") else (function, name)

    def _one_pointer(self, value) -> bool:
        return value in self.allocas and self.allocas[value][1]

    def _instruction(self, function: str, number: int, line: str) -> None:
        self.instructions += 1
        kind, found = next(((kind, found) for kind, form in FORMS.items() if (found := form.fullmatch(line))), (None, None))
        if kind is None:
            self._report(number, line, "an unknown form")
        elif kind == "alloca":
            self.allocas[function, found[1]] = (int(found[3]) if found[3] else SIZE[found[2]], found[2] == "ptr", number)
        elif kind == "gep":
            self.steps.append(((function, found[1]), (function, found[2]), int(found[3]) if found[3].isdigit() else ANY))
            if self._one_pointer((function, found[2])):
                self._report(number, line, "a place inside an alloca ptr")
        elif kind == "load":
            self._access((function, found[3]), found[2], number, line)
            if found[2] == "ptr":
                self.loaded.append(((function, found[1]), (function, found[3])))
        elif kind == "pair":
            first, second = re.findall(NUMBER, found[1])
            self._access((function, found[2]), first, number, line)
            self._access((function, found[2]), second, number, line, -SIZE[first] % SIZE[second] + SIZE[first])
        elif kind == "store":
            self._access((function, found[3]), found[1], number, line)
            if found[1] == "ptr":
                self.stored.append((self._pointer(function, found[2]), (function, found[3])))
                if self._one_pointer((function, found[2])):
                    self._report(number, line, "the place of an alloca ptr is stored")
        elif kind == "call":
            self._call(function, found, number, line)
        elif kind == "slice":
            self._access((function, found[2]), "ptr", number, line)
            self._access((function, found[2]), "i64", number, line, SIZE["ptr"])
            self.loaded.append(((function, found[1]), (function, found[2])))
        elif kind == "lent":
            self.steps.append(((function, found[1]), (function, found[2] or found[3]), 0))
        elif kind == "place":
            self.steps.append(((function, found[1]), (function, found[2]), 0))
            if self._one_pointer((function, found[2])):
                self._report(number, line, "an alloca ptr handed on by its place")
        elif kind == "return" and found[1] and not re.fullmatch(NUMBER, found[1]):
            self.returned[function].append((function, found[2]))

    def _access(self, value, kind: str, number: int, line: str, place: int = 0) -> None:
        self.seen[value].add((place, kind))
        if kind != "ptr" and self._one_pointer(value):
            self._report(number, line, "an alloca ptr read or written as a number")

    def _call(self, function: str, found, number: int, line: str) -> None:
        result, _, callee, arguments = found.groups()
        handed = self._pointers(function, arguments, number, line)
        if any(self._one_pointer(one) for one in handed):
            self._report(number, line, "an alloca ptr handed on by its place")
        if callee.startswith("@llvm.memmove.") or callee.startswith("@llvm.memset."):
            length = re.search(r", i64 (\d+), i1 false$", arguments)
            if not length or len(handed) != 4:
                self._report(number, line, "a copy of no fixed length")
            elif callee.startswith("@llvm.memmove."):
                self.copies.append((handed[0], handed[1], int(length[1])))
            else:
                filled = int(length[1])
                self.seen[handed[0]].add((0, -filled if ", i8 0, " in arguments else filled))
        elif callee not in ("@llvm.trap", "@llvm.ctlz.i64"):
            self.calls.append((callee, handed, (function, result)))

    def _join_calls(self) -> None:
        for callee, handed, result in self.calls:
            taken = self.parameters.get(callee, [])
            if len(taken) != len(handed) or any((one is None) != (other is None) for one, other in zip(taken, handed)):
                self.reports.append(f"a call of {callee} that does not fit it, or is not in the module")
                continue
            self.steps += [(one, other, 0) for one, other in zip(taken, handed) if one]
            self.steps += [(result, one, 0) for one in self.returned[callee]]


class Places:
    """Which accesses reach each value, to a fixed point."""

    def __init__(self, module: Module) -> None:
        self.seen = module.seen
        self.kept = defaultdict(dict)  # value -> {offset: the cell that stands for the pointers kept there}
        self.one_of: dict = {}         # cells that are joined
        self.changed = True
        self.rounds = 0
        self.steps = module.steps + [(pointer, self._cell(place), 0) for pointer, place in module.loaded] \
            + [(self._cell(place), pointer, 0) for pointer, place in module.stored]
        self.copies = module.copies
        while self.changed:
            self.changed, self.rounds = False, self.rounds + 1
            self._round()

    def _cell(self, value):
        return self.kept[value].setdefault(0, ("cell", value, 0))

    def _found(self, value):
        while value in self.one_of:
            value = self.one_of[value]
        return value

    def _join(self, one, other) -> None:
        one, other = self._found(one), self._found(other)
        if one != other:
            self.one_of[other] = one
            self.changed = True
            self.seen[one] |= self.seen.pop(other, set())
            for offset, cell in list(self.kept[other].items()):
                self._keep(one, offset, cell)

    def _keep(self, value, offset, cell) -> None:
        if offset in self.kept[value]:
            self._join(self.kept[value][offset], cell)
        else:
            self.kept[value][offset] = cell
            self.changed = True

    def _add(self, value, accesses: set) -> None:
        if self.rounds > LOOPS:
            accesses = accesses - self.seen[value]
            accesses = {(ANY, kind) for _, kind in accesses}
        if not accesses <= self.seen[value]:
            self.seen[value] |= accesses
            self.changed = True

    def _round(self) -> None:
        for value, start, offset in self.steps:
            value, start = self._found(value), self._found(start)
            if value == start:
                if offset != 0:
                    self._add(start, {(ANY, kind) for _, kind in self.seen[value]})
                continue
            self._add(start, {(shifted(place, offset), kind) for place, kind in self.seen[value]})
            for place, cell in list(self.kept[value].items()):
                self._keep(start, shifted(place, offset), cell)
            self._keep_from(value, start, offset)
        for first, second, count in self.copies:
            for to, start in ((first, second), (second, first)):
                to, start = self._found(to), self._found(start)
                self._add(to, {(place, within(kind, place, count)) for place, kind in self.seen[start] if place == ANY or place < count})
                for place, cell in list(self.kept[start].items()):
                    if place == ANY or place < count:
                        self._keep(to, place, cell)

    def _keep_from(self, value, start, offset) -> None:
        """What is kept past `start` is also seen from `value`, where a pointer is read there."""
        if offset == ANY:
            return
        for place, cell in list(self.kept[start].items()):
            if place != ANY and place < offset:
                continue
            nearer = ANY if place == ANY else place - offset
            if (nearer, "ptr") in self.seen[value]:
                self._keep(value, nearer, cell)


def within(kind, place, count):
    """What an access to many bytes touches of the first `count`."""
    if not isinstance(kind, int) or place == ANY or place + abs(kind) <= count:
        return kind
    return count - place if kind > 0 else place - count


def shifted(place, offset):
    return ANY if ANY in (place, offset) or place + offset > FARTHEST else place + offset


def width(kind) -> int:
    return abs(kind) if isinstance(kind, int) else SIZE[kind]


def is_zeros(kind) -> bool:
    """Whether an access fills bytes with zeros: such a kind is the number of bytes, made negative."""
    return isinstance(kind, int) and kind < 0


def meets(pointer: int, place: int, kind) -> bool:
    """Whether an access meets the slot of a pointer, other than by zeros in all of it."""
    apart = place >= pointer + SIZE["ptr"] or pointer >= place + width(kind)
    return not apart and not (is_zeros(kind) and place <= pointer and pointer + SIZE["ptr"] <= place + width(kind))


def slots(places: Places) -> tuple:
    """How many slots hold pointers, and what is wrong with them."""
    count, reports = 0, []
    for value, accesses in places.seen.items():
        pointers = {place for place, kind in accesses if kind == "ptr"}
        numbers = {(place, kind) for place, kind in accesses if kind != "ptr"}
        count += len(pointers)
        if pointers and numbers and (ANY in pointers or any(place == ANY for place, _ in numbers)):
            reports.append(f"{value}: pointers and numbers at offsets that are not known")
            continue
        reports += [f"{value}: a pointer at {pointer} and {kind} at {place}" for pointer in sorted(pointers) for place, kind in numbers
                    if meets(pointer, place, kind)]
    return count, reports


def outside(module: Module, places: Places) -> list:
    return [f"line {number}: {kind} at {place} of {size} bytes" for value, (size, _, number) in module.allocas.items()
            for place, kind in places.seen[value] if place != ANY and place + width(kind) > size]


def check(text: str) -> tuple:
    """What a module holds, in words, and what is reported of it."""
    module = Module(text)
    if module.reports:
        return "", module.reports
    places = Places(module)
    count, reports = slots(places)
    single = sum(one for _, one, _ in module.allocas.values())
    said = f"{len(module.parameters)} functions, {module.instructions} instructions, {len(module.allocas)} allocas, {single} of one " \
        f"pointer; {count} slots hold pointers, and no number meets any of them"
    return said, reports + outside(module, places)


def main(paths) -> int:
    status = 0
    for path in paths:
        try:
            said, reports = check(Path(path).read_text(encoding="utf-8"))
        except OSError as error:
            print(f"layout: {error}", file=sys.stderr)
            return 2
        for report in reports[:20]:
            print(f"layout: {Path(path).stem}: {report}", file=sys.stderr)
        if reports:
            status = 1
        else:
            print(f"layout: {Path(path).stem}: {said}")
    return status


if __name__ == "__main__":
    sys.exit(main(sys.argv[1:]))
