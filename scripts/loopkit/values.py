"""What is known of registers and of the words of a stack while code is followed: numbers of 32 bits, or a start plus a number."""
from __future__ import annotations

from collections import Counter
from dataclasses import dataclass, field

from commonkit.code import is_call, signed

from .flow import Function
from .program import Program

MASK = 0xFFFFFFFF
SP, FRAME = 2, 8
SAVED = frozenset({0, 2, 3, 4, 8, 9, *range(18, 28)})  # registers that a call leaves as they are
STACK = "x2"
SIZES = {0: 1, 1: 2, 2: 4, 4: 1, 5: 2}  # bytes that a load of this kind reads

Known = tuple[str, int]  # a start, "" for none, and a number that is added to it


@dataclass(frozen=True)
class Code:
    """An instruction in its parts."""

    op: int
    kind: int
    target: int
    left: int
    right: int
    number: int
    word: int


def decoded(word: int) -> Code:
    """The parts of an instruction; the number is that of its form."""
    op = word & 127
    number = signed(word >> 20, 12)
    if op == 0x23:
        number = signed(word >> 25 << 5 | word >> 7 & 31, 12)
    elif op in (0x37, 0x17):
        number = word & 0xFFFFF000
    target = 0 if op in (0x63, 0x23, 0x0F, 0x73) else word >> 7 & 31
    return Code(op, word >> 12 & 7, target, word >> 15 & 31, word >> 20 & 31, number, word)


@dataclass
class State:
    """What registers and words of the stack hold, as far as that is known. A word of the stack has its size and its value."""

    registers: dict[int, Known]
    slots: dict[int, tuple[int, Known]] = field(default_factory=dict)

    def copy(self) -> State:
        return State(dict(self.registers), dict(self.slots))

    def get(self, register: int) -> Known | None:
        return ("", 0) if register == 0 else self.registers.get(register)

    def put(self, register: int, value: Known | None) -> None:
        if value is None:
            self.registers.pop(register, None)
        elif register:
            self.registers[register] = value

    def drop_slots(self, first: int, size: int) -> None:
        """Nothing is known any more of these bytes of the stack."""
        for at in [at for at, (wide, _) in self.slots.items() if at < first + size and first < at + wide]:
            del self.slots[at]

    def meet(self, other: State) -> None:
        """Keeps what both say."""
        self.registers = {k: v for k, v in self.registers.items() if other.registers.get(k) == v}
        self.slots = {k: v for k, v in self.slots.items() if other.slots.get(k) == v}


def at_entry() -> State:
    """What a function's registers hold at its entry: each something of its own."""
    return State({register: (f"x{register}", 0) for register in range(1, 32)})


class Machine:
    """Does what a function's instructions do with what is known. `exposed` is the lowest place of the stack whose address the
    code has made: calls, and stores to places that are not known, may change what is there and above it. If the code works out
    other addresses in its frame, such stores may change all words but those that are loaded, and stored twice, as variables
    are."""

    def __init__(self, program: Program, function: Function) -> None:
        self.program = program
        self.codes = {a: decoded(program.word(a) or 0) for a in function.edges}
        self.exposed: int | None = None
        self.names: dict[int, tuple[int, int]] = {}
        self.works_out = any(is_frame_sum(code) for code in self.codes.values())
        loads = {place_of(code) for code in self.codes.values() if code.op == 0x03}
        stores = Counter(place_of(code) for code in self.codes.values() if code.op == 0x23)
        self.variables = {place for place, times in stores.items() if times > 1 and place in loads}

    def do(self, a: int, state: State) -> None:
        """Does what an instruction that is no branch does."""
        code = self.codes[a]
        if code.op == 0x23:
            self.store(code, state)
        elif code.op in (0x6F, 0x67):
            if code.op == 0x67 or is_call(code.word):
                self.call(state)
        elif code.target:
            value = self.value(a, code, state)
            if value and value[0] == STACK and code.target not in (SP, FRAME):
                self.exposed = value[1] if self.exposed is None else min(self.exposed, value[1])
            state.put(code.target, value)

    def value(self, a: int, code: Code, state: State) -> Known | None:
        """What an instruction puts into its register."""
        if code.op == 0x37:
            return "", code.number
        if code.op == 0x17:
            return "", (a + code.number) & MASK
        if code.op == 0x03:
            return self.loaded(code, state)
        left, right = state.get(code.left), state.get(code.right)
        if code.op == 0x33 and code.kind == 7 and code.word >> 25 == 0 and ("", 0) in (left, right):
            return "", 0
        if code.op == 0x13:
            return of_number(code, left) if left else None
        return of_two(code, left, right) if code.op == 0x33 and left and right else None

    def call(self, state: State) -> None:
        state.registers = {k: v for k, v in state.registers.items() if k in SAVED}
        self.forget_exposed(state)

    def forget_exposed(self, state: State) -> None:
        if self.exposed is not None:
            state.slots = {at: slot for at, slot in state.slots.items() if at + slot[0] <= self.exposed}

    def forget_arrays(self, state: State) -> None:
        """A store is to a place that is not known."""
        self.forget_exposed(state)
        if self.works_out:
            state.slots = {at: slot for at, slot in state.slots.items() if self.names.get(at) in self.variables}

    def store(self, code: Code, state: State) -> None:
        base = state.get(code.left)
        if base is None:
            self.forget_arrays(state)
        elif base[0] == STACK:
            at, size = base[1] + code.number, 1 << (code.kind & 3)
            state.drop_slots(at, size)
            self.names.setdefault(at, place_of(code))
            value = state.get(code.right)
            if value is not None and (size == 4 or not value[0]):
                state.slots[at] = (size, value if value[0] else ("", value[1] & (1 << 8 * size) - 1))

    def loaded(self, code: Code, state: State) -> Known | None:
        base, size = state.get(code.left), SIZES.get(code.kind, 0)
        if base is None or not size:
            return None
        if base[0] == STACK:
            wide, value = state.slots.get(base[1] + code.number, (0, ("", 0)))
            return None if wide != size else extended(code.kind, value)
        return None if base[0] else self.constant(base[1] + code.number & MASK, code.kind)

    def constant(self, address: int, kind: int) -> Known | None:
        """What memory holds that no store may change: that of segments that hold code and may not be written."""
        size = SIZES[kind]
        for part in self.program.code:
            if part.holds(address, size) and not part.writable:
                return extended(kind, ("", int.from_bytes(part.data[address - part.address:][:size], "little")))
        return None


def place_of(code: Code) -> tuple[int, int]:
    """How a load or a store names its place."""
    return code.left, code.number


def is_frame_sum(code: Code) -> bool:
    """Whether an instruction makes an address in the frame that is not written in it, or of an array."""
    return code.target not in (SP, FRAME) and (code.op == 0x33 and bool({code.left, code.right} & {SP, FRAME})
                                               or code.op == 0x13 and code.left in (SP, FRAME))


def extended(kind: int, value: Known) -> Known:
    """A loaded number of fewer bytes as a register holds it."""
    if value[0] or kind > 1:
        return value
    return "", signed(value[1], 8 << kind) & MASK


def of_number(code: Code, left: Known) -> Known | None:
    """A register and the number of the instruction."""
    start, a = left
    if code.kind == 0:
        return start, (a + code.number) & MASK if not start else a + code.number
    return None if start else calculated(code.kind, code.word >> 30 & 1 if code.kind == 5 else 0, a, code.number & MASK)


def of_two(code: Code, left: Known, right: Known) -> Known | None:
    """Two registers."""
    other = code.word >> 25
    if left[0] or right[0]:
        return moved(left, right, other) if code.kind == 0 else None
    if other == 1:
        return multiplied(code.kind, left[1], right[1])
    return calculated(code.kind, other >> 5, left[1], right[1])


def moved(left: Known, right: Known, other: int) -> Known | None:
    """The sum, or the difference, of two values of which one or both have a start."""
    if other == 0 and not (left[0] and right[0]):
        base, number = (left, right) if left[0] else (right, left)
        return base[0], base[1] + signed(number[1], 32)
    if other == 0x20 and left[0]:
        if not right[0]:
            return left[0], left[1] - signed(right[1], 32)
        return ("", (left[1] - right[1]) & MASK) if left[0] == right[0] else None
    return None


def calculated(kind: int, other: int, a: int, b: int) -> Known:
    """The result of an instruction on two numbers, by the code of its kind."""
    shift = b & 31
    results = (a - b if other else a + b, a << shift, signed(a, 32) < signed(b, 32), a < b, a ^ b,
               signed(a, 32) >> shift if other else a >> shift, a | b, a & b)
    return "", int(results[kind]) & MASK


def multiplied(kind: int, a: int, b: int) -> Known | None:
    """The result of a multiplication, or of a division by something."""
    sa, sb = signed(a, 32), signed(b, 32)
    if kind < 4:
        return "", (sa * sb if kind == 0 else (sa * sb if kind == 1 else sa * b if kind == 2 else a * b) >> 32) & MASK
    if b == 0:
        return None
    towards_0 = abs(sa) // abs(sb) * (-1 if (sa < 0) != (sb < 0) else 1)
    return "", (towards_0, a // b, sa - towards_0 * sb, a % b)[kind - 4] & MASK


def decision(code: Code, state: State) -> bool | None:
    """Whether a branch is taken, None if that is not known."""
    left, right = state.get(code.left), state.get(code.right)
    if left is None or right is None or left[0] != right[0]:
        return None
    a, b = left[1], right[1]
    if code.kind < 2:
        return (a == b) == (code.kind == 0)
    if left[0] not in ("", STACK):
        return None
    if code.kind < 6 and not left[0]:
        a, b = signed(a, 32), signed(b, 32)
    return (a < b) == (code.kind in (4, 6))
