#!/usr/bin/env python3
"""Writes the kernel's places, block numbers and blocks into crates/kernel_code, from the kernel's rows.

Run `python3 tools/kernel_blocks.py` at the top of the repository after an edit of crates/proxy_kernel/src/list.rt, and
after tools/kernel_words.py. With `--check` it writes nothing, and ends with 1 where a file is not what it would write.
Nothing that it writes is trusted: the prover computes that each block leads to blocks, and each fact on which the phases
stand. It walks through the code from the states in `seeds`, as the symbolic step of crates/kernel_steps does.
"""
import os
import sys
import textwrap

sys.path.insert(0, os.path.dirname(__file__))
import kernel_words  # noqa: E402

CRATE = "crates/kernel_code/"
MASK = (1 << 64) - 1
CODE, DATA, CELLS = 0x80000000, 0x80008000, 67
FRAME = DATA + 0x100

# places of the code: name, label, bytes behind it, what stands there
PLACES = [
    ("boot_wait", "BootWait", 0, "the load of FROMHOST while the first request waits"),
    ("boot_test", "BootWait", 4, "the test of it"),
    ("boot_take", "BootTake", 0, "the answer to the first request is taken"),
    ("leave", "Leave", 0, "the program is entered for the first time"),
    ("leave_return", "Save", -4, "the MRET that enters it"),
    ("save", "Save", 0, "the handler: the program's registers are saved"),
    ("check", "Check", 0, "the cause and the number of a call are looked at"),
    ("scan", "Scan", 0, "a path is scanned"),
    ("path_load", "ScanNext", 12, "the load of a path's byte"),
    ("path_loaded", "ScanNext", 16, "behind it"),
    ("path_test", "ScanNext", 20, "the test of it"),
    ("path_passed", "ScanNext", 24, "a byte that is not NUL was passed"),
    ("local", "UnknownCall", 0, "the kernel answers itself"),
    ("fill", "Scanned", 0, "a request is filled"),
    ("wait", "Wait", 0, "the load of FROMHOST while a request waits"),
    ("wait_test", "Wait", 4, "the test of it"),
    ("take", "Take", 0, "the answer is taken"),
    ("restore", "Restore", 0, "the program's registers are restored"),
    ("return", "Speak", -4, "the MRET that returns to the program"),
    ("speak", "Speak", 0, "the last words of a program are chosen"),
    ("put", "PutWait", 0, "the load of TOHOST before a byte is put"),
    ("put_test", "PutWait", 4, "the test of it"),
    ("put_store", "PutWait", 8, "the store of a byte to TOHOST"),
    ("put_done", "PutWait", 12, "behind it"),
    ("close", "Close", 0, "the exit word is made"),
    ("closing", "CloseWait", 0, "the load of TOHOST before the exit word is put"),
    ("closing_test", "CloseWait", 4, "the test of it"),
    ("closing_store", "CloseWait", 8, "the store of the exit word to TOHOST"),
    ("idle", "Idle", 0, "the last place, which jumps to itself"),
]

# numbers of blocks: name, number, what they are
BLOCKS = [
    ("booting_blocks", 0, "Boot"),
    ("boot_waiting_blocks", 1, "BootWait, the load"),
    ("boot_taking_blocks", 2, "BootTake"),
    ("leaving_blocks", 3, "Leave"),
    ("saving_blocks", 5, "Save"),
    ("checking_blocks", 6, "Check"),
    ("scanning_blocks", 7, "Scan, before the load of a byte"),
    ("filling_blocks", 8, "Fill, the stores of the request"),
    ("waiting_blocks", 9, "Wait, the load"),
    ("taking_blocks", 10, "Take"),
    ("no_call_blocks", 11, "Local, no such call"),
    ("restoring_blocks", 12, "Restore"),
    ("choosing_blocks", 13, "Speak, the choice of the words"),
    ("first_byte_gate", 20, "into the scan of the first byte"),
    ("next_byte_gate", 21, "into the scan of the next byte"),
    ("path_gate", 22, "into Scan"),
    ("path_end_gate", 23, "a NUL was found"),
    ("path_long_gate", 24, "no NUL within the limit"),
    ("path_outside_gate", 25, "a byte of the path is outside the user area"),
    ("buffer_gate", 26, "a buffer is outside the user area"),
    ("no_call_gate", 27, "no such call"),
    ("break_gate", 28, "brk"),
    ("request_gate", 29, "a request without a path is ready"),
    ("path_request_gate", 30, "a request with a path is ready"),
    ("answer_gate", 32, "the answer is there"),
    ("taken_gate", 33, "from Take to Restore"),
    ("no_call_done_gate", 34, "from Local to Restore: no such call"),
    ("trap_words_gate", 35, "into the trap's words"),
    ("counter_words_gate", 36, "into the counter's words"),
    ("outside_blocks", 40, "Local, a byte outside the user area"),
    ("long_blocks", 41, "Local, a path that is too long"),
    ("break_blocks", 42, "Local, brk"),
    ("outside_done_gate", 43, "from Local to Restore: a byte outside the user area"),
    ("long_done_gate", 44, "from Local to Restore: a path that is too long"),
    ("break_done_gate", 45, "from Local to Restore: brk"),
    ("looked_blocks", 46, "Scan, a byte was loaded"),
    ("passed_blocks", 47, "Scan, a byte was passed"),
    ("found_blocks", 48, "Fill, the arguments behind a path"),
    ("trap_end_blocks", 50, "Closing after the trap's words"),
    ("counter_end_blocks", 51, "Closing after the counter's words"),
    ("trap_idle_blocks", 52, "the last place after the trap's words"),
    ("counter_idle_blocks", 53, "the last place after the counter's words"),
    ("starting_blocks", 54, "Scan, before the first byte"),
    ("full_blocks", 56, "Scan, so many bytes as a path may have"),
    ("tested_blocks", 57, "Wait, the test"),
    ("boot_tested_blocks", 58, "BootWait, the test"),
    ("trap_words", 1000, "the trap's words: byte t is put in 1000 + 2 t, and 1001 + 2 t stands behind its store"),
    ("counter_words", 2000, "the counter's words, likewise"),
    ("trap_last_blocks", 1110, "the last byte of the trap's words"),
    ("counter_last_blocks", 2074, "the last byte of the counter's words"),
    ("store_gates", 4000, "the store of a byte: the number of its blocks, and this"),
    ("counter_store_gates", 6000, "the first of those of the counter's words"),
]
NUMBER = {name: number for name, number, _ in BLOCKS}
NAME = {number: name for name, number, _ in BLOCKS}

# variables of the terms: name, number, what they are; those below 32 are the program's registers at the trap
VARIABLES = [
    ("v_pc", 32, "the pc at the trap"),
    ("v_break", 33, "the break"),
    ("v_first_break", 34, "the first break"),
    ("v_scanned", 35, "how many bytes of the path were passed"),
    ("v_entry", 36, "the entry"),
    ("v_byte", 37, "the byte of the path that was loaded last"),
    ("v_length", 39, "the length of the path, NUL included"),
    ("v_cause", 40, "the cause of the trap"),
    ("v_result", 41, "the result that the host left in the request's first doubleword"),
    ("v_value", 42, "the trap's value"),
    ("v_fromhost", 43, "what was loaded from FROMHOST last"),
    ("v_word0", 50, "the number in the request"),
    ("v_word1", 51, "the first argument in the request"),
    ("v_word2", 52, "the second"),
    ("v_word3", 53, "the third"),
    ("v_word4", 54, "the fourth"),
    ("v_word5", 55, "the fifth"),
    ("v_before", 60, "a doubleword before a step"),
    ("v_seen", 61, "a register before a step"),
]
V = {name: ("V", number) for name, number, _ in VARIABLES}

# doublewords behind the code: name, number
DOUBLEWORDS = [
    ("frame_cell", 32, "register 0 in FRAME, which is not used; the others follow"),
    ("tohost_cell", 0, "TOHOST"),
    ("fromhost_cell", 8, "FROMHOST"),
    ("request_cell", 16, "the first doubleword of REQUEST"),
    ("a0_cell", 42, "a0 in FRAME"),
    ("entry_cell", 64, "the entry, in the boot block"),
    ("first_break_cell", 65, "the first break, in the boot block"),
    ("break_cell", 66, "the break, the first of the kernel's variables"),
]
CELL = {name: number for name, number, _ in DOUBLEWORDS}
AREA = [
    ("tohost", "tohost"),
    ("fromhost", "fromhost"),
    ("request", "request"),
    ("entry", "boot"),
    ("first_break", "boot + 8"),
    ("break", "kernel_variables"),
]


# ---- terms: ("L", literal), ("V", variable), ("B", operation, term, term), ("C", term with its low bits cleared), or None
def lit(number):
    return ("L", number & MASK)


def is_lit(term):
    return term is not None and term[0] == "L"


def compute(op, a, b):
    return {
        "Add": a + b & MASK,
        "Sub": a - b & MASK,
        "And": a & b,
        "Sll": a << b % 64 & MASK,
        "Srl": a >> b % 64,
        "Sltu": int(a < b),
    }[op]


def combine(op, a, b):
    if a is None or b is None:
        return None
    if is_lit(a) and is_lit(b):
        return lit(compute(op, a[1], b[1]))
    if a[0] == "V" and op == "Add" and b == lit(0):
        return a
    return ("B", op, a, b)


def aligned(term):
    if term is None or is_lit(term):
        return term and lit(term[1] & ~3)
    return ("C", term)


class State:
    """What is known at an address: registers, CSRs, doublewords behind the code, and comparisons."""

    def __init__(self, pc, regs, csrs, cells, facts=()):
        self.pc, self.regs, self.csrs, self.cells, self.facts = pc, dict(regs), dict(csrs), dict(cells), tuple(facts)

    def copy(self):
        return State(self.pc, self.regs, self.csrs, self.cells, self.facts)

    def key(self):
        known = lambda d: tuple(sorted((k, v) for k, v in d.items() if v is not None))
        return self.pc, known(self.regs), known(self.csrs), known(self.cells), self.facts

    def reg(self, n):
        return lit(0) if n == 0 else self.regs.get(n)

    def without(self, regs=(), cells=()):
        other = self.copy()
        for n in regs:
            other.regs.pop(n, None)
        for n in cells:
            other.cells.pop(n, None)
        return other


CSR_NAMES = {0x340: "scratch", 0x341: "epc", 0x342: "cause", 0x343: "tval", 0x305: "tvec"}


def with_pmp(pmp, csr, value):
    """The two PMP entries (read, write, execute, TOR, end) after a write."""
    first, second = pmp
    configured = lambda e, b: (b & 1, b >> 1 & b & 1, b >> 2 & 1, int(b >> 3 & 3 == 1), e[4])
    if csr == 0x3A0:
        return configured(first, value & 255), configured(second, value >> 8 & 255)
    if csr == 0x3B0:
        return first[:4] + (4 * (value % 2**54),), second
    assert csr == 0x3B1
    return first, second[:4] + (4 * (value % 2**54),)


def branch(state, name, v):
    """The ways of a branch."""
    a, b = state.reg(v[0]), state.reg(v[1])
    below, negated, target = name in ("Bltu", "Bgeu"), name in ("Bne", "Bgeu"), state.pc + v[2]
    if is_lit(a) and is_lit(b):
        met = a[1] < b[1] if below else a == b
        other = state.copy()
        other.pc = target if met != negated else state.pc + 4
        return [other]
    ways = []
    for met in (True, False):
        other = state.copy()
        other.pc = target if met != negated else state.pc + 4
        if a is not None and b is not None:
            other.facts = ((below, a, b, met),) + state.facts
        ways.append(other)
    return ways


def successors(insns, state):
    """The states to which a step may lead, or None where that is not known: at the load of a path's byte, and at MRET."""
    name, v = insns[(state.pc - CODE) // 4]
    other = state.copy()
    other.pc = state.pc + 4

    def put(rd, term):
        if rd:
            other.regs[rd] = term
        return [other]

    def cell(base, offset):
        at = combine("Add", state.reg(base), lit(offset))
        return (at[1] - DATA) // 8 if is_lit(at) and at[1] >= DATA else None

    upper = lambda imm: (imm << 12) - (1 << 32) * (imm >> 19)
    if name == "Lui":
        return put(v[0], lit(upper(v[1])))
    if name == "Auipc":
        return put(v[0], lit(state.pc + upper(v[1])))
    immediate = {"Addi": "Add", "Andi": "And", "Sltiu": "Sltu", "Slli": "Sll", "Srli": "Srl"}
    if name in immediate:
        return put(v[0], combine(immediate[name], state.reg(v[1]), lit(v[2])))
    if name in ("Add", "Sub", "Srl"):
        return put(v[0], combine(name, state.reg(v[1]), state.reg(v[2])))
    if name == "Jal":
        put(v[0], lit(state.pc + 4))
        other.pc = state.pc + v[1]
        return [other]
    if name == "Jalr":
        target = combine("Add", state.reg(v[2]), lit(v[1]))
        if not is_lit(target):
            return None
        put(v[0], lit(state.pc + 4))
        other.pc = target[1]
        return [other]
    if name == "Ld":
        place = cell(v[2], v[1])
        return None if place is None else put(v[0], state.cells.get(place))
    if name == "Sd":
        place = cell(v[2], v[1])
        if place is None:
            return None
        other.cells[place] = state.reg(v[0])
        return [other]
    if name == "Csrrw":
        csr, value = v[1], state.reg(v[2])
        put(v[0], state.csrs.get(CSR_NAMES.get(csr)))
        if csr in (0x341, 0x305):
            other.csrs[CSR_NAMES[csr]] = aligned(value)
        elif csr == 0x340:
            other.csrs["scratch"] = value
        else:
            other.csrs["pmp"] = with_pmp(state.csrs["pmp"], csr, value[1])
        return [other]
    if name == "Csrrs":
        return put(v[0], state.csrs.get(CSR_NAMES[v[1]]))
    if name in ("Beq", "Bne", "Bltu", "Bgeu"):
        return branch(state, name, v)
    return None


# ---- the walk through the code
class Kernel:
    def __init__(self, rows):
        rows = list(rows)
        self.insns = list(kernel_words.insns_of(rows))
        self.labels, at = {}, CODE
        for name, operands in rows:
            if name == "Label":
                self.labels[operands[0].split("::")[1]] = at
            else:
                at += 8 if name == "La" else 4
        self.place = {name: self.labels[label] + offset for name, label, offset, _ in PLACES}


def seeds(kernel):
    """The states from which the walk begins, by the number of their blocks."""
    at, n = kernel.labels, NUMBER
    fence = ((0, 0, 0, 0, 0x10000), (1, 1, 1, 1, 0x1010000))
    nothing = dict(scratch=None, epc=None, cause=None, tval=None)
    in_boot = dict(nothing, scratch=lit(FRAME), tvec=lit(at["Save"]), pmp=fence)
    in_trap = dict(scratch=lit(FRAME), epc=V["v_pc"], cause=V["v_cause"], tval=V["v_value"], tvec=lit(at["Save"]), pmp=fence)
    program = {i: ("V", i) for i in range(1, 32)}
    tail = {CELL["entry_cell"]: V["v_entry"], CELL["first_break_cell"]: V["v_first_break"], CELL["break_cell"]: V["v_break"]}
    saved = {**{CELL["frame_cell"] + i: ("V", i) for i in range(1, 32)}, **tail}
    frame = {31: lit(FRAME)}
    arguments = {**{i: ("V", i) for i in (10, 11, 12, 13, 14, 15, 17)}, **frame}
    scan = {**arguments, 28: V["v_scanned"], 6: lit(0x10000), 7: lit(0x1010000), 29: lit(4096)}
    request = CELL["request_cell"]
    posted = {request + i: V[f"v_word{i}"] for i in range(1, 6)}
    posted.update({request + 6: lit(0), request + 7: lit(0)})
    first_posted = {request + 1: lit(0x1000000), request + 2: lit(65536), **{request + i: lit(0) for i in range(3, 8)}}
    first_posted.update({CELL["entry_cell"]: V["v_entry"], CELL["first_break_cell"]: V["v_first_break"], CELL["break_cell"]: V["v_first_break"]})
    waiting = {**{i: lit(0) for i in range(3, 31)}, 2: lit(0x1000000), 31: lit(FRAME)}
    reset = {CELL["tohost_cell"]: lit(0), CELL["fromhost_cell"]: lit(0), **{request + i: lit(0) for i in range(8)}}
    reset.update({CELL["entry_cell"]: V["v_entry"], CELL["first_break_cell"]: V["v_first_break"]})
    words = {5: V["v_cause"], 21: V["v_pc"], 22: V["v_value"], 30: lit(0x101 << 48), **frame}
    off = ((0, 0, 0, 0, 0), (0, 0, 0, 0, 0))
    ready = {17: V["v_word0"], **{9 + i: V[f"v_word{i}"] for i in range(1, 6)}, **frame}
    other_cause = (False, V["v_cause"], lit(8), False)
    return [
        (n["booting_blocks"], State(CODE, {i: lit(0) for i in range(1, 32)}, dict(nothing, tvec=None, pmp=off), reset)),
        (n["boot_waiting_blocks"], State(at["BootWait"], waiting, in_boot, first_posted)),
        (n["boot_tested_blocks"], State(at["BootWait"] + 4, {**waiting, 1: V["v_fromhost"]}, in_boot, first_posted)),
        (n["saving_blocks"], State(at["Save"], program, in_trap, tail)),
        (n["checking_blocks"], State(at["Check"], arguments, in_trap, saved)),
        (n["starting_blocks"], State(at["Scan"], arguments, in_trap, saved)),
        (n["scanning_blocks"], State(at["ScanNext"], scan, in_trap, saved)),
        (n["looked_blocks"], State(at["ScanNext"] + 16, {**scan, 5: V["v_byte"]}, in_trap, saved)),
        (n["no_call_blocks"], State(at["UnknownCall"], frame, in_trap, saved)),
        (n["outside_blocks"], State(at["BadAddress"], frame, in_trap, saved)),
        (n["long_blocks"], State(at["LongPath"], frame, in_trap, saved)),
        (n["break_blocks"], State(at["MoveBreak"], {**frame, 10: ("V", 10)}, in_trap, saved)),
        (n["found_blocks"], State(at["Scanned"], {**arguments, 28: V["v_length"]}, in_trap, saved)),
        (n["filling_blocks"], State(at["Fill"], ready, in_trap, saved)),
        (n["waiting_blocks"], State(at["Wait"], frame, in_trap, {**saved, **posted})),
        (n["tested_blocks"], State(at["Wait"] + 4, {5: V["v_fromhost"], **frame}, in_trap, {**saved, **posted})),
        (n["taking_blocks"], State(at["Take"], frame, in_trap, {**saved, **posted, request: V["v_result"]})),
        (n["restoring_blocks"], State(at["Restore"], {**frame, 10: ("V", 10)}, in_trap, {k: t for k, t in saved.items() if k != CELL["a0_cell"]})),
        (n["choosing_blocks"], State(at["Speak"], {5: V["v_cause"], **frame}, in_trap, tail, (other_cause,))),
        (n["trap_words"], State(at["TrapText"], words, in_trap, tail)),
        (n["counter_words"], State(at["CounterText"], words, in_trap, tail)),
        (n["counter_end_blocks"], State(at["Close"], {23: lit(124), **frame}, in_trap, tail)),
        (n["trap_end_blocks"], State(at["Close"], {23: ("B", "Add", V["v_cause"], lit(128)), **frame}, in_trap, tail)),
    ]


def says_no_less(state, other):
    """Whether the second state says no more than the first."""
    within = lambda a, b: all(v is None or a.get(k) == v for k, v in b.items())
    parts = ((state.regs, other.regs), (state.csrs, other.csrs), (state.cells, other.cells))
    return state.pc == other.pc and all(within(a, b) for a, b in parts) and set(other.facts) <= set(state.facts)


class Walk:
    """Cuts the code into blocks: (number, state, steps, checked)."""

    def __init__(self, kernel):
        self.kernel, self.blocks, self.edges = kernel, [], set()
        self.done, self.todo = set(), [(k, s, False) for k, s in seeds(kernel)][::-1]
        self.seeds = {}
        for number, state in seeds(kernel):
            self.seeds.setdefault((state.pc, number), []).append(state)
        at, place, n = kernel.labels, kernel.place, NUMBER
        self.waits = (at["Wait"], at["BootWait"])
        self.numbers = {
            at["BootWait"]: n["boot_waiting_blocks"],
            at["BootTake"]: n["boot_taking_blocks"],
            at["Leave"]: n["leaving_blocks"],
            at["Check"]: n["checking_blocks"],
            at["Wait"]: n["waiting_blocks"],
            at["Speak"]: n["choosing_blocks"],
            place["path_passed"]: n["passed_blocks"],
            place["path_passed"] + 4: n["full_blocks"],
        }
        self.joins = {at[x] for x in ("BootWait", "BootTake", "Leave", "Check", "Wait", "Speak", "Close", "CloseWait", "PutWait", "Idle", "ScanNext")}
        self.joins |= set(self.numbers) | {place["put_done"]}

    def gate(self, pc, number):
        """The gate at an address, where what is known changes its terms."""
        at, n = self.kernel.labels, NUMBER
        plain = {
            at["Scan"]: n["path_gate"],
            at["Scanned"]: n["path_end_gate"],
            at["LongPath"]: n["path_long_gate"],
            at["UnknownCall"]: n["no_call_gate"],
            at["MoveBreak"]: n["break_gate"],
            at["Take"]: n["answer_gate"],
            at["TrapText"]: n["trap_words_gate"],
            at["CounterText"]: n["counter_words_gate"],
        }
        if pc in plain:
            return plain[pc]
        if pc == at["BadAddress"]:
            scanning = ("scanning_blocks", "looked_blocks", "passed_blocks", "starting_blocks", "full_blocks")
            return n["path_outside_gate"] if number in [n[x] for x in scanning] else n["buffer_gate"]
        if pc == at["Fill"]:
            return n["path_request_gate"] if number == n["found_blocks"] else n["request_gate"]
        if pc == at["Restore"]:
            ends = {"taking_blocks": "taken_gate", "no_call_blocks": "no_call_done_gate", "outside_blocks": "outside_done_gate"}
            ends.update({"long_blocks": "long_done_gate", "break_blocks": "break_done_gate"})
            return n[ends[NAME[number]]]
        return None

    def add(self, number, target, state, is_gate=False):
        self.edges.add((number, target))
        self.todo.append((target, state, is_gate))

    def arrive(self, number, state):
        """A state to which a block leads: its gate, the seed that it is one of, or a block of its own."""
        at, place, n, pc = self.kernel.labels, self.kernel.place, NUMBER, state.pc
        in_words = number >= n["trap_words"]
        if in_words and number % 2 == 0 and pc == place["put_done"]:
            self.add(number, n["store_gates"] + number, state, True)
            self.todo.append((number + 1, state.without([6], [0]), False))
            return
        if pc == at["ScanNext"]:
            self.add(number, n["first_byte_gate"] if state.regs.get(28) == lit(0) else n["next_byte_gate"], state, True)
            return
        gate = self.gate(pc, number)
        if gate is not None:
            self.add(number, gate, state, True)
            return
        target = self.numbers.get(pc, number)
        if in_words:
            target = number + 1 if number % 2 == 1 else number
        if pc == at["Close"]:
            target = n["counter_end_blocks"] if number >= n["counter_words"] else n["trap_end_blocks"]
        if pc == at["Idle"]:
            target = {n["trap_end_blocks"]: n["trap_idle_blocks"], n["counter_end_blocks"]: n["counter_idle_blocks"]}.get(number, number)
        if any(says_no_less(state, seed) for seed in self.seeds.get((pc, target), [])):
            self.edges.add((number, target))
            return
        if pc == at["Leave"]:
            state = state.without([1])
        if pc in (at["PutWait"], place["put_done"], at["CloseWait"], at["Idle"]):
            state = state.without([6], [0])
        self.add(number, target, state)

    def goes_on(self, number, state):
        """Whether a block goes on to this place."""
        alone = number >= NUMBER["trap_words"] and number % 2 == 1
        return state.pc not in self.joins and self.gate(state.pc, number) is None and not alone

    def run(self):
        while self.todo:
            number, start, is_gate = self.todo.pop()
            key = number, start.key()
            if key in self.done:
                continue
            self.done.add(key)
            if is_gate or start.pc in self.waits:
                self.blocks.append((number, start, 0, False))
                continue
            state, steps = start, 0
            while True:
                ways = successors(self.kernel.insns, state)
                if ways is None:
                    self.blocks.append((number, start, steps, False))
                    break
                if len(ways) == 1 and self.goes_on(number, ways[0]):
                    state, steps = ways[0], steps + 1
                    continue
                self.blocks.append((number, start, steps, True))
                for way in ways:
                    self.arrive(number, way)
                break
        return self


# the steps that do not lower the number of steps left: a wait that goes on, a byte that is put or passed, and the end
LEFT_OUT = [
    ("put_store", "put_done"),
    ("path_test", "path_passed"),
    ("idle", "idle"),
]

# the waits: the load of the word, and the test of it, which leads back
WAITS = [("boot_wait", "boot_test"), ("wait", "wait_test"), ("put", "put_test"), ("closing", "closing_test")]


def steps_left(kernel, walk):
    """For each place of the code, the most steps from there to the end of its way, but for those that are left out.

    The load of a word that is awaited counts two more than the test of it, so that a test that leads back has two steps to spare.
    """
    ways = {}
    for number, state, steps, _ in walk.blocks:
        if number >= NUMBER["store_gates"] or NAME.get(number, "").endswith("_gate"):
            continue
        for i in range(steps + 1):
            after = successors(kernel.insns, state)
            if after is None:
                if state.pc == kernel.place["path_load"]:
                    ways.setdefault(state.pc, set()).add(kernel.place["path_loaded"])
                break
            ways.setdefault(state.pc, set()).update(s.pc for s in after)
            state = after[0] if i < steps else state
    out = {(kernel.place[a], kernel.place[b]) for a, b in LEFT_OUT} | {(kernel.place[b], kernel.place[a]) for a, b in WAITS}
    loads = {kernel.place[a] for a, _ in WAITS}
    known = {}

    def left(pc):
        if pc not in known:
            known[pc] = 1 + (pc in loads) + max([left(q) for q in ways.get(pc, ()) if (pc, q) not in out], default=0)
        return known[pc]

    sys.setrecursionlimit(10000)
    return [left(CODE + 4 * k) for k in range(len(kernel.insns))]


# ---- what is written
BY = "Written by tools/kernel_blocks.py."


def show(term):
    if term is None:
        return "A"
    if term[0] in "LV":
        return f"{term[0].lower()} {term[1]:#x}" if term[0] == "L" and term[1] > 9999 else f"{term[0].lower()} {term[1]}"
    if term[0] == "C":
        return f"Aligned {inner(term[1])}"
    return f"Bin op.{term[1]} {inner(term[2])} {inner(term[3])}"


def inner(term):
    text = show(term)
    return f"({text})" if " " in text else text


def listed(terms):
    return " ∷ ".join([inner(t) if t and t[0] in "BC" else show(t) for t in terms] + ["[]"])


def truth(flag):
    return "true" if flag else "false"


class Writer:
    def __init__(self, kernel, walk):
        self.kernel, self.walk = kernel, walk
        self.cells, self.csrs = {}, {}

    def cells_name(self, cells):
        return self.cells.setdefault(tuple(cells.get(i) for i in range(CELLS)), f"cells_{len(self.cells)}")

    def csrs_name(self, csrs):
        key = tuple(csrs.get(k) for k in ("scratch", "epc", "cause", "tval", "tvec", "pmp"))
        return self.csrs.setdefault(key, f"csrs_{len(self.csrs)}")

    def block(self, block):
        number, state, steps, checked = block
        if number >= NUMBER["store_gates"]:
            cells = dict(state.cells)
            word = cells.pop(0, None)
            known = f"(set {self.cells_name(cells)} 0 {inner(word)})"
        else:
            known = self.cells_name(state.cells)
        regs = listed([lit(0)] + [state.regs.get(i) for i in range(1, 32)])
        facts = " ∷ ".join([f"f {truth(f[0])} {inner(f[1])} {inner(f[2])} {truth(f[3])}" for f in state.facts] + ["[]"])
        name = NAME.get(number, number)
        return f"    b {name} {state.pc:#x} ({regs}) {self.csrs_name(state.csrs)} {known} ({facts}) {steps} {truth(checked)} ∷\n"

    def places(self):
        rust = f"// The addresses of the kernel's code at which a phase begins, or of which a phase speaks. {BY}\n"
        words = f"-- The places of the kernel's code and of its data, under names. {BY}\n"
        words += "use Rattle.std.specs.Prelude.{ℕ, ◌+◌, ◌-◌}\n"
        words += "use Rattle.fe_base.specs.MemoryMap.{kernel_start, tohost, fromhost, request, boot, kernel_variables}\n"
        words += "use Rattle.kernel_code.specs.declared.places.TheConstants.{" + ", ".join(p[0].upper() for p in PLACES) + "}\n"
        for name, _, _, what in PLACES:
            at = self.kernel.place[name]
            rust += f"\n/// {what[0].upper()}{what[1:]}.\npub const {name.upper()}: u64 = 0x{at >> 16:04x}_{at & 0xFFFF:04x};\n"
            words += f"\n-- {what}\nabbrev pub pc_{name} : ℕ\npc_{name} = {name.upper()}\n"
        words += "\n-- ---- doublewords of the kernel area: their places in it, and their numbers behind the code\n"
        for name, address in AREA:
            words += f"\n-- the place of {name} in the kernel area\nabbrev pub {name}_place : ℕ\n{name}_place = {address} - kernel_start\n"
        for name, number, what in DOUBLEWORDS:
            words += f"\n-- {what}\nabbrev pub {name} : ℕ\n{name} = {number}\n"
        return rust, words

    def numbers(self):
        text = "-- Numbers of the kernel's blocks and of the variables in their terms, under names. A gate is a block of one place, "
        text += f"where what is known changes its terms. {BY}\nuse Rattle.std.specs.Prelude.{{ℕ}}\n\n-- ---- blocks\n"
        for name, number, what in BLOCKS:
            text += f"\n-- {what}\nabbrev pub {name} : ℕ\n{name} = {number}\n"
        text += "\n-- ---- variables; those below 32 are the registers of the program at the trap\n"
        for name, number, what in VARIABLES:
            text += f"\n-- {what}\nabbrev pub {name} : ℕ\n{name} = {number}\n"
        return text

    def kinds(self):
        followers = {}
        for a, b in sorted(e for e in self.walk.edges if e[0] < NUMBER["trap_words"]):
            followers.setdefault(a, []).append(NAME[b])
        used = sorted({NAME[a] for a in followers} | {b for bs in followers.values() for b in bs} | {"trap_words", "counter_words", "store_gates", "counter_end_blocks", "trap_end_blocks"}, key=NUMBER.get)
        text = f"-- Which blocks may follow each other, by their numbers. {BY}\n"
        text += "use Rattle.std.specs.Prelude.{ℕ, ◌+◌, ◌%◌, ◌==◌, nat_le, Bool, true, false, List, [], ◌∷◌}\n"
        text += "use Rattle.kernel_steps.specs.Blocks.{member}\n"
        text += f"use Rattle.kernel_code.specs.Numbers.{{{', '.join(used)}}}\n"
        text += """
-- behind a byte of a message: the wait for TOHOST, the store, or the end; behind its store: the next byte
abbrev pub message_followers : ℕ → List ℕ
message_followers a =
    elim (a % 2 == 0) [
      | true ↦ a ∷ (store_gates + a) ∷ (elim (nat_le counter_words a) [ true ↦ counter_end_blocks | false ↦ trap_end_blocks ]) ∷ []
      | false ↦ (a + 1) ∷ []
    ]

-- these, where the number is this one, or else the others
abbrev pub listed : ℕ → ℕ → List ℕ → List ℕ → List ℕ
listed number a these others = elim (a == number) [ true ↦ these | false ↦ others ]

-- what may follow a block of this number
abbrev pub followers : ℕ → List ℕ
followers a =
    elim (nat_le trap_words a) [
      | true ↦ message_followers a
      | false ↦
"""
        rows = [f"listed {NAME[a]} a ({' ∷ '.join(followers[a])} ∷ [])" for a in sorted(followers)]
        text += "          " + "\n          (".join(rows) + " []" + ")" * (len(rows) - 1) + "\n    ]\n"
        text += "\n-- a block of the second number may follow one of the first\nabbrev pub may_follow : ℕ → ℕ → Bool\nmay_follow a b = member b (followers a)\n"
        return text

    def left(self):
        table = steps_left(self.kernel, self.walk)
        rows = "".join("    " + " ∷ ".join(str(n) for n in table[i:i + 18]) + " ∷\n" for i in range(0, len(table), 18))
        tests = " ||\n    ".join(f"(a == pc_{x} && b == pc_{y})" for x, y in LEFT_OUT)
        loads = " || ".join(f"pc == pc_{x}" for x, _ in WAITS)
        looks = " || ".join(f"pc == pc_{x}" for _, x in WAITS)
        names = sorted({x for pair in LEFT_OUT + WAITS for x in pair})
        text = f"-- How many steps are left at each place of the code. {BY}\n"
        text += "use Rattle.std.specs.Prelude.{ℕ, ◌+◌, ◌-◌, ◌/◌, ◌==◌, ◌&&◌, ◌||◌, not, nat_lt, Bool, true, false, Option, Some, None, List, [], ◌∷◌, get_or}\n"
        text += "use Rattle.fe_base.specs.MemoryMap.{kernel_start}\nuse Rattle.kernel_steps.specs.States.{State}\n"
        text += "use Rattle.kernel_steps.specs.Successors.{successors}\nuse Rattle.kernel_code.specs.Kernel.{kernel}\n"
        text += "use Rattle.kernel_code.specs.Places.{" + ", ".join(f"pc_{n}" for n in names) + "}\n"
        text += f"\n-- by the number of the instruction\nunfoldable pub left_table : List ℕ\nleft_table =\n{rows}    []\n"
        text += "\n-- by the pc\nabbrev pub left_at : ℕ → ℕ\nleft_at pc = get_or left_table ((pc - kernel_start) / 4) 0\n"
        text += f"\n-- the places where a word that is awaited is loaded\nabbrev pub loads_word : ℕ → Bool\nloads_word pc = {loads}\n"
        text += f"\n-- the places behind them, where it is tested\nabbrev pub tests_word : ℕ → Bool\ntests_word pc = {looks}\n"
        text += "\n-- the steps that do not lower it: a byte that is put or passed, and those behind the exit word\n"
        text += f"abbrev pub is_left_out : ℕ → ℕ → Bool\nis_left_out a b =\n    {tests}\n"
        text += """
-- the second place is no test of a word, and has fewer steps left than the first, or is reached by such a step
abbrev pub is_lower : ℕ → ℕ → Bool
is_lower a b = not (tests_word b) && (is_left_out a b || nat_lt (left_at b) (left_at a))

-- each of these states is at such a place
abbrev pub all_lower : ℕ → List State → Bool
all_lower a [] = true
all_lower a (t ∷ ts) = elim (is_lower a t.at) [ true ↦ all_lower a ts | false ↦ false ]

-- so does each state to which a step leads, where that is known
abbrev pub may_end : Option (List State) → ℕ → Bool
may_end (Some ts) a = all_lower a ts
may_end None a = true

-- a step from a place of a block lowers the number of steps left, but for those that are left out, and those of a wait
abbrev pub lowers : ℕ → State → Bool
lowers number state =
    elim (loads_word state.at || tests_word state.at) [ true ↦ true | false ↦ may_end (successors kernel state) state.at ]
"""
        return text

    def known(self):
        """The shorthand of the lists, and the doublewords and registers that many blocks know."""
        text = f"-- Shorthand for the lists of blocks, and what many of them know of doublewords, and of control and status registers. {BY}\n"
        text += """use Rattle.std.specs.Prelude.{ℕ, Bool, true, false, List, [], ◌∷◌}
use Rattle.kernel_steps.specs.Terms.{Term, Lit, Var, Unknown, Fact}
use Rattle.kernel_steps.specs.States.{CsrTerms}
use Rattle.kernel_steps.specs.Blocks.{Block}

-- nothing is known
abbrev pub A : Term
A = Unknown

-- a variable
abbrev pub v : ℕ → Term
v n = Var n

-- a literal
abbrev pub l : ℕ → Term
l n = Lit n

-- how a comparison came out
abbrev pub f : Bool → Term → Term → Bool → Fact
f below left right truth = record { below = below; left = left; right = right; truth = truth }

-- a block
abbrev pub b : ℕ → ℕ → List Term → CsrTerms → List Term → List Fact → ℕ → Bool → Block
b kind at regs csrs cells facts size checked =
    record { kind = kind; start = record { at = at; regs = regs; csrs = csrs; cells = cells; facts = facts }; size = size; checked = checked }
"""
        for terms, name in self.cells.items():
            text += f"\n-- what some blocks know of the doublewords behind the code\nunfoldable pub {name} : List Term\n{name} = {listed(terms)}\n"
        entry = lambda e: f"record {{ read = {truth(e[0])}; write = {truth(e[1])}; execute = {truth(e[2])}; tor = {truth(e[3])}; end = {e[4]:#x} }}"
        for key, name in self.csrs.items():
            fields = "; ".join(f"{k} = {show(t)}" for k, t in zip(("scratch", "epc", "cause", "tval", "tvec"), key))
            text += f"\n-- what some blocks know of control and status registers\nunfoldable pub {name} : CsrTerms\n{name} =\n    record {{ {fields}; pmp = record {{ entry0 = {entry(key[5][0])}; entry1 = {entry(key[5][1])} }} }}\n"
        return text

    def lists(self):
        """The three lists of blocks: calls, the trap's words, the counter's words."""
        n = NUMBER
        groups = {
            "Calls": ("the start of the kernel, and calls", "call_blocks", lambda k: k < n["trap_words"]),
            "TrapWords": ("the words of a trap", "trap_blocks", lambda k: n["trap_words"] <= k < n["counter_words"] or n["store_gates"] + n["trap_words"] <= k < n["counter_store_gates"]),
            "CounterWords": ("the words where a counter is asked for", "counter_blocks", lambda k: n["counter_words"] <= k < n["store_gates"] or k >= n["counter_store_gates"]),
        }
        texts = {}
        for module, (what, name, belongs) in groups.items():
            body = "".join(self.block(x) for x in self.walk.blocks if belongs(x[0]))
            names = sorted({w for w in body.replace("(", " ").replace(")", " ").split() if w.startswith(("cells_", "csrs_"))}, key=lambda w: (w[:5], int(w.split("_")[1])))
            numbers = [w for w, _, _ in BLOCKS if f" {w} " in body]
            head = f"-- The blocks of {what}. {BY}\nuse Rattle.std.specs.Prelude.{{true, false, List, [], ◌∷◌{', set' if '(set ' in body else ''}}}\n"
            if "op." in body:
                head += "use Rattle.rv_alu.specs.declared.arithmetic.AluOp.TheVariants as op\n"
            terms = [t for t in ("Bin", "Aligned") if f"{t} " in body]
            if terms:
                head += f"use Rattle.kernel_steps.specs.Terms.{{{', '.join(terms)}}}\n"
            short = [s for s in ("A", "v", "l", "f", "b") if s != "f" or "(f " in body]
            head += "use Rattle.kernel_steps.specs.Blocks.{Block}\n"
            if numbers:
                head += f"use Rattle.kernel_code.specs.Numbers.{{{', '.join(numbers)}}}\n"
            head += f"use Rattle.kernel_code.specs.Shorthand.{{{', '.join(short + names)}}}\n"
            texts[module] = f"{head}\n-- by kind, place, what is known there, and size\nunfoldable pub {name} : List Block\n{name} =\n{body}    []\n"
        return texts


def wrapped(text):
    """A text whose comment lines have at most 120 columns."""
    out = []
    for line in text.split("\n"):
        mark = next((m for m in ("/// ", "// ", "-- ") if line.startswith(m)), None)
        out += textwrap.wrap(line, 120, subsequent_indent=mark, break_long_words=False, break_on_hyphens=False) if mark and len(line) > 120 else [line]
    return "\n".join(out)


def texts():
    with open(kernel_words.ROWS, encoding="utf-8") as rows:
        kernel = Kernel(kernel_words.rows_of(rows.read()))
    writer = Writer(kernel, Walk(kernel).run())
    rust, words = writer.places()
    lists = writer.lists()
    written = {"src/places.rt": rust, "specs/Places.antt": words, "specs/Numbers.antt": writer.numbers(), "specs/Kinds.antt": writer.kinds()}
    written["specs/Shorthand.antt"] = writer.known()
    written["specs/StepsLeft.antt"] = writer.left()
    written.update({f"specs/{module}.antt": text for module, text in lists.items()})
    return {path: wrapped(text) for path, text in written.items()}


def main():
    stale = []
    for path, text in texts().items():
        if "--check" in sys.argv:
            with open(CRATE + path, encoding="utf-8") as file:
                if file.read() != text:
                    stale.append(path)
        else:
            with open(CRATE + path, "w", encoding="utf-8") as file:
                file.write(text)
    for path in stale:
        print(f"{CRATE}{path} is not what tools/kernel_blocks.py writes")
    sys.exit(1 if stale else 0)


if __name__ == "__main__":
    main()
