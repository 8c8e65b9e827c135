#!/usr/bin/env python3
"""Writes crates/proxy_kernel/specs/KernelWords.antt, the kernel's instructions and words, from the kernel's rows.

Run `python3 tools/kernel_words.py` at the top of the repository after an edit of crates/proxy_kernel/src/list.rt. With
`--check` it writes nothing, and ends with 1 where the file is not what it would write. Nothing that it writes is trusted:
the prover shows that the items stand for these instructions, and that each word decodes to its instruction.
"""
import re
import sys

ROWS = "crates/proxy_kernel/src/list.rt"
WRITTEN = "crates/proxy_kernel/specs/KernelWords.antt"
NAMES = "Add Addi Andi Auipc Beq Bgeu Bltu Bne Csrrs Csrrw Jal Jalr Lbu Ld Lui Mret Sd Slli Sltiu Srl Srli Sub"
HEAD = """-- The kernel's instructions, and the words of its image. Written by tools/kernel_words.py.
use Rattle.std.specs.Prelude.{ℕ, pos, negsuc, List, [], ◌∷◌}
use Rattle.rv_decode.specs.declared.instruction.Insn.{Insn}
use Rattle.rv_decode.specs.declared.instruction.Insn.TheVariants.{%s}
"""


def rows_of(text):
    """The rows of the constant: a name and its operands."""
    body = re.sub(r"//.*", "", text[text.index("= [") + 3:])
    for name, operands in re.findall(r"\b([A-Z][a-z]+)(?:\(([^()]*)\))?,", body):
        yield name, [o.strip() for o in operands.split(",")] if operands else []


def number(text):
    return int(text.replace("_", ""), 0)


def insns_of(rows):
    """The instructions as (name, operands), with the offsets of their labels."""
    places, at = {}, 0
    for name, operands in rows:
        if name == "Label":
            places[operands[0]] = at
        else:
            at += 8 if name == "La" else 4
    at = 0
    for name, operands in rows:
        if name == "Label":
            continue
        if name == "La":
            rd, offset = number(operands[0]), places[operands[1]] - at
            upper = (offset + 0x800) >> 12
            yield "Auipc", [rd, upper & 0xFFFFF]
            yield "Addi", [rd, rd, offset - (upper << 12)]
            at += 8
            continue
        values = [places[o] - at if o.startswith("Place::") else number(o) for o in operands]
        yield name, values
        at += 4


def r_word(opcode, f3, f7, rd, rs1, rs2):
    return f7 << 25 | rs2 << 20 | rs1 << 15 | f3 << 12 | rd << 7 | opcode


def i_word(opcode, f3, rd, rs1, imm):
    return (imm & 0xFFF) << 20 | rs1 << 15 | f3 << 12 | rd << 7 | opcode


def s_word(f3, rs1, rs2, imm):
    return (imm >> 5 & 0x7F) << 25 | rs2 << 20 | rs1 << 15 | f3 << 12 | (imm & 31) << 7 | 0x23


def b_word(f3, rs1, rs2, offset):
    high = (offset >> 12 & 1) << 6 | offset >> 5 & 0x3F
    return high << 25 | rs2 << 20 | rs1 << 15 | f3 << 12 | (offset >> 1 & 15) << 8 | (offset >> 11 & 1) << 7 | 0x63


def j_word(rd, offset):
    high = (offset >> 20 & 1) << 19 | (offset >> 1 & 0x3FF) << 9 | (offset >> 11 & 1) << 8 | offset >> 12 & 0xFF
    return high << 12 | rd << 7 | 0x6F


def word(name, v):
    """The word of a row; its operands stand as they are written, an offset before its base register."""
    upper = {"Lui": 0x37, "Auipc": 0x17}
    if name in upper:
        return v[1] << 12 | v[0] << 7 | upper[name]
    immediate = {"Addi": (0x13, 0), "Sltiu": (0x13, 3), "Andi": (0x13, 7), "Slli": (0x13, 1), "Srli": (0x13, 5)}
    if name in immediate:
        return i_word(*immediate[name], v[0], v[1], v[2])
    register = {"Add": (0, 0), "Sub": (0, 0x20), "Srl": (5, 0)}
    if name in register:
        return r_word(0x33, *register[name], v[0], v[1], v[2])
    load = {"Ld": (0x03, 3), "Lbu": (0x03, 4), "Jalr": (0x67, 0)}
    if name in load:
        return i_word(*load[name], v[0], v[2], v[1])
    branch = {"Beq": 0, "Bne": 1, "Bltu": 6, "Bgeu": 7}
    if name in branch:
        return b_word(branch[name], v[0], v[1], v[2])
    if name == "Sd":
        return s_word(3, v[2], v[0], v[1])
    if name == "Jal":
        return j_word(v[0], v[1])
    csr = {"Csrrw": 1, "Csrrs": 2}
    if name in csr:
        return i_word(0x73, csr[name], v[0], v[2], v[1])
    assert name == "Mret", name
    return 0x30200073


def signed(number):
    return f"(pos {number})" if number >= 0 else f"(negsuc {-number - 1})"


def term(name, v):
    """The instruction as a term: its fields in the order of its variant."""
    if name in ("Addi", "Sltiu", "Andi", "Beq", "Bne", "Bltu", "Bgeu"):
        return f"{name} {v[0]} {v[1]} {signed(v[2])}"
    if name in ("Ld", "Lbu", "Jalr"):
        return f"{name} {v[0]} {v[2]} {signed(v[1])}"
    if name == "Sd":
        return f"Sd {v[2]} {v[0]} {signed(v[1])}"
    if name == "Jal":
        return f"Jal {v[0]} {signed(v[1])}"
    if name in ("Csrrw", "Csrrs"):
        return f"{name} {v[0]} {v[2]} {v[1]}"
    return " ".join([name] + [str(x) for x in v])


def text_of(insns):
    terms = "".join(f"    {term(*insn)} ∷\n" for insn in insns)
    words = [f"{word(*insn):#x}" for insn in insns]
    lines = "".join("    " + " ∷ ".join(words[i:i + 8]) + " ∷\n" for i in range(0, len(words), 8))
    return (HEAD % ", ".join(NAMES.split())
            + "\n-- the kernel's instructions, from its first address on\nunfoldable pub kernel_insns : List Insn\n"
            + f"kernel_insns =\n{terms}    []\n"
            + "\n-- their words, in the same order\nunfoldable pub kernel_words : List ℕ\n"
            + f"kernel_words =\n{lines}    []\n"
            + "\n-- how many instructions they are\nabbrev pub kernel_count : ℕ\n"
            + f"kernel_count = {len(words)}\n")


def main():
    with open(ROWS, encoding="utf-8") as rows:
        text = text_of(list(insns_of(list(rows_of(rows.read())))))
    if sys.argv[1:] == ["--check"]:
        with open(WRITTEN, encoding="utf-8") as written:
            if written.read() != text:
                print(f"{WRITTEN} is not what tools/kernel_words.py writes", file=sys.stderr)
                return 1
        return 0
    with open(WRITTEN, "w", encoding="utf-8") as written:
        written.write(text)
    return 0


if __name__ == "__main__":
    sys.exit(main())
