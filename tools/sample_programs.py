#!/usr/bin/env python3
"""Compiles the C texts of crates/spike_front/data into the programs beside them, which documents run by `plain`.

Run `python3 tools/sample_programs.py` at the top of the repository after an edit of a text there. With `--check` it writes
nothing, and ends with 1 where a program is not what its text compiles to. It wants clang 14 with the linker lld; where they
are not installed, nothing is compared.
Nothing that it writes is trusted: the programs are data, as every file that `plain` runs.
"""
import glob
import os
import shutil
import struct
import subprocess
import sys
import tempfile

DATA = "crates/spike_front/data/"
COMPILER = "clang-14"
OPTIONS = ["--target=riscv64", "-march=rv64im", "-mabi=lp64", "-mcmodel=medany", "-mno-relax", "-O2", "-Wall", "-Werror", "-ffreestanding",
           "-fno-builtin", "-nostdlib", "-static", "-fuse-ld=lld", "-Wl,--image-base=0x10000,-z,max-page-size=4096,--build-id=none,-s"]


def without_sections(program):
    """The program up to the end of its last segment: sections name the compiler, and play no part in a run."""
    (count,) = struct.unpack_from("<H", program, 56)
    segments = [struct.unpack_from("<IIQQQQ", program, 64 + 56 * i) for i in range(count)]
    kept = bytearray(program[: max(at + size for _, _, at, _, _, size in segments)])
    struct.pack_into("<Q", kept, 40, 0)
    struct.pack_into("<HHH", kept, 58, 0, 0, 0)
    return bytes(kept)


def compiled(text, folder):
    """The program that a C text compiles to."""
    program = os.path.join(folder, "program")
    subprocess.run([COMPILER, *OPTIONS, "-o", program, text], check=True)
    with open(program, "rb") as file:
        return without_sections(file.read())


def main():
    checks = "--check" in sys.argv
    if shutil.which(COMPILER) is None or shutil.which("ld.lld") is None:
        print(f"tools/sample_programs.py: {COMPILER} and ld.lld are not installed: no program is compared or written")
        sys.exit(0 if checks else 1)
    stale = []
    with tempfile.TemporaryDirectory() as folder:
        for text in sorted(glob.glob(DATA + "*.c")):
            path, program = text[:-2], compiled(text, folder)
            if checks:
                with open(path, "rb") as file:
                    if file.read() != program:
                        stale.append(path)
            else:
                with open(path, "wb") as file:
                    file.write(program)
    for path in stale:
        print(f"{path} is not what tools/sample_programs.py writes")
    sys.exit(1 if stale else 0)


if __name__ == "__main__":
    main()
