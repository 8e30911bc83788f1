#!/usr/bin/env python3
"""scan.py WHOSE ASSEMBLY UNDEFINED: whatever WHOSE code takes from outside (UNDEFINED: what `nm -u` prints of its object) must be
one of ours, the memory's or the runtime's, or fmod, which is exact; and its assembly may hold no square root instruction.
Prints what it found, and fails on anything else."""
import re
import sys

OURS = re.compile(r"(probe|watered)_\w+")
EXACT = {"fmod"}
RUNTIME = re.compile(r"mem(cpy|move|set|cmp)|bcmp|_Unwind_Resume|rust_eh_personality|_GLOBAL_OFFSET_TABLE_|__tls_get_addr|_R\w+|_ZN.*")


def main() -> None:
    whose, assembly, undefined = sys.argv[1:]
    roots = re.findall(r"\bv?r?sqrt[sp][sd]\b.*", open(assembly).read())
    taken = {line.split()[-1] for line in open(undefined) if re.match(r"\s+U\s", line)}
    ours = sorted(name for name in taken if OURS.fullmatch(name))
    strange = sorted(name for name in taken - set(ours) - EXACT if not RUNTIME.fullmatch(name))
    print(f"{whose} calls of ours: {', '.join(ours) or 'none'}; of the machine's functions: {', '.join(taken & EXACT) or 'none'}")
    if strange or roots:
        sys.exit(f"left of the machine's own functions: {strange + roots}")


main()
