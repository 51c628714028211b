"""What the archive keeps in read-only memory beside its code, and whether a table is among it.

    readonly.py LIBDIR      the folder that holds libsurvey.a

Document 02, F-4: the table of the eight positions "goes and no other takes its place". Numbers that are read at a computed place stand
where code can reckon from, and each of these forms is looked for, in the whole archive:

    data      a section of numbers, other than constants that instructions name one by one
    address   code that names numbers otherwise than as an operand of a vector instruction, or that names some within the code
    copy      a constant, or a number of more than two bytes in an instruction, that goes to memory as it is, where it can be
              read byte by byte: that is what the compiler had made of the table that went. A vector register that is put on the
              stack and only read back whole, as around a call, is none
    codes     the entries of that table, wherever they stand

That all this can fail: small objects, each with a table of one form, are held to the same, and just that form is found; in those
without a table none is. Each case is counted; a case that fails is named.
"""

import os
import re
import subprocess
import sys
import tempfile

SECTION = re.compile(r"\s*\d+ (.+?)\s+([0-9a-f]{8})  .* 2\*\*\d+  (.*)$")
CONSTANTS = re.compile(r"\.rodata\.cst\d+$")
COMMAS = re.compile(r",(?![^(]*\))")
PLACE = re.compile(r"(-?0x[0-9a-f]+|)\(%rsp(\)|,)")
WHOLE_VECTOR = re.compile(r"mov(dqa|dqu|aps|ups|apd|upd)$|p(add|sub|cmpeq|cmpgt|min[su]|max[su]|and|andn|or|xor|mull?)")
REGISTERS = [["r" + n, "e" + n, n, n[0] + "l"] for n in ("ax", "bx", "cx", "dx")]
REGISTERS += [["r" + n, "e" + n, n, n + "l"] for n in ("si", "di", "bp", "sp")]
REGISTERS += [[f"r{n}", f"r{n}d", f"r{n}w", f"r{n}b"] for n in range(8, 16)]
WHOLE = {"%" + part: "%" + names[0] for names in REGISTERS for part in names}

# What was done in positions 1, 2, 4 and 6, and in none, 3, 5 and 7: paint 1, keep before 2, keep after 4, go on 8.
CODES = bytes([4, 5, 1, 9]), bytes([0, 7, 3, 11])

CONSTANT = '.section .rodata.cst16,"aM",@progbits,16\nt: .quad 0x0807060504030201, 9\n.text\nf: '
FROM_STACK = "\n movzbl -24(%rsp,%rdi), %eax\n ret\n"
SAVED = CONSTANT + "sub $40, %rsp\n movdqa t(%rip), %xmm0\n movdqa %xmm0, 16(%rsp)\n "

# Objects in C or assembly, and the forms that each of them has.
PLANTED = (
    ("a table that is indexed", "data address", "c",
     "static const unsigned char t[12] = {3, 1, 4, 1, 5, 9, 2, 6, 5, 3, 5, 8};"
     "unsigned f(unsigned i) { return t[i]; }"),
    ("a choice that the compiler makes a table of", "data address", "c",
     "unsigned f(unsigned i) { switch (i) { case 0: return 31; case 1: return 7; case 2: return 12; case 3: return 59;"
     "case 4: return 2; case 5: return 88; case 6: return 45; case 7: return 6; default: return 0; } }"),
    ("read-only data", "data", "assembler", ".section .rodata\nt: .byte 3, 1, 4\n"),
    ("other data", "data", "assembler", ".data\nt: .byte 3, 1, 4\n"),
    ("addresses that are written once", "data", "assembler", '.section .data.rel.ro,"aw",@progbits\nt: .quad f\n.text\nf: ret\n'),
    ("a constant's address", "address", "assembler", CONSTANT + "lea t(%rip), %rax\n ret\n"),
    ("a constant's address, as of a call", "address", "assembler", CONSTANT + "lea t@PLT(%rip), %rax\n ret\n"),
    ("a place reckoned from a constant's", "address", "assembler", CONSTANT + "movzbl t(,%rdi), %eax\n ret\n"),
    ("the same in a vector instruction", "address", "assembler", CONSTANT + "movss t(,%rdi,4), %xmm0\n ret\n"),
    ("numbers within the code", "address", "assembler", ".text\nf: lea t(%rip), %rax\n ret\nt: .quad 3\n"),
    ("a constant put on the stack", "copy", "assembler", CONSTANT + "movdqa t(%rip), %xmm0\n movaps %xmm0, -24(%rsp)" + FROM_STACK),
    ("the same by way of another register", "copy", "assembler",
     CONSTANT + "movdqa t(%rip), %xmm0\n movdqa %xmm0, %xmm9\n movups %xmm9, -24(%rsp)" + FROM_STACK),
    ("eight numbers put on the stack", "copy", "assembler",
     ".text\nf: movabs $0x0807060504030201, %r10\n mov %r10, -24(%rsp)" + FROM_STACK),
    ("four numbers put on the stack", "copy", "assembler", ".text\nf: movl $0x04030201, -24(%rsp)" + FROM_STACK),
    ("a constant put on the stack, and its address", "copy", "assembler",
     SAVED + "lea 8(%rsp), %rdi\n call g@PLT\n movdqa 16(%rsp), %xmm0\n add $40, %rsp\n ret\n"),
    ("one that is read at a place reckoned from below it", "copy", "assembler",
     SAVED + "call g@PLT\n movdqa 16(%rsp), %xmm0\n movzwl 8(%rsp,%rbx), %eax\n add $40, %rsp\n ret\n"),
    ("one that is read back in part", "copy", "assembler",
     SAVED + "call g@PLT\n movdqa 16(%rsp), %xmm0\n movzwl 20(%rsp), %eax\n add $40, %rsp\n ret\n"),
    ("one that is handed on there", "copy", "assembler", SAVED + "call g@PLT\n add $40, %rsp\n ret\n"),
    ("one that is put elsewhere when it is back", "copy", "assembler",
     SAVED + "call g@PLT\n movdqa 16(%rsp), %xmm1\n movdqu %xmm1, (%rdi)\n add $40, %rsp\n ret\n"),
    ("a constant kept on the stack around a call", "", "assembler",
     SAVED + "lea 32(%rsp), %rdi\n call g@PLT\n incw 32(%rsp,%rbx,2)\n movdqa 16(%rsp), %xmm1\n paddd 16(%rsp), %xmm1\n add $40, %rsp\n ret\n"),
    ("the old table put on the stack", "copy codes", "assembler",
     ".text\nf: movabs $0x0b03070009010504, %rax\n mov %rax, -24(%rsp)" + FROM_STACK),
    ("the old table's first entries", "codes", "assembler", ".text\nf: mov $0x09010504, %eax\n ret\n"),
    ("the old table's next entries", "codes", "assembler", ".text\nf: mov $0x0b030700, %eax\n ret\n"),
    ("a constant of a vector instruction", "", "assembler", CONSTANT + "pxor t(%rip), %xmm0\n ret\n"),
    ("a constant that is worked with", "", "assembler",
     CONSTANT + "movdqa t(%rip), %xmm0\n pxor %xmm1, %xmm0\n movaps %xmm0, -24(%rsp)\n ret\n"),
    ("a mask", "", "assembler", ".text\nf: movabs $0x5555555555555555, %rax\n and %rdi, %rax\n mov %eax, -24(%rsp)\n ret\n"),
    ("one number", "", "assembler", ".text\nf: movl $0x3000, -24(%rsp)\n movl $0xffffffff, -20(%rsp)\n ret\n"),
    ("a call", "", "assembler", ".text\nf: call g@PLT\n ret\n"),
    ("code alone", "", "c", "unsigned f(unsigned i, unsigned j) { return i < j ? 3 * i : j; }"),
)


def output(*words):
    return subprocess.run(words, check=True, capture_output=True, text=True).stdout


def sections(path):
    """The name, the size and the flags of each section that is loaded with what it holds."""
    for line in output("objdump", "-h", "-w", path).splitlines():
        if "ALLOC" in line and "CONTENTS" in line:
            name, size, flags = SECTION.match(line).groups()
            yield name, int(size, 16), "CODE" in flags


def instructions(path):
    """The name, the operands, and the relocation or None of each instruction; None at a function's start."""
    for line in output("objdump", "-d", "-w", "-r", "--no-show-raw-insn", path).splitlines():
        parts = line.split("\t")
        if line.endswith(">:"):
            yield None
        elif len(parts) > 1 and parts[0].endswith(":") and parts[1].strip():
            name, operands = (parts[1].split("#")[0].strip() + " ").split(" ", 1)
            operands = [operand.strip() for operand in COMMAS.split(operands)]
            yield name, [WHOLE.get(operand, operand) for operand in operands], parts[2] if len(parts) > 2 else None


def names_numbers(name, operands, relocation):
    """Does it name numbers otherwise than as a vector instruction's constant?"""
    beside = any("(%rip)" in operand for operand in operands)
    if relocation is None:
        return beside
    if "PLT32" in relocation:
        return not name.startswith(("call", "j"))
    return not (beside and operands[-1].startswith("%xmm"))


def is_constant(operand):
    """Is it named beside the code, or a number of more than two bytes that are not all alike?"""
    if "(%rip)" in operand:
        return True
    if not operand.startswith("$"):
        return False
    number = int(operand[1:], 0)
    return number > 0xffff and len(set(number.to_bytes(8, "little").rstrip(b"\0"))) > 1


def place(operand, is_reckoned=False):
    """How far above the stack's end an operand is that names a place there, by itself or from which on it is reckoned; None of any other."""
    found = PLACE.match(operand)
    return int(found[1] or "0", 16) if found and is_reckoned == (found[2] == ",") else None


def is_saved(target, at, function):
    """Is what the instruction of this number puts at this place of the stack only read back whole, into a vector register, at least once?"""
    start, is_read = place(target), False
    if start is None or not function[at][1][0].startswith("%xmm"):
        return False
    for number, (name, operands, _) in enumerate(function):
        is_moved = name.startswith("push") or operands[-1] == "%rsp" and not name.startswith(("add", "pop"))
        if is_moved and number > at:
            return False
        for operand in operands:
            if "%rsp" not in operand or operand == "%rsp" and operands[-1] == operand:
                continue
            other, of_many = place(operand), place(operand, True)
            # An address, and a place that is reckoned, lead from where they are named upward.
            if name.startswith("lea") or other is None:
                other = of_many if other is None else other
                if other is None or other < start + 16:
                    return False
                continue
            is_vector = any(each.startswith("%xmm") for each in operands)
            if other >= start + 16 or other + (16 if is_vector else 8) <= start:
                continue
            if other != start or not is_vector or name.startswith(("mov", "p")) and not WHOLE_VECTOR.match(name):
                return False
            is_read = is_read or operands[-1].startswith("%xmm")
    return is_read


def copies(listed):
    """The instructions by which a constant goes to memory as it is; registers, and what is kept on the stack, are followed from one line to the next."""
    functions = [[]]
    for each in listed:
        functions += [[]] if each is None else []
        functions[-1] += [each] if each else []
    for function in functions:
        held = set()
        for at, (name, operands, relocation) in enumerate(function):
            source, target = operands[0], operands[-1]
            is_raw = name.startswith("mov") and (source in held or is_constant(source))
            if is_raw and "(" in target and not is_saved(target, at, function):
                yield name, operands, relocation
            held.discard(target)
            if is_raw and (target.startswith("%") or place(target) is not None):
                held.add(target)


def faults(path):
    """The forms of a table that are there, each with words on it."""
    found = [("data", f"{size} bytes in {name}") for name, size, is_code in sections(path)
             if size and not is_code and not CONSTANTS.match(name)]
    listed = list(instructions(path))
    found += [("address", repr(each)) for each in listed if each and names_numbers(*each)]
    found += [("copy", repr(each)) for each in copies(listed)]
    with open(path, "rb") as archive:
        held = archive.read()
    return found + [("codes", codes.hex(" ")) for codes in CODES if codes in held]


def planted(work):
    """The planted objects in which other forms are found than they have."""
    path = os.path.join(work, "planted.o")
    cc = ["cc", "-O2", "-fno-asynchronous-unwind-tables", "-fcf-protection=none"]
    for name, forms, language, text in PLANTED:
        subprocess.run(cc + ["-x", language, "-c", "-o", path, "-"], input=text, text=True, check=True)
        found = {form for form, _ in faults(path)}
        if found != set(forms.split()):
            yield name, sorted(found)


def main():
    if len(sys.argv) != 2:
        sys.exit("usage: readonly.py LIBDIR")
    archive = os.path.join(sys.argv[1], "libsurvey.a")
    found = faults(archive)
    with tempfile.TemporaryDirectory() as work:
        wrong = list(planted(work))
    for form, words in found:
        print(f"FAILED: the archive, {form}: {words}")
    for name, forms in wrong:
        print(f"FAILED: planted, {name}: {forms}")
    loaded = list(sections(archive))
    code = sum(size for _, size, is_code in loaded if is_code)
    print(f"read-only: {code} bytes of code, {sum(size for _, size, _ in loaded) - code} of constants")
    failed = len(wrong) + bool(found)
    print(f"read-only: {1 + len(PLANTED) - failed} passed, {failed} failed")
    sys.exit(failed > 0)


main()
