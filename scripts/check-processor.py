#!/usr/bin/env python3
"""Compares the definitions of x86 with this machine's assembler and processor.

Usage: python3 scripts/check-processor.py
It needs an x86-64 Linux with SSE4.1 and the GNU binutils (as, ld).

- Each opcode byte of crates/x86_ins/specs/Spelling.antt for an operation on two
  vector registers, and each byte and digit of a shift by a number, is compared
  with what the assembler writes.
- Each number on a right side of crates/x86_ins/proofs/Processor.antt is compared
  with what this processor answers.

It ends with status 0 where all agree, and else prints each difference.
"""

import pathlib
import re
import struct
import subprocess
import sys
import tempfile

INS = pathlib.Path(__file__).resolve().parent.parent / "crates" / "x86_ins"
FLAG_BITS = (0, 6, 7, 11)  # carry, zero, sign, overflow in RFLAGS


def run(lines, size):
    """Runs the lines, which write `size` bytes from RDI on, and gives these bytes."""
    text = "\n".join([
        ".intel_syntax noprefix", ".globl _start", "_start:", "lea rdi, [rip+out]",
        *lines,
        "mov eax, 1", "mov edi, 1", "lea rsi, [rip+out]", f"mov edx, {size}", "syscall",
        "mov eax, 60", "xor edi, edi", "syscall",
        ".bss", ".balign 16", f"out: .space {size + 16}", ""])
    with tempfile.TemporaryDirectory() as folder:
        path = pathlib.Path(folder)
        (path / "p.s").write_text(text)
        subprocess.run(["as", "p.s", "-o", "p.o"], cwd=folder, check=True)
        subprocess.run(["ld", "p.o", "-o", "p"], cwd=folder, check=True)
        out = subprocess.run(["./p"], cwd=folder, check=True, capture_output=True).stdout
    assert len(out) == size
    return out


def load(register, values):
    low, high = struct.unpack("<QQ", bytes(values))
    return [f"movabs rax, {high}", "push rax", f"movabs rax, {low}", "push rax",
            f"movdqu {register}, [rsp]", "add rsp, 16"]


def numbers(text):
    return [int(n, 0) for n in re.findall(r"\b(?:0x[0-9a-f]+|\d+)\b", text)]


def names(text, enum):
    return [n.lower() for n in re.findall(enum + r"\.(\w+)", text)]


class Check:
    def __init__(self):
        self.done = self.bad = 0

    def same(self, what, got, want):
        self.done += 1
        if got != want:
            self.bad += 1
            print(f"{what}: the definitions have {want}, here it is {got}")


def spellings(check, text):
    """Opcode bytes against the assembler's."""
    table = lambda word, enum: {n.lower(): int(v, 16) for n, v in re.findall(
        rf"^{word} {enum}\.(\w+) = (0x[0-9a-f]+)$", text, re.M)}
    three = [n.lower() for n in re.findall(r"^has_38 vec\.(\w+) = true$", text, re.M)]
    vec, byte, digit = table("vec_byte", "vec"), table("imm_byte", "imm"), table("imm_digit", "imm")
    # The code of each is written out as data: from one label to the next.
    lines, wants = [], []
    for n, v in vec.items():
        lines.append(f"{n} xmm0, xmm1")
        wants.append((n, bytes([0x66, 0x0F, *([0x38] if n in three else []), v, 0xC1])))
    for n in byte:
        lines.append(f"{n} xmm1, 5")
        wants.append((n, bytes([0x66, 0x0F, byte[n], 0xC1 + 8 * digit[n], 5])))
    size = sum(len(w) for _, w in wants)
    out = run(["lea rsi, [rip+code]", f"mov ecx, {size}", "rep movsb", "jmp behind",
               "code:", *lines, "behind:"], size)
    for n, want in wants:
        check.same(n, out[:len(want)].hex(), want.hex())
        out = out[len(want):]


def vectors(check, text):
    """Vector instructions between registers, by a number and by an order."""
    lists = {n: numbers(v) for n, v in re.findall(r"^abbrev \w+ : List ℕ\n(\w+) = (.*)$", text, re.M)}
    rows = re.findall(r"^(\w+) : (results|shifted|shuffled) (\w+) \((.*?)\) ≡\n((?:    \(.*\n)+)    \[\]$", text, re.M)
    lines, wants = [], []
    for _, kind, argument, ops, right in rows:
        for op, want in zip(re.findall(r"\.(\w+)", ops), right.strip().splitlines(), strict=True):
            op = op.lower()
            source = lists[argument] if kind == "results" else lists["a"]
            lines += load("xmm0", lists["a"]) + load("xmm1", source)
            lines.append({"results": f"{op} xmm0, xmm1", "shifted": f"{op} xmm0, {argument}",
                          "shuffled": f"{op} xmm0, xmm1, {argument}"}[kind])
            lines += ["movdqu [rdi], xmm0", "add rdi, 16"]
            wants.append((f"{op} {argument}", numbers(want)))
    out = run(lines, 16 * len(wants))
    for k, (what, want) in enumerate(wants):
        check.same(what, list(out[16 * k:16 * k + 16]), want)


def arithmetic(check, text):
    """Results and flags of arithmetic, shifts and products of 64 bits."""
    samples = numbers(re.search(r"^samples = (.*)$", text, re.M)[1])
    lines, wants = [], []
    for op, right in re.findall(r"^\w+ : arithmetic alu\.(\w+) ≡\n((?:    \(.*\n)+)", text, re.M):
        pairs = [(x, y) for x in samples for y in samples]
        for (x, y), row in zip(pairs, right.strip().splitlines(), strict=True):
            # the difference that CMP compares is SUB's
            real = "sub" if op == "Cmp" else op.lower()
            flags = [w == "true" for w in re.findall(r"true|false", row)]
            lines += [f"movabs rax, {x}", f"movabs rcx, {y}", "mov rdx, rax", f"{real} rdx, rcx",
                      f"{op.lower()} rax, rcx", "pushfq", "pop rax", "mov [rdi], rdx",
                      "mov [rdi+8], rax", "add rdi, 16"]
            wants.append((f"{op} {x} {y}", (numbers(row)[0], flags)))
    values = lambda name: re.search(rf"^{name} : (.*) ≡\n    (.*)$", text, re.M).groups()
    left, right = values("shifts_of_64_bits")
    for (op, x, n), want in zip(re.findall(r"shift\.(\w+) (\d+) (\d+)", left), numbers(right), strict=True):
        lines += [f"movabs rax, {x}", f"mov cl, {n}", f"{op.lower()} rax, cl",
                  "mov [rdi], rax", "add rdi, 16"]
        wants.append((f"{op} {x} {n}", (want, None)))
    left, right = values("products_of_64_bits")
    for (x, y), want in zip(re.findall(r"mul_low 64 (\d+) (\d+)", left), numbers(right), strict=True):
        lines += [f"movabs rax, {x}", f"movabs rcx, {y}", "imul rax, rcx",
                  "mov [rdi], rax", "add rdi, 16"]
        wants.append((f"imul {x} {y}", (want, None)))
    out = run(lines, 16 * len(wants))
    for k, (what, (want, flags)) in enumerate(wants):
        result, word = struct.unpack("<QQ", out[16 * k:16 * k + 16])
        got = [bool(word >> b & 1) for b in FLAG_BITS]
        check.same(what, (result, got if flags is not None else None), (want, flags))


def conditions(check, text):
    """Conditions on each setting of the flags."""
    settings = [[w == "true" for w in row.split()] for row in re.findall(r"^    flags (.*?) ∷$", text, re.M)]
    tests = [(c.lower(), [w == "true" for w in re.findall(r"true|false", right)])
             for c, right in re.findall(r"^\w+ : tests conds\.(\w+) ≡ (.*)$", text, re.M)]
    lines = []
    for setting in settings:
        lines += [f"push {2 + sum(1 << b for b, on in zip(FLAG_BITS, setting, strict=True) if on)}", "popfq"]
        for k, (c, _) in enumerate(tests):
            lines.append(f"set{c} byte ptr [rdi+{k}]")
        lines.append(f"lea rdi, [rdi+{len(tests)}]")
    out = run(lines, len(tests) * len(settings))
    for k, (c, want) in enumerate(tests):
        check.same(c, [bool(b) for b in out[k::len(tests)]], want)


def main():
    check = Check()
    spellings(check, (INS / "specs" / "Spelling.antt").read_text())
    text = (INS / "proofs" / "Processor.antt").read_text()
    vectors(check, text)
    arithmetic(check, text)
    conditions(check, text)
    print(f"{check.done} compared, {check.bad} differ")
    return 1 if check.bad or check.done < 200 else 0


if __name__ == "__main__":
    sys.exit(main())
