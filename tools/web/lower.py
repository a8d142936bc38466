"""A module with a 64-bit memory as one with a 32-bit memory, by wabt: each address is cut to 32 bits where it is used.

Calls keep their types, so a caller still passes 64-bit addresses and sizes. Binaryen's --memory64-lowering does the same, but not
for SIMD's loads and stores of lanes.
"""

import os
import re
import subprocess
import tempfile

TABLE, ELEMENTS = 4, 9
# Locals that keep what lies above an address on the stack, by its type.
KEPT = {"i32": "ti", "i64": "tl", "v128": "tv", "f32": "tf", "f64": "td"}
LOCALS = f"(local $tm i64) {' '.join(f'(local ${name} {kind})' for kind, name in KEPT.items())}"
WRAP = "i32.wrap_i64"
ACCESS = re.compile(r"(i32|i64|f32|f64|v128)\.(load|store)(\w*)")


def read_number(data, at):
    """Returns a number in LEB128, and the offset after it."""
    value = shift = 0
    while True:
        byte = data[at]
        at += 1
        value |= (byte & 127) << shift
        shift += 7
        if not byte & 128:
            return value, at


def sections(data):
    """Yields the number of each section of a module, with the offsets where it begins, where its content begins, and its end."""
    at = 8
    while at < len(data):
        size, content = read_number(data, at + 1)
        yield data[at], at, content, content + size
        at = content + size


def without_table(data):
    """Returns a module without LLVM's function table, which is empty: no call goes through it."""
    kinds = [kind for kind, *_ in sections(data)]
    if ELEMENTS in kinds:
        raise ValueError("the module's table has functions")
    return data[:8] + b"".join(data[start:end] for kind, start, _, end in sections(data) if kind != TABLE)


def lower_access(kind, verb, form, line):
    """A load has its address on top of the stack; what is stored, and the vector of a lane, lie above it."""
    if verb == "store" or form.endswith("_lane"):
        kept = KEPT[kind]
        return [f"local.set ${kept}", WRAP, f"local.get ${kept}", line]
    return [WRAP, line]


def lower_instruction(line):
    """Returns the lines for one line of a function."""
    instruction = line.strip().split(" ")[0].rstrip(")")
    access = ACCESS.fullmatch(instruction)
    if access:
        return lower_access(*access.groups(), line)
    if instruction == "memory.copy":
        return ["local.set $tl", "local.set $tm", WRAP, "local.get $tm", WRAP, "local.get $tl", WRAP, line]
    if instruction == "memory.fill":
        return ["local.set $tl", "local.set $ti", WRAP, "local.get $ti", "local.get $tl", WRAP, line]
    if instruction in ("memory.size", "memory.grow"):
        # at the end of a function its parenthesis would come too early
        if line.rstrip().endswith(")"):
            raise ValueError(f"{instruction} at the end of a function")
        return [line, "i64.extend_i32_u"] if instruction == "memory.size" else [WRAP, line, "i64.extend_i32_s"]
    return [line]


def lower_text(text):
    """Returns the text of a module with a 32-bit memory."""
    lines, awaits_locals = [], False
    for line in text.splitlines():
        body = line.strip()
        if body.startswith("(memory (;0;) i64 "):
            lines.append(line.replace("(;0;) i64 ", "(;0;) "))
            continue
        if body.startswith("(data"):
            lines.append(re.sub(r"\(i64\.const (\d+)\)", r"(i32.const \1)", line, count=1))
            continue
        if awaits_locals:
            # after the function's own locals
            if body.startswith("(local"):
                lines += [line, LOCALS]
                awaits_locals = False
                continue
            lines.append(LOCALS)
        awaits_locals = body.startswith("(func (;")
        lines += [line] if awaits_locals else lower_instruction(line)
    return "\n".join(lines) + "\n"


def lower(data):
    """Returns a module with a 32-bit memory."""
    with tempfile.TemporaryDirectory() as directory:
        before, after = os.path.join(directory, "before"), os.path.join(directory, "after")
        with open(f"{before}.wasm", "wb") as file:
            file.write(without_table(data))
        subprocess.run(["wasm2wat", "--enable-memory64", "--no-debug-names", f"{before}.wasm", "-o", f"{before}.wat"], check=True)
        with open(f"{before}.wat", encoding="utf-8") as file:
            text = lower_text(file.read())
        with open(f"{after}.wat", "w", encoding="utf-8") as file:
            file.write(text)
        subprocess.run(["wat2wasm", f"{after}.wat", "-o", f"{after}.wasm"], check=True)
        with open(f"{after}.wasm", "rb") as file:
            return file.read()
