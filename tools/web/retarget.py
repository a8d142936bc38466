"""LLVM IR that rattle made for x86-64, as IR that clang compiles for WebAssembly with a 64-bit memory."""

import re

LAYOUT = "e-m:e-p:64:64-p10:8:8-p20:8:8-i64:64-i128:128-n32:64-S128-ni:1:10:20"
TRIPLE = "wasm64-unknown-unknown"
# Attributes of functions that name the other processor, or how its stack is probed.
ATTRIBUTES = "probe-stack|stack-probe-size|target-cpu|target-features|tune-cpu|prefer-vector-width|min-legal-vector-width"
OTHERS = re.compile(r"@llvm\.(?:x86|aarch64|arm|sse)[\w.]*")


class Unknown(Exception):
    """The IR has something that no other processor has."""


def retarget(text):
    """Returns the IR for WebAssembly. Raises Unknown if it has intrinsics of another processor."""
    found = sorted(set(OTHERS.findall(text)))
    if found:
        raise Unknown(f"the IR has intrinsics of another processor: {', '.join(found)}")
    text, layouts = re.subn(r'^target datalayout = ".*"$', f'target datalayout = "{LAYOUT}"', text, flags=re.M)
    text, triples = re.subn(r'^target triple = ".*"$', f'target triple = "{TRIPLE}"', text, flags=re.M)
    if (layouts, triples) != (1, 1):
        raise Unknown("the IR has not one layout and one triple")
    return re.sub(rf' ?"(?:{ATTRIBUTES})"="[^"]*"', "", text)
