"""Reads the stack that each exported function needs at most from its x86-64 code.

    objdump -dr libhost.a | python3 bench/frames.py

A function's frame is its return address, what it pushes, and what it takes off the stack
pointer. Nothing in a Rattle library calls itself, so a function needs its own frame and the
most that one of those needs which it calls. What memcpy and memset need is not in it.
"""

import re
import sys

EXPORTED = "ibisladder_"
POINTER_BYTES = 8

START = re.compile(r"[0-9a-f]+ <(.+)>:$")
PUSH = re.compile(r"\tpush ")
TAKE = re.compile(r"\tsub +\$0x([0-9a-f]+),%rsp")
GIVE_BACK = re.compile(r"\tadd +\$0x([0-9a-f]+),%rsp")
CALLED = re.compile(r"R_X86_64_(?:PLT32|PC32)\t(.+)-0x4$")


def amounts(pattern, code):
    return [int(found.group(1), 16) for line in code if (found := pattern.search(line))]


def frame_bytes(code):
    """A large frame is taken in pieces, one a page, or in a loop; at its end it is given
    back as a whole."""
    pushed = POINTER_BYTES * sum(bool(PUSH.search(line)) for line in code)
    taken = max(sum(amounts(TAKE, code)), *amounts(GIVE_BACK, code), 0)
    return POINTER_BYTES + pushed + taken


def functions(lines):
    """The functions' code, by name."""
    found = {}
    for line in lines:
        if start := START.match(line):
            code = found.setdefault(start.group(1), [])
        elif found:
            code.append(line)
    return found


def need_bytes(name, code):
    """What a function of the library needs, with those that it calls; one from elsewhere, nothing."""
    if name not in code:
        return 0
    called = {found.group(1) for line in code[name] if (found := CALLED.search(line))}
    return frame_bytes(code[name]) + max((need_bytes(other, code) for other in called), default=0)


def main():
    code = functions(sys.stdin)
    exported = sorted(name for name in code if name.startswith(EXPORTED))
    needs = [f"{name} {need_bytes(name, code)}" for name in exported]
    print(f"stack by the code, at most, bytes: {', '.join(needs)}")


if __name__ == "__main__":
    main()
