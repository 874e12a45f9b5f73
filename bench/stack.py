"""Stack of a function with everything it calls, and the size of a state, read off compiled x86-64 code.

Frames are read off the disassembled object: the return address, each push and each subtraction from the stack pointer, each counted once. That
is no less than a frame can take, as long as nothing else moves the stack pointer down: a function that does is odd, and is not to be reached. A
function of the C library (memcpy, memset) counts its return address alone.
"""
import re
import subprocess

C_LIBRARY = {"memcpy", "memmove", "memset"}
# What ends a frame; what else names the stack pointer as a frame's size is found or as its pages are touched in a loop.
ENDS = r"lea\s+0x[0-9a-f]+\(%rsp\),%rsp|lea\s+-0x[0-9a-f]+\(%rbp\),%rsp|mov\s+%rbp,%rsp"
ODD = r"(sub|and|lea|mov)\s.*,%rsp$|cmp\s+%rsp,|cmp\s.*,%rsp$"


class Frame:
    def __init__(self):
        self.bytes, self.calls, self.odd = 8, set(), None


def frames(path):
    """The frame of each function of an object, and what it calls."""
    said = subprocess.run(["x86_64-linux-gnu-objdump", "-drw", "--no-show-raw-insn", path], check=True, stdout=subprocess.PIPE, text=True).stdout
    found, frame = {}, None
    for line in said.splitlines():
        head = re.match(r"[0-9a-f]+ <(.*)>:$", line)
        if head:
            frame = found.setdefault(head.group(1), Frame())
            continue
        text = re.sub(r"^\s*[0-9a-f]+:\s*", "", line)
        if text.startswith("push"):
            frame.bytes += 8
        down = re.match(r"sub\s+\$0x([0-9a-f]+),%rsp", text)
        if down:
            frame.bytes += int(down.group(1), 16)
        if re.match(ODD, text) and not down and not re.match(ENDS, text):
            frame.odd = frame.odd or "a frame that is not plain: " + line
        call = re.match(r"(?:call|jmp|j[a-z]+)\s.*R_X86_64_PLT32\s+(.*?)(?:[+-]0x[0-9a-f]+)?$", text)
        if call:
            frame.calls.add(re.sub(r"^\.text\.", "", call.group(1)))
        elif re.match(r"call\s+\*", text):
            frame.odd = frame.odd or "a call that is not plain: " + line
    return found


def deepest(found, name, above=()):
    """(bytes, chain of names) from a function down."""
    if name in C_LIBRARY:
        return 8, [name]
    if name in above:
        raise ValueError("recursion: " + " > ".join(above + (name,)))
    frame = found[name]
    if frame.odd:
        raise ValueError(" > ".join(above + (name,)) + ": " + frame.odd)
    best, chain = max((deepest(found, callee, above + (name,)) for callee in sorted(frame.calls)), default=(0, []), key=lambda x: x[0])
    return frame.bytes + best, [name] + chain


def bytes_copied(module, name, parameter):
    """The size of a parameter that is passed by value: the copy that the function makes of it first."""
    inside = False
    for line in open(module):
        if line.startswith("define "):
            inside = '@"%s"(' % name in line
        copy = re.search(r"ptr %%a%d, i64 (\d+)," % parameter, line)
        if inside and copy:
            return int(copy.group(1))
    raise ValueError("no copy of parameter %d of %s" % (parameter, name))
