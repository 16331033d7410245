"""Reads `objdump -d -r -C` of the library and prints for each C function the bytes of stack of its deepest chain of calls.

A function's frame is what its first lines take off the stack pointer. The two functions that call themselves do so once for each vertex
at most. What the C library's memset and memcpy need is not in it."""
import re
import sys

DEEPEST = 256
frames, calls, name, probed, own = {}, {}, None, False, False
for line in sys.stdin:
    # A call of itself has no relocation on the line behind it.
    if own and not re.search(r"\bR_", line):
        calls[name].add(name)
    own = bool(name and re.search(rf"\t(?:call|bl)\s.*<{re.escape(name)}>$", line))
    if head := re.match(r"[0-9a-f]+ <(.*)>:$", line):
        name, probed = head[1], False
        frames[name], calls[name] = 0, set()
    elif name and re.search(r"\tpush ", line):
        frames[name] += 8
    elif far := re.search(r"sub\s+\$0x([0-9a-f]+),%r11|sub\tx9, sp, #0x([0-9a-f]+), lsl #12", line):
        frames[name] += int(far[1], 16) if far[1] else int(far[2], 16) << 12
        probed = True
    elif off := re.search(r"sub\s+\$0x([0-9a-f]+),%rsp|sub\tsp, sp, #0x([0-9a-f]+)(, lsl #12)?", line):
        if not probed:
            frames[name] += int(off[1] or off[2], 16) << (12 if off[3] else 0)
        probed = False
    elif off := re.search(r"\[sp, #-(\d+)\]!", line):
        frames[name] += int(off[1])
    elif to := re.search(r"R_(?:X86_64_PLT32|X86_64_PC32|AARCH64_CALL26|AARCH64_JUMP26)\s+(?:\.text\.)?([\w:]+)", line):
        calls[name].add(to[1])


def deepest(f):
    frame = frames[f] + 8
    below = max((deepest(g) for g in calls[f] if g in frames and g != f), default=0)
    return frame * (DEEPEST if f in calls[f] else 1) + below


rows = sorted(((deepest(f), f) for f in frames if f.startswith("vs_")), reverse=True)
for need, f in rows:
    print(f"{f:<40} {need:>8}")
