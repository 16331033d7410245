#!/usr/bin/env python3
"""Makes the recorded frame texts and lines of crates/sorted_texts and crates/damaged_texts by the rules alone, apart from the proved code."""
import os

CRATES = os.path.join(os.path.dirname(os.path.abspath(__file__)), "..", "..", "crates")
DIGITS = b"0123456789ABCDEF"


def sealed(data):
    """A frame's line: the bytes, and a last one that makes the sum 0 modulo 256."""
    return b"".join(b"%02X" % b for b in data + [-sum(data) % 256]) + b"\n"


def number(x):
    return list(x.to_bytes(4, "big"))


def frame_text(next_vertex, next_hyperedge, vertices, hyperedges):
    counts = list(len(vertices).to_bytes(2, "big")) + list(len(hyperedges).to_bytes(2, "big"))
    lines = [sealed([0x48, 0x47, 0x31] + number(next_vertex) + number(next_hyperedge) + counts)]
    lines += [sealed([1] + number(a) + number(w)) for a, w in vertices]
    lines += [sealed([2] + number(a) + number(w) + [len(ms)] + sum(map(number, ms), [])) for a, w, ms in hyperedges]
    return b"".join(lines)


def opened(line):
    """The bytes of a frame's line without its last, or None."""
    digits = line[:-1]
    if not line.endswith(b"\n") or len(digits) % 2 or any(c not in DIGITS for c in digits):
        return None
    data = [int(digits[i : i + 2], 16) for i in range(0, len(digits), 2)]
    return data[:-1] if data and sum(data) % 256 == 0 else None


def value(data):
    return int.from_bytes(bytes(data), "big")


def head_of(line):
    """Both next numbers, n and m; or None where no written text begins so."""
    data = opened(line)
    if data is None or len(data) != 15 or data[:3] != [0x48, 0x47, 0x31]:
        return None
    next_vertex, next_hyperedge, n, m = value(data[3:7]), value(data[7:11]), value(data[11:13]), value(data[13:15])
    fits = n <= 256 and m <= 192 and n <= next_vertex and m <= next_hyperedge and (m == 0 or n > 0)
    return (next_vertex, next_hyperedge, n, m) if fits else None


def record_of(line, kind, last, following, next_number):
    """A record's bytes, where its number is above the last and leaves room for those that must follow; or None."""
    data = opened(line)
    if data is None or len(data) < 9 or data[0] != kind:
        return None
    a = value(data[1:5])
    return data if last < a and a + following < next_number else None


def members_of(data):
    count = data[9] if len(data) > 9 else 0
    if not 1 <= count <= 32 or len(data) != 10 + 4 * count:
        return None
    return [value(data[10 + 4 * q : 14 + 4 * q]) for q in range(count)]


def split_lines(text):
    """The lines, each with its line feed; what stands behind the last line feed is a line without one."""
    parts = text.split(b"\n")
    return [p + b"\n" for p in parts[:-1]] + ([parts[-1]] if parts[-1] else [])


def faulty_line(text):
    """The faulty line's number, or 0 where the text is accepted."""
    lines = split_lines(text)
    head = head_of(lines[0]) if lines else None
    if head is None:
        return 1
    next_vertex, next_hyperedge, n, m = head
    last, live = -1, set()
    for i in range(n):
        data = record_of(lines[1 + i], 1, last, n - 1 - i, next_vertex) if 1 + i < len(lines) else None
        if data is None or len(data) != 9:
            return 2 + i
        last = value(data[1:5])
        live.add(last)
    last = -1
    for j in range(m):
        k = 1 + n + j
        data = record_of(lines[k], 2, last, m - 1 - j, next_hyperedge) if k < len(lines) else None
        members = members_of(data) if data else None
        if members is None or not live.issuperset(members):
            return k + 1
        last = value(data[1:5])
    return 0 if len(lines) == 1 + n + m else 2 + n + m


def smallest_sort(text):
    """The smallest order in which every step goes forward, or None where steps form a closed walk."""
    lines = split_lines(text)
    n = head_of(lines[0])[2]
    left = {value(opened(line)[1:5]) for line in lines[1 : 1 + n]}
    lists = [members_of(opened(line)) for line in lines[1 + n :]]
    steps = {(a, b) for ms in lists for a, b in zip(ms, ms[1:])}
    order = []
    while left:
        free = left - {b for a, b in steps if a in left}
        if not free:
            return None
        order.append(min(free))
        left.remove(min(free))
    return order


def sheet(text):
    line = faulty_line(text)
    if line:
        return f"refused 12\nline {line} is faulty\n"
    order = smallest_sort(text)
    return "refused 9\n" if order is None else "".join(f"{v}\n" for v in order)


def full_text():
    """256 vertices, 192 lists of 32 members that all ascend by one order, which is not that of the numbers."""
    hyperedges = []
    for j in range(192):
        chosen = sorted({(j * 37 + k * k * 11 + k * 5) % 256 for k in range(64)}, key=lambda v: (v * 101 + 17) % 256)
        hyperedges.append((j, j * 31 % 977, [chosen[k * len(chosen) // 32] for k in range(32)]))
    return frame_text(256, 192, [(i, i * 7919 % 1000) for i in range(256)], hyperedges)


def damages(text):
    """Every change of a byte, then every byte taken out, then every byte put in."""
    for i in range(len(text)):
        for b in range(256):
            yield text[:i] + bytes([b]) + text[i + 1 :]
    for i in range(len(text)):
        yield text[:i] + text[i + 1 :]
    for i in range(len(text) + 1):
        for b in range(256):
            yield text[:i] + bytes([b]) + text[i:]


def keep(name, data):
    with open(os.path.join(CRATES, name), "wb") as file:
        file.write(data)


def main():
    example = frame_text(2, 1, [(0, 7), (1, 9)], [(0, 5, [0, 1])])
    closed = frame_text(3, 2, [(0, 7), (1, 9), (2, 4)], [(0, 5, [0, 1, 2]), (1, 1, [2, 0])])
    full = full_text()
    texts = {
        "example": example,
        "closed_walk": closed,
        "damaged": example.replace(b"09F5", b"09F4"),
        "empty": b"",
        "full": full,
        "longer_than_any": full + full[:10000],
    }
    for name, text in texts.items():
        keep(f"sorted_texts/data/{name}", text)
    keep("sorted_texts/stdout", "".join(f"{name}:\n{sheet(text)}" for name, text in texts.items()).encode())
    keep("damaged_texts/data/text", example)
    keep("damaged_texts/data/lines", bytes(map(faulty_line, damages(example))))


if __name__ == "__main__":
    main()
