#!/usr/bin/env python3
"""stack_probes.py PROGRAM ..: no function of these programs makes its stack frame after other code, and the large frames of one are
two megabytes at most, all together (W5: what a judging may need of the stack; no function with a large frame calls itself).

The compiler's back end (LLVM 22) reserves a large frame by a loop that overwrites register r11, and where a function can answer
before it needs its frame, it may put that loop after code that keeps a value in r11: the value is lost (docs/DECISIONS.md, 37).
A loop at a function's begin, with only saved registers before it, is safe. The table of symbols tells where each function begins.
"""
import re, struct, sys

# sub $3072,%rsp (today's Rattle) or $4096; movq $0,(%rsp); cmp %r11,%rsp; jne back
LOOP = re.compile(rb"\x48\x81\xec\x00[\x0c\x10]\x00\x00\x48\xc7\x04\x24\x00\x00\x00\x00\x4c\x39\xdc\x75", re.S)
# registers pushed, then mov %rsp,%r11; sub $SIZE,%r11
BEGIN = re.compile(rb"(?:[\x50-\x57]|\x41[\x50-\x57])*\x49\x89\xe3\x49\x81\xeb....", re.S)


MOST = 2_000_000


def frames(code):
    """For each loop that reserves a frame: whether it stands after other code, and how many bytes it reserves, which stand before it."""
    return [(not BEGIN.fullmatch(code, 0, loop.start()), int.from_bytes(code[loop.start() - 4:loop.start()], "little"))
            for loop in LOOP.finditer(code)]


def functions(data):
    """(name, bytes) of every function, of an ELF program for x86-64."""
    if data[:6] != b"\x7fELF\x02\x01" or data[0x12:0x14] != b"\x3e\x00":
        sys.exit("stack_probes: not an ELF program for x86-64")
    table, = struct.unpack_from("<Q", data, 0x28)
    size, count, _ = struct.unpack_from("<HHH", data, 0x3A)
    heads = [struct.unpack_from("<IIQQQQIIQQ", data, table + i * size) for i in range(count)]
    for _, kind, _, _, offset, length, link, *_ in heads:
        if kind != 2:
            continue
        for at in range(offset, offset + length, 24):
            name, info, _, section, value, bytes_long = struct.unpack_from("<IBBHQQ", data, at)
            if info & 15 == 2 and 0 < section < count:
                start = heads[section][4] + value - heads[section][3]
                strings = heads[link][4] + name
                yield data[strings:data.index(b"\0", strings)].decode(), data[start:start + bytes_long]


# The two kinds, as they were seen: a frame made first, and one made after `mov 8(%rsi),%r11`.
FRAME = bytes.fromhex("55 41 57 53 49 89 e3 49 81 eb 00 b0 00 00 48 81 ec 00 0c 00 00 48 c7 04 24 00 00 00 00 4c 39 dc 75 ec")
if frames(FRAME) != [(False, 0xB000)] or frames(bytes.fromhex("4c 8b 5e 08") + FRAME) != [(True, 0xB000)]:
    sys.exit("stack_probes: it can't tell the two kinds of frames apart")

found = late = most = 0
for path in sys.argv[1:]:
    whole = 0
    with open(path, "rb") as file:
        for name, code in functions(file.read()):
            for is_late, size in frames(code):
                found += 1
                late += is_late
                whole += size
                if is_late:
                    print(f"{path}: {name} makes its frame after other code")
    if whole > MOST:
        print(f"{path}: its large frames are {whole} bytes together")
    most = max(most, whole)
print(f"{len(sys.argv) - 1} programs, {found} large frames, {late} made after other code, {most} bytes in one program at most")
sys.exit(1 if late or most > MOST or not found else 0)
