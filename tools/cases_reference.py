#!/usr/bin/env python3
"""Works out what the program `cases` has to print: crates/cases/stdout."""

import sys

sys.dont_write_bytecode = True
from reel_reference import Reader, Recording, Refused, words
from reference import Schedule, stream

lines = []


def sample(S, n):
    return [(i * i * 7919 + i * 104729 + 12345) % S.B for i in range(n)]


def checksum(blocks):
    total = 0
    for i, x in enumerate(blocks):
        total = (total * 31 + x + i) % 1000003
    return total


def longest(kind, width):
    S = Schedule(kind, width)
    blocks = sample(S, S.N)
    out = stream(S, blocks)
    back = blocks + [S.B] + blocks[:2] + [S.B] + [S.B] + blocks + [S.B]
    lines.append(f'{kind} {width}: {S.N} blocks, {len(out)} written:{words(out[:3])} ..{words(out[-3:])}, checksum {checksum(out)}; '
                 f'joined and read back: {len(back)}, checksum {checksum(back)}')


def cuts(kind):
    S = Schedule(kind, 5)
    for mask in range(16):
        lines.append(f'{kind} 5 cut {mask}:{words(stream(S, sample(S, S.N)))}')


def takes(kind, blocks):
    reader, line = Reader(Schedule(kind, 5)), f'{kind} 5 taking{words(blocks)}:'
    for x in blocks:
        try:
            line += words(reader.take(x))
        except Refused as refused:
            line += refused.text
    try:
        reader.stop()
        line += ', stopped'
    except Refused as refused:
        line += ', stop' + refused.text
    lines.append(line)


def answer(name, call):
    try:
        lines.append(f'{name}: {len(call())}')
    except Refused as refused:
        lines.append(f'{name}:{refused.text}')


# The reference has no buffers: a length needed is the count of what would be written.
def offers():
    S = Schedule('SOLE', 5)
    recording = Recording(S)
    answer('offer 1 2 3 4', lambda: recording.offer([1, 2, 3, 4]))
    answer('offer 1 32 3', lambda: recording.offer([1, 32, 3]))
    lines.append(f'offer 1 2 into none: X 12 {len(Recording(S).offer([1, 2]))}')
    first = recording.offer([1, 31, 3])
    lines.append(f'offer 1 31 3: {len(first)}')
    answer('offer none', lambda: recording.offer([]))
    answer('offer 5', lambda: recording.offer([5]))
    lines.append(f'buffer{words(first)} 7 7')
    lines.append(f'close into 3: X 12 {len(recording.close())}')


def lookup(S, blocks, p):
    first = 0 if p <= S.lead else max(2 * ((p - 1 - S.lead) // 2) + S.lead - 1, 0)
    j = max(p - 1 - S.lead, 0) // 2
    end = 2 if p <= S.lead else 2 * (j + 2) + S.lead - 1
    if p == 0 or p > S.lead + 2 * S.K or len(blocks) < end:
        raise Refused(30, p)
    part = blocks[first:end]
    for i, x in enumerate(part):
        if x >= S.B:
            raise Refused(20, first + i)

    def group(j, bs, last):
        w = bs[0] if len(bs) == 1 else bs[0] + S.B * bs[1]
        r, y = divmod(w, S.Y(j))
        if r >= (1 if j == S.K else S.C(j)):
            raise Refused(21, last)
        return r, y

    if p <= S.lead:
        symbol = group(0, part, 1)[1]
    else:
        r, _ = group(j, part[:-2], end - 3)
        _, y = group(j + 1, part[-2:], end - 1)
        z = y * S.C(j) + r
        if z >= S.A * S.A:
            raise Refused(22, end - 1)
        t, s = divmod(z, S.A)
        if s == S.B and t != S.B:
            raise Refused(23, end - 1)
        symbol = (s, t)[(p - 1 - S.lead) % 2]
    if symbol == S.B:
        raise Refused(30, p)
    return symbol


def lookups(kind, width):
    S = Schedule(kind, width)
    out, found, total = stream(S, sample(S, S.N)), 0, 0
    for p in range(S.N + 5):
        try:
            number, value = 0, lookup(S, out, p)
            found += 1
        except Refused as refused:
            number, value = refused.args
        total = (total * 31 + number + value) % 1000003
    lines.append(f'{kind} {width}: {found} blocks found, checksum {total}')


def looks(kind, blocks):
    S, line = Schedule(kind, 5), f'{kind} 5 looking in{words(blocks)}:'
    for p in range(7):
        try:
            line += f' {lookup(S, blocks, p)}'
        except Refused as refused:
            line += refused.text
    lines.append(line)


def packed(width, data):
    size = width // 8
    filled = list(data)
    if len(filled) % size:
        filled.append(0x80)
        filled += [0] * (-len(filled) % size)
    return [sum(b << (8 * k) for k, b in enumerate(filled[i:i + size])) for i in range(0, len(filled), size)]


def pack(width, data, room):
    buffer = [7] * room
    if width not in (5, 8, 16, 24):
        answer = 'X 1 0'
    elif width == 5:
        answer = 'X 40 0'
    else:
        blocks = packed(width, data)
        if len(blocks) > room:
            answer = f'X 41 {len(blocks)}'
        else:
            buffer[:len(blocks)] = blocks
            answer = f'{len(blocks)} written'
    lines.append(f'pack {len(data)} bytes at {width} into {room}: {answer},{words(buffer)}')


def packs():
    data = [0x41, 0x80, 0xff, 0, 7, 0x80, 0x10]
    for width in (5, 8, 12, 16, 24):
        for count in range(8):
            pack(width, data[:count], 8)
    pack(8, data, 6)
    pack(16, data, 3)
    pack(24, data, 2)
    pack(24, data, 3)


def widths(kind, all_widths):
    for width in all_widths:
        if width in (5, 8, 16, 24):
            longest(kind, width)
            lookups(kind, width)
        else:
            lines.append(f'{kind}: X 1 0')


def main():
    widths('SOLE', (5, 7, 8, 16, 24))
    cuts('SOLE')
    for blocks in ([1, 2, 1, 32, 0], [0, 2, 1, 0, 2], [0, 16, 31, 1, 2], [0, 12, 30, 0, 0], [0, 1, 0, 2, 1], [0, 6, 2, 2, 1],
                   [0, 0, 0, 0, 0], [0, 0, 0, 8, 1], [12, 3, 26, 6, 1], [12, 32, 40, 99, 3], [12]):
        takes('SOLE', blocks)
    for blocks in ([12, 3, 26, 6, 1], [0, 0, 27, 6, 1], [12, 3, 26, 6, 32], [32, 3, 26, 6, 1], [12, 31, 31, 6, 1], [1, 2, 1, 6, 1],
                   [0, 1, 0, 6, 1], [0, 0, 27, 8, 1], [31, 3, 26, 31, 31], [0, 2, 1], [12, 3], []):
        looks('SOLE', blocks)
    offers()
    lines.append(f"text 25 into 8: {len('no mark')}")
    lines.append(f"text 26 into 8: X 12 {len('cut short')}")
    lines.append('text 13 into none: 0')
    widths('LOSE', (5, 8, 16, 24, 32))
    cuts('LOSE')
    for blocks in ([0, 1, 8, 3, 3, 1], [12, 7, 9, 10, 8, 1], [31, 31, 0, 1, 0, 1], [0, 2, 1, 1, 0, 0], [14, 9, 2, 1, 14, 9]):
        takes('LOSE', blocks)
    for blocks in ([12, 7, 9, 10, 8, 1], [12, 7, 9, 10, 8, 40], [33, 7, 9, 10, 8, 1], [31, 31, 9, 10, 8, 1], [0, 1, 31, 31, 0, 1],
                   [0, 1], [8, 3, 3, 1]):
        looks('LOSE', blocks)
    packs()
    print('\n'.join(lines))
    print(f'{len(lines)} cases')


if __name__ == '__main__':
    main()
