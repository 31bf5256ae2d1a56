#!/usr/bin/env python3
"""Runs random scripts through crates/reel/out/reel and tools/reel_reference.py, and prints how many came out the same.
Arguments: how many scripts (600), and the seed of the first (1)."""

import os
import random
import subprocess
import sys

sys.dont_write_bytecode = True
from reference import STEPS, Schedule, stream

ROOT = os.path.dirname(os.path.dirname(os.path.abspath(__file__)))
PROGRAMS = [[os.path.join(ROOT, 'crates/reel/out/reel')], [sys.executable, os.path.join(ROOT, 'tools/reel_reference.py')]]
WIDTHS = (5, 8, 16, 24)
ODD = [b'', b' ', b'?', b'5', b'O1', b'OO 1', b'T 12 x', b'O 1 ', b'O  1', b' O 1', b'C 1', b'E 1', b'S', b'S 5 5', b'L +5',
       b'T -1', b'T\t1', b'E\r', b'C\0', b'\0', b'O \xc3\xa9', b'\xff 1', b'T 1234567890', b'o 1', b'X 1', b'T 0000000001']


def line(letter, numbers=()):
    return ' '.join([letter, *map(str, numbers)]).encode()


# The stream of any symbols, lawful or not, with any closing carrier.
def groups(S, symbols, closing=0):
    y, out = (symbols[0] if S.lead else 0), []
    pairs = list(zip(symbols[S.lead::2], symbols[S.lead + 1::2]))
    for j, (s, t) in enumerate(pairs):
        y_next, r = divmod(t * S.A + s, S.C(j))
        w = r * S.Y(j) + y
        out += [w] if j + S.lead == 0 else [w % S.B, w // S.B]
        y = y_next
    w = closing * S.Y(len(pairs)) + y
    return out + [w % S.B, w // S.B]


def block(rng, S):
    return rng.choice([rng.randrange(S.B), rng.randrange(S.B), rng.randrange(8), S.B - 1, 0])


def blocks(rng, S, most):
    n = rng.choice([0, 1, rng.randint(0, 4), rng.randint(0, S.N), S.N - 1, S.N])
    return [block(rng, S) for _ in range(min(n, S.N, most))]


def pieces(rng, all_blocks):
    at = 0
    while at < len(all_blocks):
        n = rng.choice([0, 1, 1, 2, 3, 5, 7, rng.randint(1, len(all_blocks))])
        yield all_blocks[at:at + n]
        at += n


def damaged(rng, S, x):
    x, how = list(x), rng.randrange(7)
    at = rng.randrange(len(x))
    if how == 0:
        x[at] = block(rng, S)
    elif how == 1:
        x[at] = max(0, min(S.B - 1, x[at] + rng.choice([-1, 1])))
    elif how == 2:
        x[at:at] = [rng.choice([S.B, S.B + 1, 999999999])]
    elif how == 3:
        x = x[:at]
    elif how == 4:
        del x[at]
    elif how == 5:
        x.insert(at, block(rng, S))
    else:
        x[-1] = rng.choice([0, 1, 2, 3, S.B - 1])
    return x


def taken(rng, S, most):
    how = rng.randrange(8)
    if how < 2:
        return stream(S, blocks(rng, S, most))
    if how == 2:
        return stream(S, blocks(rng, S, most // 2)) + stream(S, blocks(rng, S, most // 2))
    if how < 5:
        return damaged(rng, S, stream(S, blocks(rng, S, most)))
    if how == 5:
        return [block(rng, S) for _ in range(rng.randint(0, 9))]
    if how == 6:
        symbols = [block(rng, S) for _ in range(S.lead + 2 * rng.choice([1, rng.randint(1, S.K), S.K]))]
        if rng.random() < .6:
            symbols[rng.randrange(len(symbols))] = S.B
        return groups(S, symbols, rng.choice([0, 0, 1, 2]))
    full = stream(S, [block(rng, S) for _ in range(S.N)])
    return full[:rng.randint(0, len(full))] if rng.random() < .5 else full


def script(rng):
    out, S = [], None
    most = rng.choice([8, 40, 200, 3000])
    size = rng.choice([500, 3000, 20000, 33500])
    if rng.random() < .1:
        out += [line('O'), line('T', [1]), line('C'), line('E'), b'S 7']
    while sum(map(len, out)) + len(out) < size and len(out) < 120:
        if S is None or rng.random() < .06:
            kind, width = rng.choice('SL'), rng.choice(WIDTHS)
            S = Schedule('SOLE' if kind == 'S' else 'LOSE', width)
            out.append(line(kind, [width]))
        what = rng.randrange(12)
        if what < 4:
            for piece in pieces(rng, blocks(rng, S, most)):
                out.append(line('O', piece))
                if rng.random() < .05:
                    out.append(rng.choice(ODD + [b'S 7', b'L 0']))
            if rng.random() < .7:
                out.append(b'C')
        elif what == 4:
            piece = [block(rng, S) for _ in range(rng.randint(1, 9))]
            piece[rng.randrange(len(piece))] = rng.choice([S.B, S.B + 1, 999999999])
            out.append(line('O', piece))
        elif what == 5:
            n = S.N + rng.randint(-1, 2)
            out.append(line('O', [rng.choice([0, 1, S.B]) if rng.random() < .01 else rng.randrange(10) for _ in range(n)]))
        elif what < 9:
            for piece in pieces(rng, taken(rng, S, most)):
                out.append(line('T', piece))
            if rng.random() < .4:
                out.append(b'E')
            if rng.random() < .4:
                S = None
        elif what == 9:
            out.append(rng.choice([b'C', b'E', b'O', b'T']))
        else:
            out.append(rng.choice(ODD) if rng.random() < .7 else bytes(rng.choice(b'SLOCTE 0159\r\0\xe9') for _ in range(rng.randint(0, 6))))
    data = b'\n'.join(out) + rng.choice([b'', b'\n'])
    if len(data) > 32768 and rng.random() < .7:
        data = data[:rng.choice([32767, 32768, 32769])]
        data = data[:-2] + rng.choice([data[-2:], b'\nC', b'C\n'])
    return data


# The longest recording at width 24, written and taken back, or a stream of as many groups without a mark.
def longest(rng):
    kind = rng.choice('SL')
    S = Schedule('SOLE' if kind == 'S' else 'LOSE', 24)
    recording = [rng.randrange(10) for _ in range(S.N)]
    last = rng.choice([stream(S, recording), groups(S, recording + [rng.randrange(10)])])
    out = [line(kind, [24])] + [line('O', piece) for piece in pieces(rng, recording)] + [b'C']
    return b'\n'.join(out + [line('T', last), b'E'])


def main():
    count, seed = (list(map(int, sys.argv[1:])) + [600, 1][len(sys.argv) - 1:])[:2]
    agreed, ends, over, numbers = 0, 0, 0, {}
    for i in range(seed, seed + count):
        rng = random.Random(i)
        data = longest(rng) if i % 50 == 0 else script(rng)
        over += len(data) > 32768
        found = [subprocess.run(p, input=data, capture_output=True) for p in PROGRAMS]
        a, b = [(x.returncode, x.stdout, x.stderr) for x in found]
        if a == b:
            agreed += 1
            ends += found[0].stdout.count(b'/')
            for text in found[0].stdout.split(b'\n'):
                if b' X ' in text:
                    number = int(text.split()[-2])
                    numbers[number] = numbers.get(number, 0) + 1
        else:
            print(f'script of seed {i} differs')
    refusals = ', '.join(f'{n}: {numbers[n]}' for n in sorted(numbers))
    print(f'{agreed} of {count} scripts agreed; {over} beyond the limit; {ends} ends; refusals {refusals}')
    sys.exit(agreed != count)


if __name__ == '__main__':
    main()
