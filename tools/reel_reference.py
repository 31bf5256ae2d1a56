#!/usr/bin/env python3
"""An independent implementation of docs/REEL.md: reads lines from standard input and prints what `reel` has to print."""

import re
import sys

sys.dont_write_bytecode = True
from reference import STEPS, Schedule, stream

MOST = 32768
KINDS = {'S': 'SOLE', 'L': 'LOSE'}


class Refused(Exception):
    def __init__(self, number, place):
        super().__init__(number, place)
        self.text = f' X {number} {place}'


def words(numbers):
    return ''.join(f' {x}' for x in numbers)


# Every call works out the whole stream of the blocks so far, and writes the part of it that is new.
class Recording:
    def __init__(self, S):
        self.S, self.blocks, self.written = S, [], 0

    def offer(self, piece):
        S = self.S
        room = S.N - len(self.blocks)
        if len(piece) > room:
            raise Refused(11, room)
        for i, x in enumerate(piece):
            if x >= S.B:
                raise Refused(10, i)
        self.blocks += piece
        pairs = max(len(self.blocks) - S.lead, 0) // 2
        known = 2 * pairs if S.lead or not pairs else 2 * pairs - 1
        new = stream(S, self.blocks)[self.written:known] if known > self.written else []
        self.written = known
        return new

    def close(self):
        return stream(self.S, self.blocks)[self.written:]


# Holds the blocks of the stream so far, and works out each group from them anew.
class Reader:
    def __init__(self, S):
        self.S, self.blocks = S, []

    def group(self, blocks, j):
        S = self.S
        if S.lead == 0 and j == 0:
            return blocks[0], 0
        at = 2 * j + S.lead - 1
        return divmod(blocks[at] + S.B * blocks[at + 1], S.Y(j))

    def symbols(self, blocks, j):
        S, place = self.S, len(self.blocks)
        r, y = self.group(blocks, j)
        if r >= (1 if j == S.K else S.C(j)):
            raise Refused(21, place)
        if j == 0:
            return [y] if S.lead else []
        before, _ = self.group(blocks, j - 1)
        z = y * S.C(j - 1) + before
        if z >= S.A * S.A:
            raise Refused(22, place)
        t, s = divmod(z, S.A)
        if s == S.B and t != S.B:
            raise Refused(23, place)
        return [s, t]

    def take(self, x):
        S, place = self.S, len(self.blocks)
        if x >= S.B:
            raise Refused(20, place)
        blocks = self.blocks + [x]
        if (len(blocks) + S.lead) % 2 == 0:
            self.blocks = blocks
            return ['-']
        j = (len(blocks) - 1 - S.lead) // 2
        found = self.symbols(blocks, j)
        marked = S.B in found
        if marked and self.group(blocks, j)[0] != 0:
            raise Refused(24, place)
        if not marked and j == S.K:
            raise Refused(25, place)
        self.blocks = [] if marked else blocks
        return ([s for s in found if s != S.B] + ['/'] * marked) or ['-']

    def stop(self):
        if self.blocks:
            raise Refused(26, len(self.blocks))


class Reel:
    def __init__(self):
        self.recording = self.reader = None

    def make(self, letter, width):
        if width not in STEPS[KINDS[letter]]:
            raise Refused(1, 0)
        S = Schedule(KINDS[letter], width)
        self.recording, self.reader = Recording(S), Reader(S)
        return f' {width} {S.N}'

    def take(self, numbers):
        text = ''
        for x in numbers:
            try:
                text += words(self.reader.take(x))
            except Refused as refused:
                return text + refused.text
        return text

    def act(self, letter, numbers):
        if letter in KINDS and len(numbers) == 1:
            return self.make(letter, numbers[0])
        if self.recording is None:
            return None
        if letter == 'O':
            return words(self.recording.offer(numbers))
        if letter == 'T':
            return self.take(numbers)
        if letter == 'C' and not numbers:
            text = words(self.recording.close())
            self.recording = Recording(self.recording.S)
            return text
        if letter == 'E' and not numbers:
            self.reader.stop()
            self.reader = Reader(self.reader.S)
            return ''
        return None

    def line(self, text):
        if not re.fullmatch(rb'[A-Z](?: [0-9]{1,9})*', text):
            return '?'
        letter, *numbers = text.decode('ascii').split(' ')
        try:
            says = self.act(letter, [int(x) for x in numbers])
        except Refused as refused:
            says = refused.text
        return '?' if says is None else letter + says


def run(data):
    reel = Reel()
    *lines, last = data[:MOST].split(b'\n')
    out = [reel.line(text) for text in lines]
    if last:
        out.append('?' if len(data) > MOST else reel.line(last))
    return ''.join(text + '\n' for text in out).encode('ascii')


def main():
    data = sys.stdin.buffer.read(MOST + 1)
    sys.stdout.buffer.write(run(data))
    if len(data) > MOST:
        print(f'reel: only the first {MOST} bytes count', file=sys.stderr)


if __name__ == '__main__':
    main()
