"""Schedules and streams by docs/FORMAT.md, apart from the Rattle code."""

STEPS = {'SOLE': {5: 2, 8: 6, 16: 91, 24: 1448}, 'LOSE': {5: 2, 8: 5, 16: 90, 24: 1448}}


class Schedule:
    def __init__(self, kind, width):
        self.kind, self.width = kind, width
        self.B, self.A = 2 ** width, 2 ** width + 1
        self.lead = 0 if kind == 'SOLE' else 1
        self.K = STEPS[kind][width]
        self.N = self.lead + 2 * self.K - 1

    def C(self, j):
        return self.B - 4 * j - self.lead if j < self.K else 0

    def Y(self, j):
        if j > self.K:
            return 0
        return 1 if self.lead == 0 and j == 0 else self.B + 4 * j + self.lead


def stream(S, blocks):
    symbols = list(blocks) + [S.B]
    if (len(symbols) - S.lead) % 2 == 1:
        symbols.append(S.B)
    y = symbols[0] if S.lead else 0
    rest = symbols[S.lead:]
    out = []

    def group(j, w):
        if S.lead == 0 and j == 0:
            out.append(w)
        else:
            out.extend([w % S.B, w // S.B])

    j = 0
    for s, t in zip(rest[0::2], rest[1::2]):
        z = t * S.A + s
        r, spill = z % S.C(j), z // S.C(j)
        group(j, r * S.Y(j) + y)
        y, j = spill, j + 1
    group(j, y)
    return out
