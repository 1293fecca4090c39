#!/usr/bin/env python3
"""Writes the example series of this folder as record files (16 bytes a record, rising; see ../README.md), two tables of cutoffs and a season.

    python3 make.py

Plain Python, no package. It is not part of the gate: the files are stored.
"""
import struct


def record(kind, row=0, column=0, value=0.0):
    return struct.pack("<BBBBId", kind, row, column, 0, 0, value)


def block(row, k, m):
    """A block of k effects and m groups: the first of its value bytes holds the number of its parameters, and the other seven are zero."""
    return struct.pack("<BBBBIB7x", 3, row, k, 0, m, k * (k + 1) // 2)


def transposed(a):
    return [list(r) for r in zip(*a)]


def times(a, b):
    return [[sum(x * y for x, y in zip(r, c)) for c in zip(*b)] for r in a]


def inverse(a):
    n = len(a)
    m = [list(map(float, r)) + [float(i == j) for j in range(n)] for i, r in enumerate(a)]
    for c in range(n):
        p = max(range(c, n), key=lambda r: abs(m[r][c]))
        m[c], m[p] = m[p], m[c]
        m[c] = [x / m[c][c] for x in m[c]]
        for r in range(n):
            if r != c:
                m[r] = [x - m[r][c] * y for x, y in zip(m[r], m[c])]
    return [r[n:] for r in m]


def series(x, z, blocks, theta, sigma2, beta, contrast=(), hypothesis=(), weights=()):
    """X and Z by rows; blocks as (effects k, groups m); the covariance of the coefficients in residual units is (XᵀΣ⁻¹X)⁻¹ of the specimens that are not torn."""
    left = [i for i in range(len(x)) if not weights or weights[i] != 0]
    sigma = [[float(i == j) / (weights[i] if weights else 1.0) for j in left] for i in left]
    column = 0
    for (k, m), t in zip(blocks, theta):
        assert k == 1, "this little script knows blocks of one effect"
        for g in range(m):
            for r, i in zip(sigma, left):
                for c, j in enumerate(left):
                    r[c] += t * t * z[i][column + g] * z[j][column + g]
        column += m
    kept = [x[i] for i in left]
    phi = inverse(times(times(transposed(kept), inverse(sigma)), kept))
    out = [record(1, i, j, v) for i, r in enumerate(x) for j, v in enumerate(r)]
    out += [record(2, i, j, v) for i, r in enumerate(z) for j, v in enumerate(r) if v != 0]
    out += [block(b, k, m) for b, (k, m) in enumerate(blocks)]
    out += [record(4, i, 0, t) for i, t in enumerate(theta)]
    out += [record(5, i, 0, w) for i, w in enumerate(weights)]
    out += [record(6, i, j, v) for i, r in enumerate(phi) for j, v in enumerate(r)]
    out += [record(7, value=sigma2)]
    out += [record(8, i, 0, b) for i, b in enumerate(beta)]
    out += [record(9, i, j, v) for i, r in enumerate(contrast) for j, v in enumerate(r)]
    out += [record(10, i, 0, h) for i, h in enumerate(hypothesis)]
    return b"".join(out)


# Document 01's example: two pulls, one coefficient, no random effect.
PULL = b"".join([
    record(1, 0, 0, 1.0), record(1, 1, 0, 1.0), record(6, value=0.5), record(7, value=8.0), record(8, value=6.0), record(9, value=1.0),
])


def batches(weights=()):
    """Two recipes on twelve specimens from four batches, three of each; the batch is the random effect. Is recipe B stronger by more than 2?"""
    return series(
        x=[[1.0, float(i % 2)] for i in range(12)],
        z=[[float(i // 3 == g) for g in range(4)] for i in range(12)],
        blocks=[(1, 4)],
        theta=[0.75],
        sigma2=4.0,
        beta=[41.5, 5.25],
        contrast=[[0.0, 1.0]],
        hypothesis=[0.0, 2.0],
        weights=weights,
    )


BATCHES = batches()

# The same after one film tore outside the glue, the fifth: its weight is 0, and it counts as absent. The other pulls weigh 1, as pulls without a weight do.
TORN = batches(weights=[float(i != 4) for i in range(12)])

# The pulls of batches.rec with a second grouping, the operator, and both coefficients tested together; the second row says the first again in other units.
OPERATORS = series(
    x=[[1.0, float(i % 2)] for i in range(12)],
    z=[[float(i // 3 == g) for g in range(4)] + [float(i % 5 % 3 == g) for g in range(3)] for i in range(12)],
    blocks=[(1, 4), (1, 3)],
    theta=[0.75, 0.5],
    sigma2=4.0,
    beta=[41.5, 5.25],
    contrast=[[1.0, 0.0], [64.0, 0.0], [0.0, 1.0]],
    hypothesis=[40.0, 2.0],
)


# Four recipes, two batches of each, three specimens of a batch: are the recipes alike? Three rows whose exact df is 8 - 4 = 4, so df is none (../docs/CHEMIST.md).
RECIPES = series(
    x=[[1.0] + [float(i // 6 == r) for r in (1, 2, 3)] for i in range(24)],
    z=[[float(i // 3 == g) for g in range(8)] for i in range(24)],
    blocks=[(1, 8)],
    theta=[0.75],
    sigma2=4.0,
    beta=[41.5, 3.0, 4.0, 5.0],
    contrast=[[0.0, 1.0, 0.0, 0.0], [0.0, 0.0, 1.0, 0.0], [0.0, 0.0, 0.0, 1.0]],
)


def fitted(name):
    """A fit of ../vectors/r, by its name there; pbkrtest's F and df stand beside it (../docs/CHEMIST.md reads them)."""
    with open("../vectors/r/kenward-roger.txt", encoding="utf-8") as f:
        return next(bytes.fromhex(words[2]) for words in map(str.split, f) if words[0] == name)


# Strength of a paste, three casks of each of five batches; batch and sample are random effects. Is the second cask 1 above the first, and the third equal to it?
PASTES = fitted("pastes-cask-nested")

# Six groups with a random intercept and slope, time in days; intercept and slope tested together, whose exact df is 4.
TWO_ROWS = fitted("sleepstudy-rows-df-4")

# The same groups with the time in decades, so that the df of the slope is far too large.
DECADES = fitted("units-seconds-decades")


# The small numbers that the panel has built in, by their rows in a table (../docs/CHEMIST.md says what each is).
BUILT_IN = [1e-15, 1e-10, 1e-10, 1e-12, 1e-2, 1e-10, 1e-8, 2.0 ** -100, 3000.0]


def table(values):
    """A table of cutoffs: nine records of kind 20 with the rows 0 to 8."""
    return b"".join(record(20, row, 0, value) for row, value in enumerate(values))


def changed(row, value):
    """The built-in values, that of one row another."""
    return BUILT_IN[:row] + [value] + BUILT_IN[row + 1:]


# IE of decades.rec has the smallest eigenvalue 3.4e-12: with row 5 below it nothing joins its diagonal, and the df of the slope is pbkrtest's 5.
TABLES = (("built-in", BUILT_IN), ("decades", changed(5, 1e-13)))


def rises(data):
    """Each record stands before the next: by kind, then row and column. A series of the Kenward-Roger call has no kind 31, which goes by its count before them."""
    keys = [data[i:i + 3] for i in range(0, len(data), 16)]
    return all(a < b for a, b in zip(keys, keys[1:]))


# What closes a series of a season: kind 21, and fifteen zeros.
CLOSING = record(21)


def draws(start):
    """Numbers from -1 to 1 in hundredths, the same on every machine."""
    while True:
        start = (1664525 * start + 1013904223) % 2 ** 32
        yield (start // 2 ** 16 % 201 - 100) / 100


def drift(lot):
    """What a lot of glue is off by in the mean, in newtons: nothing up to lot 12, then more from lot to lot, until the mixer is mended after lot 25."""
    return 0.0 if lot <= 12 else 0.4 * (lot - 12) if lot <= 25 else 0.25


def lot_series(lot, draw):
    """A lot of glue beside the reference lot, twelve pulls on films of three batches: is it as strong? One in nine has a film that tore."""
    weights = [float(i != lot % 12) for i in range(12)] if lot % 9 == 0 else ()
    sigma2 = 4.0 + next(draw)
    off = drift(lot) + 1.5 * next(draw)
    return series(
        x=[[1.0, float(i % 2)] for i in range(12)],
        z=[[float(i // 4 == g) for g in range(3)] for i in range(12)],
        blocks=[(1, 3)],
        theta=[0.75],
        sigma2=sigma2,
        beta=[41.5 + next(draw), off],
        contrast=() if lot == 10 else [[0.0, 1.0]],
        weights=weights,
    )


def records(data):
    return [data[i:i + 16] for i in range(0, len(data), 16)]


def spoiled(lot, data):
    """Four lots that are refused: records out of order (12), every film torn (3), no sigma2 (2), a number that is none (4)."""
    each = records(data)
    if lot == 7:
        each[4], each[5] = each[5], each[4]
    if lot == 21:
        before = [r for r in each if r[0] < 5]
        each = before + [record(5, i, 0, 0.0) for i in range(12)] + [r for r in each if r[0] > 5]
    if lot == 34:
        each = [r for r in each if r[0] != 7]
    if lot == 35:
        each = [record(8, 1, 0, float("nan")) if r[:2] == b"\x08\x01" else r for r in each]
    return b"".join(each)


def season():
    """Forty-eight lots, and the first records of the next, which is being pulled."""
    draw = draws(7)
    lots = [spoiled(lot, lot_series(lot, draw)) for lot in range(1, 49)]
    return b"".join(lot + CLOSING for lot in lots) + lot_series(49, draw)[:10 * 16]


for name, data in (
    ("pull", PULL),
    ("batches", BATCHES),
    ("torn", TORN),
    ("operators", OPERATORS),
    ("recipes", RECIPES),
    ("pastes", PASTES),
    ("two-rows", TWO_ROWS),
    ("decades", DECADES),
):
    assert rises(data), name
    with open(f"{name}.rec", "wb") as f:
        f.write(data)

for name, values in TABLES:
    with open(f"{name}.table", "wb") as f:
        f.write(table(values))

with open("season.rec", "wb") as f:
    f.write(season())
