#!/usr/bin/env python3
"""Writes what program `cases` reads: passes, one behind the other, each ended by a refused block; a block, of which it
turns each bit; and the beginning of the shipped pass with its text, which it reads and writes in pieces.

  tools/case_blocks.py > crates/cases/stdin
  tools/case_blocks.py --split DIR     each pass in a file of its own, for the oracle's `ticks`
  tools/case_blocks.py --block > crates/cases/data/block
  tools/case_blocks.py --answers       what is to be printed of that block's bits
  tools/case_blocks.py --pass > crates/cases/data/pass
  tools/case_blocks.py --text > crates/cases/data/text

crates/cases/stdout is what `ticks` prints for each pass, then these answers, a line of five dots for each of ten runs,
and the two lines of the tick limit.
The passes: the worked block, each refusal alone, every two at once in the order of trial, every spare word and
flag, and the mistakes that lie close. The answers are worked out here from docs/RULES.md, 'The order of trial',
apart from the port and from the oracle. The pass is cut within its block 130, which is refused with 5; its text is that
of crates/drive/stdout, and its counts are those of the letters.
"""
import os, struct, sys

SHIPPED = os.path.join(os.path.dirname(__file__), '..', 'crates', 'drive')
CUT = 130

FLOATS = {'sighting': 4, 'wheels': 7, 'gyro': 11, 'predicted': 12, 'estimate': 18, 'command': 24, 'fresh': 37, 'next': 46, 'cosine': 55, 'sine': 56,
          'inertia': 57, 'twist_to_wheel': 66, 'accel_to_wheel': 78, 'wheel_to_twist': 90, 'force': 102}
SEEN, HALT, STOP, ESTIMATOR, PLANNER = 1, 2, 4, 8, 16
NAN, INF, MINUS_ZERO = 0x7fc00001, 0x7f800000, 0x80000000


def bits(x):
    return x if isinstance(x, int) else struct.unpack('<I', struct.pack('<f', x))[0]


def block(number, k=4, flags=0, mode=0, words=(), check=0, **floats):
    """A block; `words` are (place, word), `check` is added to the right check."""
    w = [0] * 128
    w[0], w[1], w[2], w[3], w[105] = 1, number, flags, mode, k
    for name, values in floats.items():
        for j, x in enumerate(values if isinstance(values, (list, tuple)) else [values]):
            w[FLOATS[name] + j] = bits(x)
    for place, word in words:
        w[place] = word
    w[127] = (1 + sum(w[:127]) + check) % 2**32
    return struct.pack('<128I', *w)


BAD = {6: dict(check=1), 7: dict(words=[(0, 2)]), 8: dict(flags=32), 1: dict(k=0), 4: dict(mode=4), 9: dict(k=5), 10: dict(number=7)}
ORDER = [6, 7, 8, 1, 4, 9, 10]
END = dict(check=1)


def faulty(number, *refusals):
    """A block that each of these refusals could turn away."""
    what, words = dict(number=number), []
    for r in refusals:
        b = dict(BAD[r])
        words += b.pop('words', [])
        what.update(b)
    return block(words=words, **what)


def line_matrix():
    return [0.5, 0.0, 0.1, 0.0, 0.5, 0.1, -0.5, 0.0, 0.1, 0.0, -0.5, 0.1]


def seeded(x, k=4):
    return [block(i, k=k, flags=SEEN, sighting=[x, 0.5, 0.25]) for i in range(20)]


def end(blocks, k=4):
    return b''.join(blocks) + block(len(blocks), k=k, **END)


def refusals():
    yield end([block(0)])  # docs/RULES.md, 'Worked values'
    yield block(0, **END)  # nothing accepted
    for r in ORDER:
        for before in (0, 2):
            if before or r != 9:
                yield b''.join(block(i) for i in range(before)) + faulty(before, r)
    for i, r in enumerate(ORDER):
        for s in ORDER[i + 1:]:
            if (r, s) not in ((1, 9),):
                yield block(0) + faulty(1, r, s)
    for place in range(106, 127):
        yield block(0) + block(1, words=[(place, 1 << (place % 32))])
    for bit in range(5, 32):
        yield block(0) + block(1, flags=1 << bit)
    for k in (0, 65, 2**32 - 1):
        yield block(0, k=k)
    for mode in (4, 255, 2**32 - 1):
        yield block(0, mode=mode)


def behaviours():
    yield end(seeded(1.0) + [block(20, flags=SEEN, sighting=[1.0, 0.5, 0.25], predicted=[1.0, 0.5])])
    yield end(seeded(1.1))  # a variance computed below zero: S
    far = dict(sighting=[9.0, 0.5, 0.0], predicted=[1.0, 0.5])
    yield end(seeded(1.0) + [block(20, flags=SEEN, **far), block(21, flags=SEEN, **far)])  # F, then R
    yield end(seeded(1.0) + [block(20), block(21, flags=SEEN, **far)])  # quiet first: R
    yield end(seeded(1.0) + [block(20, flags=SEEN, sighting=[NAN, 0.5, 0.0], predicted=[1.0, 0.5])])
    for k, m in ((4, 512), (3, 682), (64, 32)):  # active, and one tick later not
        yield end(seeded(1.0, k) + [block(20 + i, k=k) for i in range(m + 2)], k)
    plan = dict(mode=2, command=[2.0, 1.0, 0.5, 1.0, 2.0, 3.0, 4.0], cosine=1.0, twist_to_wheel=line_matrix(), accel_to_wheel=line_matrix())
    here = [1.0, 0.5, 0.25, 0.1, 0.2, 0.3]
    go = dict(plan, estimate=here, fresh=here + [0.0] * 3, next=here + [0.0] * 3)
    yield end(seeded(1.0) + [block(20 + i, **go) for i in range(4)])
    yield end(seeded(1.0) + [block(20, **go), block(21, **dict(go, command=[2.0, 1.0, 0.5, 1.0, 2.0, 3.0, NAN])), block(22, **dict(go, command=[2.0, 1.0, 0.5, 1.0, 2.0, 3.0, NAN]), flags=PLANNER), block(23, **go)])
    yield end(seeded(1.0) + [block(20, **go, flags=ESTIMATOR), block(21, **go, flags=PLANNER), block(22, **go), block(23, **go, flags=PLANNER)])
    minus = dict(go, fresh=[MINUS_ZERO] * 9, next=[MINUS_ZERO] * 9, estimate=[0.0] * 6)
    yield end(seeded(1.0) + [block(20, **minus)])  # -0.0 becomes 0.0 in a setpoint
    yield end(seeded(1.0) + [block(20, **dict(go, fresh=[1.0, 0.5, 0.25, INF, 0.2, NAN] + [0.0] * 3))])
    yield end(seeded(1.0) + [block(20, flags=STOP, **dict(go, fresh=[1.0, 0.5, 0.25, 1.25, 0.0, 0.0] + [0.0] * 3)), block(21, flags=STOP, **dict(go, command=[9.0], fresh=[1.0, 0.5, 0.25, 3.0, 4.0, 0.0] + [0.0] * 3))])
    lost = dict(go, estimate=[2.5, 0.5, 0.25, 0.1, 0.2, 0.3])  # more than 1.0 off: recovering
    yield end(seeded(1.0) + [block(20, **lost), block(21, **lost, wheels=[50.0, 0.0, 0.0, 0.0]), block(22, **lost, wheels=[49.9, -49.9, 0.0, 0.0]), block(23, **go)])
    for w in (NAN, INF, 50.0, -50.0):
        yield end(seeded(1.0) + [block(20, **lost), block(21, **lost, wheels=[0.0, 0.0, 0.0, w]), block(22, **lost)])
    yield end([block(0, mode=1, twist_to_wheel=[-1.0] * 12), block(1, mode=1, twist_to_wheel=[INF] * 12), block(2, flags=HALT, mode=2), block(3, mode=3)])


def whole_block():
    """The block whose bits are turned: an empty pass accepts it, and no field is zero but the spare words."""
    floats = {name: [0.1 * (place + j) for j in range(n)]
              for (name, place), n in zip(FLOATS.items(), (3, 4, 1, 6, 6, 13, 9, 9, 1, 1, 9, 12, 12, 12, 3))}
    return block(0, flags=SEEN | STOP, mode=3, **dict(floats, gyro=NAN))


def refusal(b):
    """The order of trial for a first block: 5, 6, 7, 8, 1, 4, 10 in this order, or 0."""
    if len(b) != 512:
        return 5
    w = struct.unpack('<128I', b)
    tried = ((6, w[127] != (1 + sum(w[:127])) % 2**32), (7, w[0] != 1), (8, w[2] >= 32 or any(w[106:127])),
             (1, not 1 <= w[105] <= 64), (4, w[3] > 3), (10, w[1] != 0))
    return next((number for number, refused in tried if refused), 0)


def turned(word, bit, fresh):
    w = list(struct.unpack('<128I', whole_block()))
    w[word] ^= 1 << bit
    if fresh:
        w[127] = (1 + sum(w[:127])) % 2**32
    return struct.pack('<128I', *w)


def lengths():
    whole = whole_block() + bytes(512)
    return [whole[:n] for n in range(1025)]


def answers():
    """A line for each word, a glyph for each bit, lowest first; first without, then with a new check, which
    the check's own bits can't have. Last a line with a glyph for each length."""
    lines = [[turned(word, bit, fresh) for bit in range(32)] for fresh, words in ((False, 128), (True, 127)) for word in range(words)]
    for line in lines + [lengths()]:
        print(''.join('.123456789abc'[refusal(b)] for b in line))


def begun():
    with open(os.path.join(SHIPPED, 'stdin'), 'rb') as f:
        return f.read(512 * CUT + 100)


def begun_text():
    with open(os.path.join(SHIPPED, 'stdout')) as f:
        lines = [next(f) for _ in range(CUT)]
    letters = [line.split()[1] for line in lines]
    return ''.join(lines) + '%d ! 5\n' % CUT + ' '.join(str(n) for n in [CUT] + [letters.count(a) for a in 'QGCSTJFR']) + '\n'


def main():
    passes = list(refusals()) + list(behaviours())
    passes.append(block(0) + block(1)[:300])  # a short last one
    if sys.argv[1:] == ['--answers']:
        answers()
    elif sys.argv[1:] == ['--block']:
        sys.stdout.buffer.write(whole_block())
    elif sys.argv[1:] == ['--pass']:
        sys.stdout.buffer.write(begun())
    elif sys.argv[1:] == ['--text']:
        sys.stdout.write(begun_text())
    elif len(sys.argv) > 2:
        for i, p in enumerate(passes):
            with open(os.path.join(sys.argv[2], '%04d' % i), 'wb') as f:
                f.write(p)
    else:
        sys.stdout.buffer.write(b''.join(passes))


main()
