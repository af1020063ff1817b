#!/usr/bin/env python3
"""Writes crates/drive/stdin: 2,000 tick blocks of one plausible pass, with a fixed seed.

  tools/pass_blocks.py > crates/drive/stdin

The cart is parked and seeded, drives by a position and then by a line command, loses the cameras for
0.78 s and comes back off its predicted place, meets outliers, a failed planner and a failed estimator,
hits something, recovers by braking, seeds anew and goes on. Floats are rounded to 32 bits.
"""
import math, random, struct, sys

K = 16  # ticks of 16/4096 s
DT = K / 4096
TICKS = 2000
RADIUS, ARM = 0.03, 0.08  # a wheel's radius and its distance from the middle, in metres
ANGLES = [math.radians(a) for a in (60, 135, 225, 300)]
draw = random.Random(1)


def wheel_rows(heading):
    """Twist in global axes to the four wheels' speeds in rad/s."""
    return [[-math.sin(a + heading) / RADIUS, math.cos(a + heading) / RADIUS, ARM / RADIUS] for a in ANGLES]


def twist_rows(heading):
    """The wheels' speeds back to a twist, for wheels that lie evenly enough: a scaled transpose."""
    rows = wheel_rows(heading)
    scale = [sum(r[j] * r[j] for r in rows) for j in range(3)]
    return [[r[j] / scale[j] for r in rows] for j in range(3)]


def times(rows, v):
    return [sum(a * b for a, b in zip(row, v)) for row in rows]


def noise(size):
    return draw.gauss(0.0, size)


class Cart:
    """Where the cart is, and where its plan wants it."""

    def __init__(self):
        self.pose, self.twist = [0.4, -0.3, 0.1], [0.0, 0.0, 0.0]
        self.plan = None

    def towards(self, target, speed):
        """One tick of a plan towards target, from the plan's own state."""
        place = self.plan or (self.pose + self.twist)
        gap = [t - p for t, p in zip(target, place[:3])]
        far = math.hypot(gap[0], gap[1])
        rate = min(speed, 4.0 * far)
        vel = [rate * gap[0] / far, rate * gap[1] / far] if far > 1e-6 else [0.0, 0.0]
        vel.append(max(-2.0, min(2.0, 3.0 * gap[2])))
        was = place[3:]
        vel = [w + max(-3.0 * DT, min(3.0 * DT, v - w)) for v, w in zip(vel, was)]
        state = [p + v * DT for p, v in zip(place[:3], vel)] + vel
        accel = [(v - w) / DT for v, w in zip(vel, was)]
        return state + accel

    def follow(self, sample):
        self.twist = [v + noise(0.01) for v in sample[3:6]]
        self.pose = [p + noise(0.001) for p in sample[:3]]

    def coast(self, factor):
        self.twist = [factor * v for v in self.twist]
        self.pose = [p + v * DT for p, v in zip(self.pose, self.twist)]


def command(tick):
    """Mode and command words."""
    if tick < 120 or 1960 <= tick:
        return 0, []
    if tick < 600:
        return 2, [2.0, 1.0, 0.5, 1.5, 3.0, 2.0, 6.0]
    if tick < 1300 or 1560 <= tick < 1700:
        return 3, [1.2, 2.0, 1.0, 0.6, 0.8, 0.9, 1.5, 1.0, 3.0, 2.0, 2.0, 6.0, 0.05]
    if tick < 1560:
        return 2, [3.0, 2.5, -0.4, 1.5, 3.0, 2.0, 6.0]
    if tick < 1940:
        return 2, [0.5, 0.5, 0.0, 1.0, 3.0, 2.0, 6.0]
    return 1, []


def target_of(mode, words):
    if mode == 2:
        return words[:3], words[3]
    if mode == 3:
        return [words[1] + 1.5 * words[3], words[2] + 1.5 * words[4], words[0]], words[5]
    return None, 0.0


def words_of(tick, flags, mode, fields):
    """The block: named runs of floats put at their words."""
    block = [0] * 128
    block[0], block[1], block[2], block[3], block[105] = 1, tick, flags, mode, K
    for at, values in fields:
        for j, value in enumerate(values):
            block[at + j] = struct.unpack('<I', struct.pack('<f', value))[0]
    block[127] = (1 + sum(block[:127])) % 2**32
    return struct.pack('<128I', *block)


def main():
    cart, estimate = Cart(), [0.0] * 6
    crashed = False
    for tick in range(TICKS):
        mode, words = command(tick)
        target, speed = target_of(mode, words)
        fresh = [0.0] * 9
        if tick == 1100:  # carried aside while no camera looked
            cart.pose = [cart.pose[0] + 0.9, cart.pose[1] + 0.5, cart.pose[2]]
            cart.plan = None
        if target:
            start = cart.plan
            fresh = cart.towards(target, speed)
            cart.plan = fresh[:6]
            following = cart.towards(target, speed)
            cart.plan = start
        else:
            following = fresh
        # what the cart does: it follows its plan, brakes, or was pushed
        if 1450 <= tick < 1560:
            if tick == 1450:
                cart.pose = [cart.pose[0] - 1.3, cart.pose[1] + 0.2, cart.pose[2] + 0.4]
                cart.twist = [-2.4, 0.5, 3.0]
                crashed = True
            cart.coast(0.985)
        elif 1028 <= tick < 1100:  # no vision: the wheels are disabled
            cart.coast(0.95)
        elif target and not crashed:
            cart.follow(fresh)
            cart.plan = fresh[:6]
        else:
            cart.coast(0.9)
            cart.plan = None
            crashed = crashed and tick < 1570
        seen = (tick % 4 == 0 or tick == 1181) and not (900 <= tick < 1100)
        outlier = 1181 <= tick < 1200
        sighting = [p + noise(0.002) for p in cart.pose]
        if outlier:
            sighting = [sighting[0] + 3.0, sighting[1] - 2.0, sighting[2]]
        predicted = [e + noise(0.002) for e in estimate]
        if seen and not outlier:
            estimate = [p + noise(0.003) for p in cart.pose] + [v + noise(0.02) for v in cart.twist]
        else:
            estimate = [p + v * DT for p, v in zip(estimate[:3], estimate[3:])] + estimate[3:]
        wheels = [w + noise(0.2) for w in times(wheel_rows(cart.pose[2]), cart.twist)]
        flags = seen | (1860 <= tick < 1870) << 1 | (1720 <= tick < 1800) << 2 | (tick in (700, 701, 1333)) << 3 | (tick in (600, 1300, 1301)) << 4
        force = [0.4 * math.copysign(1.0, v) if abs(v) > 0.02 else 0.0 for v in cart.twist]
        rows = wheel_rows(estimate[2])
        fields = [
            (4, sighting if seen else [0.0] * 3), (7, wheels), (11, [cart.twist[2] + noise(0.01)]), (12, predicted), (18, estimate), (24, words), (37, fresh), (46, following),
            (55, [math.cos(estimate[2]), math.sin(estimate[2])]), (57, [0.4, 0.0, 0.0, 0.0, 0.4, 0.0, 0.0, 0.0, 80.0]), (66, sum(rows, [])), (78, [0.01 * x for x in sum(rows, [])]), (90, sum(twist_rows(sighting[2]), [])), (102, force),
        ]
        sys.stdout.buffer.write(words_of(tick, int(flags), mode, fields))


main()
