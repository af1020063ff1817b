//! The tick once more, in plain floats and from the rules of docs/RULES.md: sight,
//! plan, steer, finish. Nothing here uses the firmware's files or the stand-ins; it is
//! what `compare` holds against them.

use crate::block::Block;
use std::collections::BTreeMap;

const PI: f32 = f32::from_bits(0x4049_0fdb);
pub(crate) const BASE: f32 = f32::from_bits(0x3f1a_e148);
pub(crate) const SPIN: f32 = f32::from_bits(0x41fb_53d2);

#[derive(Clone, Copy)]
pub(crate) enum Gate {
    Seeding { n: u32, sums: [f32; 4] },
    Tracking { t: f32 },
}

const FRESH: Gate = Gate::Seeding {
    n: 0,
    sums: [0.0; 4],
};

#[derive(Clone, Copy, PartialEq)]
enum Plan {
    Hold,
    NoVision,
    Keep,
    New([f32; 6]),
}

type Command = (u32, [f32; 13]);

/// For the counts: a command that changed in one field alone.
const POSITION: [&str; 7] = [
    "plan: anew by a position's x",
    "plan: anew by a position's y",
    "plan: anew by a position's heading",
    "plan: anew by a position's linear speed",
    "plan: anew by a position's angular speed",
    "plan: anew by a position's linear acceleration",
    "plan: anew by a position's angular acceleration",
];
const LINE: [&str; 13] = [
    "plan: anew by a line's heading",
    "plan: anew by a line's start x",
    "plan: anew by a line's start y",
    "plan: anew by a line's direction x",
    "plan: anew by a line's direction y",
    "plan: anew by a line's speed",
    "plan: anew by a line's limit 1",
    "plan: anew by a line's limit 2",
    "plan: anew by a line's limit 3",
    "plan: anew by a line's limit 4",
    "plan: anew by a line's limit 5",
    "plan: anew by a line's limit 6",
    "plan: anew by a line's threshold",
];

pub struct Controller {
    dt: f32,
    ticks: u32,
    pub(crate) gate: Gate,
    clock: f32,
    pub(crate) recovering: bool,
    pub(crate) held: Option<[f32; 9]>,
    prev: Option<Command>,
    prev_mode: u32,
    estimate: [f32; 6],
    pid_error: [f32; 3],
    pid_sum: [f32; 3],
    disabled: bool,
    twist: [f32; 3],
    accel: [f32; 3],
    accel_fric: [f32; 3],
    wheels: [f32; 4],
    torques: [f32; 4],
    /// For the counts alone: the last tick was quiet; a sample was held before the gate judged.
    quiet_before: bool,
    dropped: bool,
    /// How often each branch was met.
    pub met: BTreeMap<&'static str, usize>,
}

fn root(x: f32) -> f32 {
    x.sqrt()
}

fn hypot(x: f32, y: f32) -> f32 {
    let (x, y) = (x.abs(), y.abs());
    if x == f32::INFINITY || y == f32::INFINITY {
        return f32::INFINITY;
    }
    if x != x || y != y {
        return f32::NAN;
    }
    let (a, b) = if x >= y { (x, y) } else { (y, x) };
    if b == 0.0 || u64::from(a.to_bits()) >= u64::from(b.to_bits()) + (25 << 23) {
        return a + b;
    }
    let two = |n: i32| (2f64).powi(n) as f32;
    let scale = if a >= two(60) {
        two(-90)
    } else if b < two(-60) {
        two(90)
    } else {
        two(0)
    };
    let (a, b) = (a * scale, b * scale);
    root(a * a + b * b) * (1.0 / scale)
}

/// IEEE remainder by 2.0 PI, in doubles: every step is exact.
fn remainder(x: f32) -> f32 {
    if !x.is_finite() {
        return f32::NAN;
    }
    let y = f64::from(2.0 * PI);
    let r = f64::from(x.abs()) % (2.0 * y);
    let r = if 2.0 * r <= y {
        r
    } else if 2.0 * r < 3.0 * y {
        r - y
    } else {
        r - 2.0 * y
    };
    let r = if r == 0.0 { 0.0 } else { r as f32 };
    if x.is_sign_negative() {
        -r
    } else {
        r
    }
}

/// pid.rs's clamp: NaN gives lo.
fn held_in(v: f32, lo: f32, hi: f32) -> f32 {
    match (v > lo, v < hi) {
        (true, true) => v,
        (true, false) => hi,
        (false, _) => lo,
    }
}

/// f32's clamp: NaN stays.
fn kept_in(v: f32, limit: f32) -> f32 {
    if v < -limit {
        -limit
    } else if v > limit {
        limit
    } else {
        v
    }
}

fn product<const N: usize>(rows: &[f32], v: [f32; N]) -> Vec<f32> {
    rows.chunks_exact(N)
        .map(|row| {
            let mut sum = row[0] * v[0];
            for i in 1..N {
                sum = sum + row[i] * v[i];
            }
            sum
        })
        .collect()
}

fn three(v: Vec<f32>) -> [f32; 3] {
    v.try_into().unwrap()
}

/// To global with s, to local with -s.
fn turned(c: f32, s: f32, v: [f32; 3]) -> [f32; 3] {
    three(product(&[c, -s, 0.0, s, c, 0.0, 0.0, 0.0, 1.0], v))
}

fn take<const N: usize>(block: &Block, at: usize) -> [f32; N] {
    std::array::from_fn(|i| block.float(at + i))
}

fn word(x: f32) -> u32 {
    if x == x {
        x.to_bits()
    } else {
        0x7fc0_0000
    }
}

impl Controller {
    pub fn new(k: u32) -> Controller {
        Controller {
            dt: k as f32 / 4096.0,
            ticks: 0,
            gate: FRESH,
            clock: 1.5,
            recovering: false,
            held: None,
            prev: None,
            prev_mode: 0,
            estimate: [0.0; 6],
            pid_error: [0.0; 3],
            pid_sum: [0.0; 3],
            disabled: true,
            twist: [0.0; 3],
            accel: [0.0; 3],
            accel_fric: [0.0; 3],
            wheels: [0.0; 4],
            torques: [0.0; 4],
            quiet_before: false,
            dropped: false,
            met: BTreeMap::new(),
        }
    }

    fn met(&mut self, is: bool, what: &'static str) {
        if is {
            *self.met.entry(what).or_default() += 1;
        }
    }

    pub(crate) fn active(&self) -> bool {
        self.clock <= 0.5
    }

    fn recovery_reset(&mut self) {
        self.gate = FRESH;
        self.clock = 1.5;
        self.recovering = false;
        self.drop_memory();
        self.forget_pid();
    }

    fn drop_memory(&mut self) {
        self.held = None;
        self.prev = None;
    }

    fn forget_pid(&mut self) {
        self.pid_error = [0.0; 3];
        self.pid_sum = [0.0; 3];
    }

    /// The reset call.
    pub fn reset(&mut self) {
        self.recovery_reset();
        self.disabled = true;
        self.prev_mode = 0;
        self.twist = [0.0; 3];
        self.accel = [0.0; 3];
        self.accel_fric = [0.0; 3];
        self.wheels = [0.0; 4];
        self.torques = [0.0; 4];
    }

    /// The gate's outcome, Q to R as 0 to 7.
    fn judge(&mut self, seen: bool, at: [f32; 3], predicted: &[f32; 6]) -> usize {
        match (self.gate, seen) {
            (Gate::Seeding { .. }, false) => 0,
            (Gate::Tracking { t }, false) => {
                self.gate = Gate::Tracking { t: t + self.dt };
                0
            }
            (Gate::Seeding { n, sums }, true) => {
                let [x, y, _] = at;
                let n = n + 1;
                let sums = [sums[0] + x, sums[1] + y, sums[2] + x * x, sums[3] + y * y];
                self.gate = Gate::Seeding { n, sums };
                if n < 20 {
                    return 1;
                }
                let count = n as f32;
                let deviation = |sum: f32, squares: f32| {
                    let mean = sum / count;
                    root(squares / count - mean * mean)
                };
                let (dx, dy) = (deviation(sums[0], sums[2]), deviation(sums[1], sums[3]));
                self.met(dx != dx || dy != dy, "gate: a deviation is NaN");
                self.met(dx == 0.03 && dy < 0.03, "gate: x deviates exactly 0.03");
                self.met(dy == 0.03 && dx < 0.03, "gate: y deviates exactly 0.03");
                if dx < 0.03 && dy < 0.03 {
                    self.gate = Gate::Tracking { t: 0.0 };
                    2
                } else {
                    self.gate = FRESH;
                    3
                }
            }
            (Gate::Tracking { t }, true) => {
                let distance = hypot(at[0] - predicted[0], at[1] - predicted[1]);
                let radius = BASE + 2.0 * t;
                self.met(distance == BASE, "gate: distance exactly the base radius");
                self.met(distance == radius, "gate: distance exactly the radius");
                self.met(distance != distance, "gate: distance NaN");
                self.met(
                    !(distance < radius) && t > 0.0 && self.quiet_before,
                    "gate: R right after a quiet tick",
                );
                if distance < radius {
                    self.gate = Gate::Tracking { t: 0.0 };
                    if distance >= BASE {
                        5
                    } else {
                        4
                    }
                } else {
                    self.gate = Gate::Tracking { t: t + self.dt };
                    if t == 0.0 {
                        6
                    } else {
                        7
                    }
                }
            }
        }
    }

    fn sight(&mut self, block: &Block) -> (usize, bool, [f32; 6]) {
        self.disabled = false;
        let at: [f32; 3] = take(block, 4);
        let mut predicted: [f32; 6] = take(block, 12);
        let outcome = self.judge(block.flag(0), at, &predicted);
        let taken = [2, 4, 5].contains(&outcome);
        self.dropped = self.held.is_some();
        if outcome == 2 || outcome == 5 {
            let vel = product(&take::<12>(block, 90), take::<4>(block, 7));
            predicted = [at[0], at[1], at[2], vel[0], vel[1], block.float(11)];
            self.drop_memory();
            self.forget_pid();
        }
        self.quiet_before = outcome == 0;
        self.met(
            [2, 5].contains(&outcome) && self.dropped,
            "gate: C or J dropped a held sample",
        );
        if taken {
            self.clock = 0.0;
        } else if self.clock <= 0.5 {
            self.clock = self.clock + self.dt;
            self.met(self.clock == 0.5, "clock: exactly 0.5");
            self.met(self.clock > 0.5, "clock: runs out");
        }
        (outcome, taken, predicted)
    }

    fn plan(&mut self, block: &Block, cmd: Command) -> Plan {
        self.estimate = take(block, 18);
        let (mode, fields) = cmd;
        if block.flag(1) || self.recovering || mode < 2 {
            self.met(block.flag(1), "plan: hold by halt");
            self.met(self.recovering, "plan: hold while recovering");
            self.met(self.held.is_some(), "plan: hold drops a held sample");
            self.drop_memory();
            self.prev_mode = 0;
            return Plan::Hold;
        }
        if mode != self.prev_mode {
            self.met(self.prev_mode != 0, "plan: from line to position or back");
            self.met(
                self.held.is_some(),
                "plan: a changed mode drops a held sample",
            );
            self.met(
                self.held.is_some() && !self.active(),
                "plan: a changed mode drops a held sample, without vision",
            );
            self.drop_memory();
            self.prev_mode = mode;
        }
        if !self.active() {
            self.disabled = true;
            self.met(self.held.is_some(), "plan: no vision, with a held sample");
            return Plan::NoVision;
        }
        let same = match self.prev {
            Some((kind, old)) => kind == mode && old.iter().zip(&fields).all(|(a, b)| a == b),
            None => false,
        };
        if let (Some((_, old)), Some(_)) = (self.prev, self.held) {
            let signs = old.iter().zip(&fields).any(|(a, b)| word(*a) != word(*b));
            let nan = old.iter().zip(&fields).any(|(a, b)| a != a && b != b);
            let words = old.iter().zip(&fields).all(|(a, b)| word(*a) == word(*b));
            self.met(same && signs, "plan: keep, though a zero's sign changed");
            self.met(words && nan, "plan: anew, since the same command has a NaN");
            self.met(!same && !nan, "plan: anew, since the command changed");
            let changed: Vec<usize> = (0..13).filter(|i| old[*i] != fields[*i]).collect();
            if let ([i], false) = (&changed[..], nan) {
                self.met(mode == 2, POSITION[*i % 7]);
                self.met(mode == 3, LINE[*i]);
            }
        }
        match self.held {
            Some(_) if same => Plan::Keep,
            Some(s) => {
                self.met(true, "plan: seed from the held sample");
                Plan::New([s[0], s[1], s[2], s[3], s[4], s[5]])
            }
            None => {
                self.met(true, "plan: seed from the estimate");
                Plan::New(self.estimate)
            }
        }
    }

    /// calc_tracking_setpoints.
    fn track(&mut self, sample: [f32; 9]) {
        let est = self.estimate;
        let aim = [sample[0], sample[1], est[2] + remainder(sample[2] - est[2])];
        let gains = [
            (300.0f32, 7.0f32, 0.001f32),
            (300.0, 7.0, 0.001),
            (400.0, 30.0, 0.01),
        ];
        for i in 0..3 {
            let (kp, kd, calm) = gains[i];
            let e = aim[i] - est[i];
            let slope = sample[3 + i] - est[3 + i];
            self.pid_sum[i] = held_in(self.pid_sum[i] + e * self.dt, 0.0, 0.0);
            self.pid_error[i] = e;
            let mut out = (kp * e + 0.0 * self.pid_sum[i]) + kd * slope;
            self.met(e.abs() < calm, "track: anti-jitter scales");
            self.met(e.abs() == calm, "track: error exactly at anti-jitter");
            self.met(i == 2 && e == PI, "track: heading error exactly PI");
            self.met(i == 2 && e == -PI, "track: heading error exactly -PI");
            self.met(
                word(sample[3 + i]) == 0x8000_0000,
                "track: a setpoint of -0.0",
            );
            if e.abs() < calm {
                out = (out * e.abs()) / calm;
            }
            self.accel[i] = 0.0 + 1.0 * out;
            self.twist[i] = 1.0 * sample[3 + i] + 0.0;
        }
    }

    fn astray(&mut self, s: &[f32; 9]) -> bool {
        let e = self.estimate;
        let errors = [
            hypot(s[0] - e[0], s[1] - e[1]),
            remainder(s[2] - e[2]).abs(),
            hypot(s[3] - e[3], s[4] - e[4]),
            (s[5] - e[5]).abs(),
        ];
        let limits = [1.0, 1.57, 5.0, 10.0];
        let mut over = false;
        let exactly = [
            "recovery: place exactly 1.0 off",
            "recovery: heading exactly 1.57 off",
            "recovery: velocity exactly 5.0 off",
            "recovery: turning exactly 10.0 off",
        ];
        let alone = [
            "recovery: begun by place alone",
            "recovery: begun by heading alone",
            "recovery: begun by velocity alone",
            "recovery: begun by turning alone",
        ];
        self.met(
            (s[2] - e[2]).abs() > PI && errors[1] < 1.57,
            "recovery: headings near, turns apart",
        );
        let above = (0..4).filter(|i| errors[*i] > limits[*i]).count();
        for (i, (e, limit)) in errors.into_iter().zip(limits).enumerate() {
            self.met(e == limit, exactly[i]);
            self.met(e > limit && above == 1, alone[i]);
            self.met(e != e, "recovery: an error NaN");
            over = over || e > limit;
        }
        over
    }

    fn recovery(&mut self, wheels: [f32; 4]) {
        if self.recovering {
            self.met(
                wheels.iter().any(|w| w.abs() == 50.0),
                "recovery: a wheel exactly at 50.0",
            );
            self.met(wheels.iter().any(|w| w != w), "recovery: a wheel NaN");
            self.met(
                wheels.iter().filter(|w| w.abs() < 50.0).count() == 3,
                "recovery: one wheel alone still turns",
            );
            if wheels.iter().all(|w| w.abs() < 50.0) {
                self.met(self.clock == 0.0, "recovery: ended on a taken sighting");
                self.recovery_reset();
                self.met(true, "recovery: ended, reset");
            }
        } else if let Some(s) = self.held {
            self.recovering = self.astray(&s);
            self.met(self.recovering, "recovery: begun");
        }
    }

    /// The friction twist, local and gated; and whether the twist was clamped.
    fn steer(&mut self, block: &Block, plan: Plan, cmd: Command) -> Result<([f32; 3], bool), u32> {
        self.met(
            block.flag(4) && !matches!(plan, Plan::New(_)),
            "planner failure ignored",
        );
        if matches!(plan, Plan::New(_)) && block.flag(4) {
            self.held = None;
            return Err(12);
        }
        let sample = match plan {
            Plan::Keep => self.held,
            Plan::New(_) => Some(take(block, 37)),
            _ => None,
        };
        self.twist = [0.0; 3];
        self.accel = [0.0; 3];
        if let Some(sample) = sample {
            self.track(sample);
            self.held = Some(take(block, 46));
            self.prev = Some(cmd);
        }
        self.recovery(take(block, 7));
        if block.flag(2) {
            let [x, y, _] = self.twist;
            let speed = root(x * x + y * y);
            self.met(speed > 1.25, "steer: stop scales");
            self.met(speed == 1.25, "steer: stop at exactly 1.25");
            self.met(
                speed == f32::INFINITY && x.is_finite() && y.is_finite(),
                "steer: stop's speed overflows",
            );
            if speed > 1.25 {
                let scale = 1.25 / speed;
                self.twist[0] = x * scale;
                self.twist[1] = y * scale;
            }
        }
        let [x, y, z] = self.twist;
        let clamped = [kept_in(x, 10.0), kept_in(y, 10.0), kept_in(z, SPIN)];
        let mark = clamped[0] != x || clamped[1] != y || clamped[2] != z;
        self.met(mark, "steer: twist clamped");
        self.met(x != x || y != y || z != z, "steer: twist NaN");
        self.met(
            x.abs() == 10.0 || y.abs() == 10.0 || z.abs() == SPIN,
            "steer: twist exactly at a limit",
        );
        self.twist = clamped;

        let (c, s) = (block.float(55), block.float(56));
        let [_, _, _, vx, vy, vz] = self.estimate;
        let moving = turned(c, -s, [vx, vy, vz]);
        let wanted = turned(c, -s, self.twist);
        let pushed = turned(c, -s, self.accel);
        let linear = hypot(pushed[0], pushed[1]) >= 0.5 || hypot(moving[0], moving[1]) >= 0.1;
        let angular = pushed[2].abs() >= 1.0 || moving[2].abs() >= 0.5;
        let calm = hypot(pushed[0], pushed[1]) < 0.5;
        let slow = hypot(moving[0], moving[1]) < 0.1;
        self.met(
            calm && hypot(moving[0], moving[1]) == 0.1,
            "steer: friction by speed exactly 0.1 alone",
        );
        self.met(
            slow && hypot(pushed[0], pushed[1]) == 0.5,
            "steer: friction by acceleration exactly 0.5 alone",
        );
        self.met(
            pushed[2].abs() < 1.0 && moving[2].abs() == 0.5,
            "steer: friction by turning exactly 0.5 alone",
        );
        self.met(
            moving[2].abs() < 0.5 && pushed[2].abs() == 1.0,
            "steer: friction by angular acceleration exactly 1.0 alone",
        );
        self.met(linear, "steer: linear friction on");
        self.met(!linear, "steer: linear friction off");
        self.met(angular, "steer: angular friction on");
        self.met(!angular, "steer: angular friction off");
        let gated = [
            if linear { wanted[0] } else { 0.0 },
            if linear { wanted[1] } else { 0.0 },
            if angular { wanted[2] } else { 0.0 },
        ];
        Ok((gated, mark))
    }

    fn finish(&mut self, block: &Block) -> bool {
        let force = turned(block.float(55), block.float(56), take(block, 102));
        let loss = product(&take::<9>(block, 57), force);
        let whole: [f32; 3] = std::array::from_fn(|i| self.accel[i] - loss[i]);
        self.accel_fric = [
            kept_in(whole[0], 20.0),
            kept_in(whole[1], 20.0),
            kept_in(whole[2], 100.0),
        ];
        let mark = (0..3).any(|i| self.accel_fric[i] != whole[i]);
        self.met(mark, "finish: acceleration clamped");
        self.met(
            whole[0].abs() == 20.0 || whole[1].abs() == 20.0 || whole[2].abs() == 100.0,
            "finish: acceleration exactly at a limit",
        );
        self.wheels = product(&take::<12>(block, 66), self.twist)
            .try_into()
            .unwrap();
        self.torques = product(&take::<12>(block, 78), self.accel_fric)
            .try_into()
            .unwrap();
        mark
    }

    /// How often the inputs' floats are odd.
    fn count_inputs(&mut self, block: &Block) {
        let xs: [f32; 101] = take(block, 4);
        self.met(xs.iter().any(|x| x != x), "input: a NaN");
        self.met(xs.iter().any(|x| x.is_infinite()), "input: an infinity");
        self.met(xs.iter().any(|x| x.is_subnormal()), "input: a subnormal");
    }

    /// One tick by its four calls, as the 96 words that `Cart::record` gives.
    pub fn tick(&mut self, block: &Block) -> [u32; 96] {
        let mode = block.mode();
        let used = [0, 0, 7, 13][mode as usize];
        let mut fields = [0.0; 13];
        fields[..used].copy_from_slice(&take::<13>(block, 24)[..used]);
        let cmd = (mode, fields);

        self.count_inputs(block);
        let (outcome, taken, predicted) = self.sight(block);
        self.ticks += 1;
        let (plan, result) = if block.flag(3) {
            (None, Err(11))
        } else {
            let plan = self.plan(block, cmd);
            let result = self
                .steer(block, plan, cmd)
                .map(|(friction, twist_mark)| (friction, twist_mark, self.finish(block)));
            (Some(plan), result)
        };

        let mut out = vec![self.ticks - 1, outcome as u32, result.err().unwrap_or(0)];
        let put = |out: &mut Vec<u32>, xs: &[f32]| out.extend(xs.iter().map(|x| word(*x)));
        put(&mut out, &take::<3>(block, 4));
        put(&mut out, &take::<5>(block, 7));
        out.push(taken as u32);
        put(&mut out, &predicted);
        let (number, seed) = match plan {
            Some(Plan::Hold) => (0, [0.0; 6]),
            Some(Plan::NoVision) => (1, [0.0; 6]),
            Some(Plan::Keep) => (2, [0.0; 6]),
            Some(Plan::New(seed)) => (3, seed),
            None => (4, [0.0; 6]),
        };
        let named = ["hold", "no vision", "keep", "new plan", "not asked, 11"];
        self.met(true, named[number as usize]);
        self.met(result == Err(12), "planner failed, 12");
        out.push(number);
        put(&mut out, &seed);
        let (friction, twist_mark, accel_mark) = result.unwrap_or(([0.0; 3], false, false));
        put(&mut out, &friction);
        put(&mut out, &self.twist);
        put(&mut out, &self.accel);
        put(&mut out, &self.accel_fric);
        put(&mut out, &self.wheels);
        put(&mut out, &self.torques);
        out.extend([twist_mark as u32, accel_mark as u32, self.disabled as u32]);
        match self.gate {
            Gate::Seeding { n, sums } => {
                out.extend([0, n]);
                put(&mut out, &sums);
                out.push(0);
            }
            Gate::Tracking { t } => {
                out.extend([1, 0, 0, 0, 0, 0]);
                put(&mut out, &[t]);
            }
        }
        put(&mut out, &[self.clock]);
        out.extend([
            self.active() as u32,
            self.recovering as u32,
            self.held.is_some() as u32,
        ]);
        put(&mut out, &self.held.unwrap_or([0.0; 9]));
        let (kind, fields) = self.prev.unwrap_or((0, [0.0; 13]));
        out.push(kind);
        put(&mut out, &fields);
        out.push(self.prev_mode);
        put(&mut out, &self.estimate);
        put(&mut out, &self.pid_error);
        put(&mut out, &self.pid_sum);
        out.push(0);
        let wheels = self.wheels;
        self.met(
            result.is_ok() && wheels.iter().any(|w| w != w),
            "finish: a wheel speed NaN",
        );
        self.met(
            result.is_ok() && wheels.iter().any(|w| w.is_infinite()),
            "finish: a wheel speed infinite",
        );
        out.try_into().unwrap()
    }
}
