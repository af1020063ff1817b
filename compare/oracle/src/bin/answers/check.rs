//! Reads the lists back and works every answer out again, axis by axis, in
//! plain floats: nothing here uses the firmware's files or the stand-ins.
//! Counts by the way how often each branch was met.

use crate::words::{word, Reader};
use std::collections::BTreeMap;
use std::io;
use std::path::Path;

#[derive(Default)]
pub struct Report {
    pub calls: usize,
    pub differences: usize,
    counts: BTreeMap<String, usize>,
}

impl Report {
    fn met(&mut self, what: &str) {
        self.met_times(what, 1);
    }

    pub fn met_times(&mut self, what: &str, n: usize) {
        *self.counts.entry(what.to_string()).or_default() += n;
    }

    fn met_if(&mut self, is: bool, what: &str) {
        if is {
            self.met(what);
        }
    }

    /// Which of the unusual kinds a float is.
    fn class(&mut self, whose: &str, x: f32) {
        let class = if x.is_nan() {
            "NaN"
        } else if x == f32::INFINITY {
            "+infinity"
        } else if x == f32::NEG_INFINITY {
            "-infinity"
        } else if x.to_bits() == 0x8000_0000 {
            "-0.0"
        } else if x.is_subnormal() {
            "subnormal"
        } else {
            return;
        };
        self.met(&format!("{whose}: {class}"));
    }

    fn same(&mut self, place: &str, stored: f32, worked_out: f32) {
        self.same_word(place, word(stored), word(worked_out));
    }

    pub fn same_word(&mut self, place: &str, stored: u32, worked_out: u32) {
        if stored != worked_out {
            self.differences += 1;
            if self.differences <= 10 {
                println!("  {place}: stored {stored:08x}, worked out {worked_out:08x}");
            }
        }
    }

    pub fn same_line(&mut self, worked_out: &str, stored: Option<&str>) {
        if stored != Some(worked_out) {
            self.differences += 1;
            println!("  stored {stored:?}, worked out {worked_out:?}");
        }
    }

    pub fn print(&self, name: &str) {
        println!(
            "{name}: {} calls, {} differences",
            self.calls, self.differences
        );
        for (what, n) in &self.counts {
            println!("  {n:8}  {what}");
        }
    }
}

/// v > lo gives v if v < hi, else hi; otherwise lo.
fn held(v: f32, lo: f32, hi: f32) -> f32 {
    if !(v > lo) {
        lo
    } else if v < hi {
        v
    } else {
        hi
    }
}

/// Where `held` found its value.
fn count_held(r: &mut Report, whose: &str, v: f32, lo: f32, hi: f32) {
    let how = if v.is_nan() {
        "NaN, gives lo"
    } else if lo.is_nan() || hi.is_nan() {
        "a limit is NaN"
    } else if lo > hi {
        "limits out of order"
    } else if v == lo {
        "exactly lo"
    } else if v == hi {
        "exactly hi"
    } else if v < lo {
        "below lo"
    } else if v > hi {
        "above hi"
    } else {
        "between"
    };
    r.met(&format!("{whose}: {how}"));
}

#[derive(Clone)]
struct Axis {
    gain: [f32; 5],
    thresh: Option<f32>,
    limits: Option<(f32, f32)>,
    prev: f32,
    integrated: f32,
}

impl Axis {
    fn forget(&mut self) {
        self.prev = 0.0;
        self.integrated = 0.0;
    }

    /// One axis' answer: the slope is the error's own, or a given derivative.
    fn answer(
        &mut self,
        r: &mut Report,
        sp: f32,
        pv: f32,
        derivative: Option<f32>,
        dt: f32,
    ) -> f32 {
        let [kp, ki, kd, lo, hi] = self.gain;
        let e = sp - pv;
        let sum = self.integrated + e * dt;
        count_held(r, "integral", sum, lo, hi);
        self.integrated = held(sum, lo, hi);
        let slope = derivative.unwrap_or((e - self.prev) / dt);
        self.prev = e;
        let raw = (kp * e + ki * self.integrated) + kd * slope;
        let calm = match self.thresh {
            Some(t) if t > 0.0 => {
                let size = f32::from_bits(e.to_bits() & 0x7fff_ffff);
                r.met(if e.is_nan() {
                    "anti-jitter: error NaN, unscaled"
                } else if size == t {
                    "anti-jitter: error exactly the threshold, unscaled"
                } else if size < t {
                    "anti-jitter: scaled"
                } else {
                    "anti-jitter: above, unscaled"
                });
                r.met_if(
                    size < t && size.next_up() == t,
                    "anti-jitter: one ulp below, scaled",
                );
                r.met_if(
                    size > t && size == t.next_up(),
                    "anti-jitter: one ulp above",
                );
                if size < t {
                    (raw * size) / t
                } else {
                    raw
                }
            }
            Some(_) => {
                r.met("anti-jitter: threshold zero, negative or NaN");
                raw
            }
            None => {
                r.met("anti-jitter: none");
                raw
            }
        };
        match self.limits {
            Some((lo, hi)) => {
                count_held(r, "limit", calm, lo, hi);
                r.met_if(held(calm, lo, hi) != calm, "limit: altered the value");
                held(calm, lo, hi)
            }
            None => {
                r.met("limit: none");
                calm
            }
        }
    }
}

pub fn pid(path: &Path, n: usize) -> io::Result<Report> {
    let mut r = Report::default();
    let mut list = Reader::open(path)?;
    let runs = list.number();
    for run in 0..runs {
        let calls = list.number();
        let gains: Vec<[f32; 5]> = (0..n).map(|_| list.floats()).collect();
        let jitter = list.number() == 1;
        let thresh = list.vec(n);
        let limited = list.number() == 1;
        let (lo, hi) = (list.vec(n), list.vec(n));
        let mut axes: Vec<Axis> = (0..n)
            .map(|i| Axis {
                gain: gains[i],
                thresh: jitter.then_some(thresh[i]),
                limits: limited.then_some((lo[i], hi[i])),
                prev: 0.0,
                integrated: 0.0,
            })
            .collect();
        for call in 0..calls {
            r.calls += 1;
            let kind = list.number();
            let (sp, pv, derivative) = (list.vec(n), list.vec(n), list.vec(n));
            let dt = list.float();
            let (out, prev, integrated) = (list.vec(n), list.vec(n), list.vec(n));
            r.met(
                [
                    "kind 0, calculate",
                    "kind 1, calculate_with_derivative",
                    "kind 2, reset",
                ][kind],
            );
            r.class("dt", dt);
            for i in 0..n {
                let place = format!("run {run} call {call} axis {i}");
                let worked_out = if kind == 2 {
                    axes[i].forget();
                    0.0
                } else {
                    r.met_if(axes[i].prev.is_nan(), "memory: error before was NaN");
                    r.met_if(
                        axes[i].integrated.is_nan(),
                        "memory: integral before was NaN",
                    );
                    r.class("input", sp[i]);
                    r.class("input", pv[i]);
                    let derivative = (kind == 1).then_some(derivative[i]);
                    if let Some(d) = derivative {
                        r.class("input", d);
                    }
                    let worked_out = axes[i].answer(&mut r, sp[i], pv[i], derivative, dt);
                    r.class("output", worked_out);
                    worked_out
                };
                r.same(&place, out[i], worked_out);
                r.same(&place, prev[i], axes[i].prev);
                r.same(&place, integrated[i], axes[i].integrated);
            }
        }
    }
    assert!(list.at_end());
    Ok(r)
}

pub fn brake(path: &Path) -> io::Result<Report> {
    let mut r = Report::default();
    let mut list = Reader::open(path)?;
    let runs = list.number();
    assert_eq!(runs, 64);
    for run in 1..=runs {
        let k = list.number();
        assert_eq!(k, run);
        let dt = k as f32 / 4096.0;
        let calls = list.number();
        let wheel = Axis {
            gain: [0.01, 0.0, 0.0, 0.0, 0.0],
            thresh: Some(5.0),
            limits: Some((-1.0, 1.0)),
            prev: 0.0,
            integrated: 0.0,
        };
        let mut wheels = vec![wheel; 4];
        for call in 0..calls {
            r.calls += 1;
            let kind = list.number();
            let (speeds, currents) = (list.vec(4), list.vec(4));
            let (prev, integrated) = (list.vec(4), list.vec(4));
            r.met(["kind 0, compute", "kind 1, reset"][kind]);
            for i in 0..4 {
                let place = format!("k {k} call {call} wheel {i}");
                let worked_out = if kind == 1 {
                    wheels[i].forget();
                    0.0
                } else {
                    let before = wheels[i].prev;
                    let worked_out = wheels[i].answer(&mut r, 0.0, speeds[i], None, dt);
                    r.class("speed", speeds[i]);
                    r.class("current", worked_out);
                    r.met_if(before.is_nan(), "memory: error before was NaN");
                    r.met_if(
                        speeds[i].is_finite() && speeds[i] < -100.0 && worked_out < 0.0,
                        "slope infinite or NaN: a finite speed below -100 gets -1.0",
                    );
                    worked_out
                };
                r.same(&place, currents[i], worked_out);
                r.same(&place, prev[i], wheels[i].prev);
                r.same(&place, integrated[i], wheels[i].integrated);
            }
        }
    }
    assert!(list.at_end());
    Ok(r)
}

pub fn lag(path: &Path) -> io::Result<Report> {
    let mut r = Report::default();
    let mut list = Reader::open(path)?;
    let runs = list.number();
    assert_eq!(runs, 64);
    let (gain, t_slope) = (0.95f32, 0.095f32);
    for run in 1..=runs {
        let k = list.number();
        let micros = list.number();
        let steps = list.number();
        let (stored_dt, stored_t_min) = (list.float(), list.float());
        let calls = list.number();
        assert_eq!(k, run);
        assert_eq!(micros, (15_625 * k - 15_625 * k % 64) / 64);
        let dt = micros as f32 * 1e-6;
        let t_min = 1000f32 * 1e-6;
        let whole = (10_000f32 * 1e-6 / dt + 0.5) as usize;
        assert_eq!(steps, if whole < 1 { 1 } else { whole });
        r.same(&format!("k {k} dt"), stored_dt, dt);
        r.same(&format!("k {k} t_min"), stored_t_min, t_min);
        r.met(&format!("n_steps {steps:2} (runs)"));
        let mut state = [0.0f32; 2];
        for call in 0..calls {
            r.calls += 1;
            let kind = list.number();
            let (given, answer, after) = (list.vec(2), list.vec(2), list.vec(2));
            r.met(["kind 0, step", "kind 1, invert", "kind 2, reset"][kind]);
            for i in 0..2 {
                let place = format!("k {k} call {call} axis {i}");
                let u = given[i];
                let t = t_slope * f32::from_bits(u.to_bits() & 0x7fff_ffff) + t_min;
                let inverse = 1.0 / t;
                let mut worked_out = 0.0;
                match kind {
                    0 => {
                        r.class("step input", u);
                        state[i] = state[i] + (inverse * dt) * (gain * u - state[i]);
                    }
                    1 => {
                        r.class("invert input", u);
                        let keep = 1.0 - (dt * gain) * inverse;
                        let add = u - state[i] * (1.0 - dt * inverse);
                        worked_out = u;
                        for _ in 0..steps {
                            worked_out = keep * worked_out + add;
                        }
                        r.class("inverted", worked_out);
                    }
                    _ => state[i] = 0.0,
                }
                r.class("state after", state[i]);
                r.same(&place, answer[i], worked_out);
                r.same(&place, after[i], state[i]);
            }
        }
    }
    assert!(list.at_end());
    Ok(r)
}
