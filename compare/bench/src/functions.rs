// All that is compared: functions of C's calling convention, called by pointer, so that none is
// inlined and each call costs the same.
pub type One = extern "C" fn(f32) -> f32;
pub type Two = extern "C" fn(f32, f32) -> f32;

// The archive's.
unsafe extern "C" {
    pub safe fn ieee754_sqrt(x: f32) -> f32;
    pub safe fn ieee754_remainder(x: f32) -> f32;
    pub safe fn ieee754_hypot(x: f32, y: f32) -> f32;
}

pub extern "C" fn hardware_sqrt(x: f32) -> f32 {
    x.sqrt()
}

pub extern "C" fn libm_sqrt(x: f32) -> f32 {
    libm::sqrtf(x)
}

pub extern "C" fn libm_remainder(x: f32) -> f32 {
    libm::remainderf(x, 2.0 * std::f32::consts::PI)
}

pub extern "C" fn libm_hypot(x: f32, y: f32) -> f32 {
    libm::hypotf(x, y)
}

const TWO_60: f32 = (1u64 << 60) as f32;
const TWO_90: f32 = (1u128 << 90) as f32;

// The rule for hypotf (docs/RULES.md, 'The hypotenuse'), over the hardware's root.
pub extern "C" fn rule_hypot(x: f32, y: f32) -> f32 {
    let (p, q) = (x.abs(), y.abs());
    if p.is_infinite() || q.is_infinite() {
        return f32::INFINITY;
    }
    if p.is_nan() || q.is_nan() {
        return f32::NAN;
    }
    let (a, b) = if p < q { (q, p) } else { (p, q) };
    if b == 0.0 || a.to_bits() - b.to_bits() >= 25 << 23 {
        return a + b;
    }
    let root = |a: f32, b: f32| (a * a + b * b).sqrt();
    if a >= TWO_60 {
        return root(a * TWO_90.recip(), b * TWO_90.recip()) * TWO_90;
    }
    if b < TWO_60.recip() {
        return root(a * TWO_90, b * TWO_90) * TWO_90.recip();
    }
    root(a, b)
}

// The same bits, with NaN as one value.
pub fn same(a: f32, b: f32) -> bool {
    a.to_bits() == b.to_bits() || (a.is_nan() && b.is_nan())
}
