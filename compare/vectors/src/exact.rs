// The answers again, by whole numbers alone.

// The significand and the exponent of a finite x: |x| = m * 2^e.
fn parts(x: f32) -> (u64, i32) {
    let w = x.to_bits() & 0x7fff_ffff;
    let (field, digits) = ((w >> 23) as i32, (w & 0x7f_ffff) as u64);
    if field == 0 {
        (digits, -149)
    } else {
        (digits + (1 << 23), field - 150)
    }
}

// The largest s with s * s <= n.
fn whole_root(n: u128) -> u128 {
    let mut s = 0;
    for bit in (0..64).rev() {
        let t: u128 = s + (1 << bit);
        if t * t <= n {
            s = t;
        }
    }
    s
}

// IEEE 754 squareRoot.
pub fn root(x: f32) -> f32 {
    if x.is_nan() || x < 0.0 {
        return f32::NAN;
    }
    if x == 0.0 || x.is_infinite() {
        return x;
    }
    // x = n * 2^e with an even e and an n of 53 binary digits or more. Its root s has 27 or more,
    // and one digit after them says whether anything is left, so that `as f32` rounds right.
    let (m, e) = parts(x);
    let (mut n, mut e) = (m as u128, e);
    while n >> 52 == 0 || e % 2 != 0 {
        n *= 2;
        e -= 1;
    }
    let s = whole_root(n);
    let sticky = (s * s != n) as u128;
    ((2 * s + sticky) as f32) * 2f32.powi(e / 2 - 1)
}

const TAU: u64 = 0xc9_0fdb; // 2.0 * PI = TAU * 2^-21

// IEEE 754 remainder by 2.0 * PI.
pub fn remainder(x: f32) -> f32 {
    if x.is_nan() || x.is_infinite() {
        return f32::NAN;
    }
    let (m, e) = parts(x);
    // In units of 2^unit the argument is a, up to multiples of 2.0 * PI, which is b.
    let unit = e.min(-21);
    if unit < -60 {
        return x;
    }
    let b = (TAU as u128) << (-21 - unit);
    let (mut quotient_odd, mut a) = (false, m as u128);
    for _ in unit..e {
        a = 2 * (a % b);
    }
    if a >= b {
        quotient_odd = a / b % 2 == 1;
        a %= b;
    }
    let up = 2 * a > b || (2 * a == b && quotient_odd);
    let size = if up { b - a } else { a };
    let r = size as f64 * 2f64.powi(unit);
    assert_eq!(r as f32 as f64, r);
    let negative = x.is_sign_negative() != up;
    if negative {
        -(r as f32)
    } else {
        r as f32
    }
}

// The word of x + x.
pub fn twice(w: u32) -> u32 {
    let (sign, rest) = (w & 0x8000_0000, w & 0x7fff_ffff);
    match rest >> 23 {
        0 => sign | (2 * rest),
        field if field < 254 => sign | (rest + (1 << 23)),
        254 => sign | 0x7f80_0000,
        _ if rest == 0x7f80_0000 => w,
        _ => 0x7fc0_0000,
    }
}
