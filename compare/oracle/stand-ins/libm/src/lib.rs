//! The functions that the firmware's files take from libm, by the
//! rules of docs/RULES.md ('The root', 'The remainder', 'The hypotenuse') rather
//! than libm's.

/// IEEE 754 squareRoot.
pub fn sqrtf(x: f32) -> f32 {
    x.sqrt()
}

pub fn fabsf(x: f32) -> f32 {
    x.abs()
}

/// Only `cmd_amplification` uses it, which is left out of the comparison.
pub fn powf(x: f32, y: f32) -> f32 {
    x.powf(y)
}

/// IEEE 754 remainder: x minus y times the whole number nearest x/y, the even
/// one of two equally near; a zero has the sign of x. Every step is exact.
pub fn remainderf(x: f32, y: f32) -> f32 {
    if x.is_nan() || y.is_nan() || x.is_infinite() || y == 0.0 {
        return f32::NAN;
    }
    if y.is_infinite() {
        return x;
    }
    let y = y.abs();
    // Below twice y the quotient's parity can still be told.
    let mut r = x.abs();
    if y <= f32::MAX / 2.0 {
        r %= y + y;
    }
    if y < 2.0 * f32::MIN_POSITIVE {
        // Doubling is exact here, halving might not be.
        if r + r > y {
            r -= y;
            if r + r >= y {
                r -= y;
            }
        }
    } else {
        let half = 0.5 * y;
        if r > half {
            r -= y;
            if r >= half {
                r -= y;
            }
        }
    }
    if r == 0.0 {
        r = 0.0;
    }
    if x.is_sign_negative() {
        -r
    } else {
        r
    }
}

/// The hypotenuse of docs/RULES.md, 'The hypotenuse'.
pub fn hypotf(x: f32, y: f32) -> f32 {
    if x.is_infinite() || y.is_infinite() {
        return f32::INFINITY;
    }
    if x.is_nan() || y.is_nan() {
        return f32::NAN;
    }
    let (a, b) = if x.abs() < y.abs() {
        (y.abs(), x.abs())
    } else {
        (x.abs(), y.abs())
    };
    if b == 0.0 || a.to_bits() - b.to_bits() >= 25 << 23 {
        return a + b;
    }
    let up = f32::from_bits((127 + 90) << 23);
    let down = f32::from_bits((127 - 90) << 23);
    if a >= f32::from_bits((127 + 60) << 23) {
        let (a, b) = (a * down, b * down);
        (a * a + b * b).sqrt() * up
    } else if b < f32::from_bits((127 - 60) << 23) {
        let (a, b) = (a * up, b * up);
        (a * a + b * b).sqrt() * down
    } else {
        (a * a + b * b).sqrt()
    }
}

#[cfg(test)]
mod tests {
    use super::*;

    /// Significand and exponent of a finite float's magnitude.
    fn parts(x: f32) -> (u64, i32) {
        let w = x.to_bits() & 0x7fff_ffff;
        match w >> 23 {
            0 => ((w & 0x7f_ffff) as u64, -149),
            e => ((w & 0x7f_ffff | 0x80_0000) as u64, e as i32 - 150),
        }
    }

    /// The definition in whole numbers, for |x| at least y's unit in the last place.
    fn by_whole_numbers(x: f32, y: f32) -> f32 {
        let ((mx, ex), (my, ey)) = (parts(x), parts(y));
        // In units of 2^u: x = mx * 2^(ex-u), y = my * 2^(ey-u).
        let u = ex.min(ey);
        let y_units = (my as u128) << (ey - u);
        let two_y = 2 * y_units;
        let mut r = mx as u128 % two_y;
        for _ in u..ex {
            r = 2 * r % two_y;
        }
        // 0 <= r < 2y; quotient's low bit is r / y.
        let odd = r >= y_units;
        let rest = if odd { r - y_units } else { r };
        let up = 2 * rest > y_units || (2 * rest == y_units && odd);
        let (negative, size) = if up {
            (true, y_units - rest)
        } else {
            (false, rest)
        };
        let value = size as f64 * (2f64).powi(u);
        assert_eq!(value as f32 as f64, value);
        let value = if size == 0 { 0.0 } else { value as f32 };
        if x.is_sign_negative() != (negative && size != 0) {
            -value
        } else {
            value
        }
    }

    #[test]
    fn remainder_by_two_pi() {
        let y = f32::from_bits(0x40c9_0fdb);
        assert_eq!(
            remainderf(f32::from_bits(0x4049_0fdb), y).to_bits(),
            0x4049_0fdb
        );
        assert_eq!(
            remainderf(f32::from_bits(0x4049_0fdc), y).to_bits(),
            0xc049_0fda
        );
        let mut s = 1u64;
        for i in 0..2_000_000u32 {
            s = s
                .wrapping_mul(6364136223846793005)
                .wrapping_add(1442695040888963407);
            let w = if i < 1_000_000 {
                (s >> 32) as u32
            } else {
                // |x| from 2^-20 to 2^44
                let e = 107 + ((s >> 56) as u32 % 64);
                (e << 23) | ((s >> 20) as u32 & 0x807f_ffff)
            };
            let x = f32::from_bits(w);
            if !x.is_finite() || x.abs() < 1e-3 {
                continue;
            }
            assert_eq!(
                remainderf(x, y).to_bits(),
                by_whole_numbers(x, y).to_bits(),
                "{w:08x}"
            );
        }
    }

    #[test]
    fn hypot_cases() {
        assert_eq!(hypotf(3.0, 4.0), 5.0);
        assert_eq!(hypotf(f32::INFINITY, f32::NAN), f32::INFINITY);
        assert_eq!(hypotf(f32::NAN, f32::NEG_INFINITY), f32::INFINITY);
        assert!(hypotf(f32::NAN, 1.0).is_nan());
        assert_eq!(hypotf(-0.0, -0.0).to_bits(), 0);
        assert_eq!(sqrtf(2.0).to_bits(), 0x3fb5_04f3);
        assert_eq!(sqrtf(-0.0).to_bits(), 0x8000_0000);
    }
}
