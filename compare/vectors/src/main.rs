// Writes the lists that a proved program replays: each file has pairs of words, an argument's bits
// and the answer's, little-endian. NaN answers are written 7fc00000. The same lists every time.
mod exact;
mod list;
mod remainders;
mod roots;
mod words;

use list::{word, List};

fn main() {
    let tau = 2.0 * std::f32::consts::PI;
    assert_eq!(tau.to_bits(), 0x40c9_0fdb);

    let roots = roots::arguments();
    roots.write(|w| {
        let x = f32::from_bits(w);
        let r = word(libm::sqrtf(x));
        assert_eq!(r, word(x.sqrt()), "root of {w:08x}");
        assert_eq!(r, word(exact::root(x)), "root of {w:08x}");
        r
    });
    let remainders = remainders::arguments();
    remainders.write(|w| {
        let x = f32::from_bits(w);
        let r = word(libm::remainderf(x, tau));
        assert_eq!(r, word(exact::remainder(x)), "remainder of {w:08x}");
        r
    });
    let words = words::arguments();
    words.write(|w| {
        if w & 0x7fff_ffff > 0x7f80_0000 {
            0x7fc0_0000
        } else {
            w
        }
    });
    List::like(&words, "twice").write(|w| {
        let x = f32::from_bits(w);
        assert_eq!(exact::twice(w), word(x + x), "twice {w:08x}");
        exact::twice(w)
    });
    List::like(&words, "differences").write(|w| {
        if w & 0x7fff_ffff >= 0x7f80_0000 {
            0x7fc0_0000
        } else {
            0
        }
    });
}
