//! Table T, worked out from its rule.

use crate::big::Big;
use std::sync::OnceLock;

/// "T[k] is the whole number nearest to U times the Taylor polynomial of sine up to the 21st
/// power, as an exact fraction, at x = k · 290,888,208,665,721,596 / 10^21."
pub fn table() -> &'static [i128] {
    static TABLE: OnceLock<Vec<i128>> = OnceLock::new();
    TABLE.get_or_init(|| (0..=5400).map(entry).collect())
}

/// The polynomial by nested products, from x^21/21! inwards. With x = n/d,
/// P = x·(1 − x²/(2·3)·(1 − x²/(4·5)·( .. (1 − x²/(20·21)))))
/// and each bracket is kept as one fraction top/bottom.
fn entry(k: u128) -> i128 {
    let n = Big::from(k * 290_888_208_665_721_596);
    let d = Big::from(10u128.pow(21));
    let (n2, d2) = (n.times(&n), d.times(&d));
    let mut top = Big::from(1);
    let mut bottom = Big::from(1);
    for j in (1..=10u128).rev() {
        let divisor = d2.times(&Big::from(2 * j * (2 * j + 1)));
        bottom = bottom.times(&divisor);
        top = bottom.minus(&n2.times(&top));
    }
    nearest(
        &n.times(&top).times(&Big::from(1_000_000_000)),
        &d.times(&bottom),
    )
}

/// The nearest whole number to top/bottom, a half upwards: the greatest q with
/// 2·bottom·q ≤ 2·top + bottom. It is known to be at most 2^30.
fn nearest(top: &Big, bottom: &Big) -> i128 {
    let two = Big::from(2);
    let limit = two.times(top).plus(bottom);
    let step = two.times(bottom);
    let mut q = 0u128;
    for bit in (0..=30).rev() {
        let more = q + (1 << bit);
        if step.times(&Big::from(more)) <= limit {
            q = more;
        }
    }
    q as i128
}

#[test]
fn marked_entries_and_rise() {
    let t = table();
    assert_eq!(t.len(), 5401);
    assert_eq!(
        (t[0], t[1], t[5399], t[5400]),
        (0, 290_888, 999_999_958, 1_000_000_000)
    );
    assert_eq!(t[1800], 500_000_000);
    assert!(
        t.windows(2).all(|pair| pair[0] < pair[1]),
        "T rises strictly"
    );
}
