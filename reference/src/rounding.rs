//! The two roundings of document 01, for divisors from 1 up.

/// The units of one whole (a metre, a metre per second): s in document 01.
pub const SCALE: i64 = 1 << 24;

/// The same number as a size.
pub const SCALE_SIZE: u64 = SCALE as u64;

/// The whole number nearest to `n ÷ d`, a half going away from zero.
#[inline]
pub fn near(n: i64, d: i64) -> i64 {
    let nearest = (n.abs() + d / 2) / d;
    if n < 0 { -nearest } else { nearest }
}

/// The least whole number not below `n ÷ d`.
#[inline]
pub fn up(n: u64, d: u64) -> u64 {
    n / d + u64::from(n % d > 0)
}

#[cfg(test)]
mod tests {
    use super::*;

    #[test]
    fn case_i() {
        assert_eq!(near(3, 2), 2);
        assert_eq!(near(-3, 2), -2);
        assert_eq!(near(-1, 2), -1);
        assert_eq!(near(5, 4), 1);
        assert_eq!(up(1, 2), 1);
        assert_eq!(up(0, 7), 0);
    }

    /// `near` and `up` meet their wording for small numerators and divisors, odd and even.
    #[test]
    fn roundings_meet_their_wording() {
        for d in 1..=9_i64 {
            for n in -40..=40_i64 {
                let twice_off = 2 * (near(n, d) * d - n).abs();
                assert!(twice_off <= d);
                if twice_off == d {
                    assert!((near(n, d) * d).abs() > n.abs());
                }
                if n >= 0 {
                    let least = up(n as u64, d as u64) as i64;
                    assert!(least * d >= n && (least - 1) * d < n);
                }
            }
        }
    }
}
