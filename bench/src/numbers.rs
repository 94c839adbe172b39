//! Whole-number arithmetic of the desk, written from its rules alone: the octave's table, positions, roots and
//! quotients.

const POINTS: usize = 256;
const STEPS: u64 = 256;
pub const TICK_LIMIT: i64 = 1 << 53;
pub const RATIO_LIMIT: i64 = 1 << 40;

/// The table of the exponential over one octave: a guess, and its rule with long multiplication.
fn table() -> [u64; POINTS + 1] {
    std::array::from_fn(|j| {
        // the greatest t with t^256 <= 2^(7680 + j)
        let mut t = (30.0 + j as f64 / POINTS as f64).exp2() as u64;
        while !power256_at_most(t, 7680 + j) {
            t -= 1;
        }
        while power256_at_most(t + 1, 7680 + j) {
            t += 1;
        }
        t
    })
}

/// Whether x^256 <= 2^bits, exactly.
fn power256_at_most(x: u64, bits: usize) -> bool {
    let mut p = vec![x as u32, (x >> 32) as u32];
    for _ in 0..8 {
        p = multiply(&p, &p);
    }
    let mut limit = vec![0u32; bits / 32 + 1];
    limit[bits / 32] = 1 << (bits % 32);
    compare(&p, &limit) != std::cmp::Ordering::Greater
}

fn multiply(a: &[u32], b: &[u32]) -> Vec<u32> {
    let mut r = vec![0u32; a.len() + b.len()];
    for (i, &x) in a.iter().enumerate() {
        let mut carry = 0u64;
        for (j, &y) in b.iter().enumerate() {
            let s = r[i + j] as u64 + x as u64 * y as u64 + carry;
            r[i + j] = s as u32;
            carry = s >> 32;
        }
        r[i + b.len()] = carry as u32;
    }
    while r.len() > 1 && r[r.len() - 1] == 0 {
        r.pop();
    }
    r
}

fn compare(a: &[u32], b: &[u32]) -> std::cmp::Ordering {
    a.len()
        .cmp(&b.len())
        .then_with(|| a.iter().rev().cmp(b.iter().rev()))
}

/// A point of the table beside the step to the next, so that one load serves both.
#[derive(Clone, Copy)]
pub struct Point {
    low: u32,
    step: u32,
}

pub type Curve = [Point; POINTS];

/// The table as the exponential reads it, worked once.
pub static CURVE: std::sync::LazyLock<Curve> = std::sync::LazyLock::new(|| {
    let t = table();
    std::array::from_fn(|j| Point {
        low: t[j] as u32,
        step: (t[j + 1] - t[j]) as u32,
    })
});

/// An octave made ready for positions: 65,536,000 * 2^56 / octave, rounded upward. Octaves are from 10^6 to 10^9
/// nanovolts, so it is below 2^63.
#[derive(Clone, Copy, Debug, PartialEq)]
pub struct Octave(i64);

impl Octave {
    pub fn of(nanovolts: i64) -> Self {
        Octave((65_536_000u128 << 56).div_ceil(nanovolts as u128) as i64)
    }

    /// floor(microvolts * 65,536,000 / octave), for up to 5 * 10^6 microvolts of either sign.
    ///
    /// The product's upper word has 32 places after the point. The rounding of the factor moves it by less than 0.3,
    /// and its own floor by less than 1. With 2 added it is above the true quotient by less than 2.3 / 2^32, and that
    /// is less than 10^-9, as near as a quotient can come to the next whole number from below.
    #[inline(always)]
    fn position(self, microvolts: i64) -> i64 {
        let product = (microvolts << 40) as i128 * self.0 as i128;
        ((product >> 64) as i64 + 2) >> 32
    }
}

/// G(V) = m * 2^(n - 30) at the position p of V.
#[derive(Clone, Copy, Debug, PartialEq)]
pub struct Gain {
    pub m: u64,
    pub n: i64,
    pub p: i64,
}

/// The exponential at a position.
#[inline(always)]
fn gain_at(curve: &Curve, p: i64) -> Gain {
    let f = p as u64 & 0xffff;
    let point = curve[(f / STEPS) as usize];
    let m = point.low as u64 + ((point.step as u64 * (f % STEPS)) >> 8);
    Gain { m, n: p >> 16, p }
}

/// The exponential of a voltage in microvolts.
#[inline(always)]
pub fn gain(curve: &Curve, microvolts: i64, octave: Octave) -> Gain {
    gain_at(curve, octave.position(microvolts))
}

/// A value a * 2^b with the scale and the limit of its use: floor(a * m * 2^(n - shift)) of a gain is to be at most
/// the limit.
#[derive(Clone, Copy, Debug, PartialEq)]
pub struct Scaled {
    pub a: u64,
    pub shift: i64,
    pub limit: i64,
}

impl Scaled {
    /// The floor, where it is within the limit. Since a * m is 0 or from 2^60 to 2^62, a shift above 63 gives 0 as 63
    /// does, and one below 0 is past every limit.
    #[inline(always)]
    pub fn floor(self, g: Gain) -> i64 {
        ((self.a * g.m) >> ((self.shift - g.n) as u64).min(63)) as i64
    }

    pub fn within(self, g: Gain) -> bool {
        self.a == 0 || (self.shift >= g.n && self.floor(g) <= self.limit)
    }

    /// The floor of the value by itself.
    pub fn alone(self) -> Option<i64> {
        let g = gain_at(&CURVE, 0);
        self.within(g).then(|| self.floor(g))
    }
}

/// A conductance in amperes for a microvolt: a * 2^b as the other values are cut, for its product with microvolts.
#[derive(Clone, Copy, Debug, PartialEq)]
pub struct Conductance {
    pub a: u64,
    pub down: i64,
}

impl Conductance {
    /// The sign of the voltage times floor(g * |V|) in ticks, where that is at most 2^53 in size. The product is below
    /// 2^54, so that a shift above 63 gives 0 as 63 does.
    #[inline(always)]
    pub fn through(self, microvolts: i64) -> Option<i64> {
        let product = self.a * microvolts.unsigned_abs();
        let size = if self.down >= 0 {
            product >> self.down.min(63)
        } else if product == 0 {
            0
        } else if self.down > -54 && product <= (TICK_LIMIT as u64) >> -self.down {
            product << -self.down
        } else {
            return None;
        };
        if size > TICK_LIMIT as u64 {
            return None;
        }
        Some(if microvolts < 0 {
            -(size as i64)
        } else {
            size as i64
        })
    }
}

/// The highest position at which all values are within their limits: the gain grows with the position, so they are at
/// every lower one too, and one comparison judges them all.
pub fn highest(values: &[Scaled]) -> i64 {
    // no position is as far out as these
    let (mut low, mut high) = (-(1 << 29), 1 << 29);
    while high - low > 1 {
        let middle = (low + high) / 2;
        if values.iter().all(|v| v.within(gain_at(&CURVE, middle))) {
            low = middle;
        } else {
            high = middle;
        }
    }
    low
}

/// The greatest whole number whose square is at most x, for x below 2^62. The guess is never too low: as an f64 a
/// square moves its root by less than half of what parts two numbers there, so a square's guess is its root.
#[inline]
pub fn root(x: u64) -> u64 {
    let r = (x as f64).sqrt() as u64;
    r - (r * r > x) as u64
}

/// The most that a divisor of two exponentials may be.
pub const SUM_LIMIT: u64 = 1 << 43;

/// floor(2^20 * (G + H)), exactly, where it is neither 0 nor above its limit.
#[inline]
pub fn sum_of(g: Gain, h: Gain) -> Option<u64> {
    let (low, high) = if g.n < h.n { (g, h) } else { (h, g) };
    if high.n > 23 {
        return None;
    }
    let apart = high.n - low.n;
    // the lower one counts, at most, in the place below which the higher one has nothing
    let sum = if apart > 64 {
        (high.m as u128) << 64 | 1
    } else {
        ((high.m as u128) << 64) + ((low.m as u128) << (64 - apart))
    };
    let down = 64 + 10 - high.n;
    let y = if down > 127 { 0 } else { (sum >> down) as u64 };
    (1..=SUM_LIMIT).contains(&y).then_some(y)
}

/// n * 2^20 / y toward zero, where it is at most 2^53 in size, for n up to 2^54 in size.
#[inline]
pub fn over_sum(n: i64, y: u64) -> Option<i64> {
    let size = n.unsigned_abs();
    let q = if size < 1 << 44 {
        (size << 20) / y
    } else {
        u64::try_from(((size as u128) << 20) / y as u128).unwrap_or(u64::MAX)
    };
    if q > TICK_LIMIT as u64 {
        return None;
    }
    Some(if n < 0 { -(q as i64) } else { q as i64 })
}

/// n * 2^21 / d toward zero, for n up to 2^54 in size and d below 2^42.
#[inline]
pub fn quotient(n: i64, d: u64) -> i64 {
    let size = n.unsigned_abs();
    let q = if size < 1 << 43 {
        (size << 21) / d
    } else {
        ((size / d) << 21) + ((size % d) << 21) / d
    };
    if n < 0 {
        -(q as i64)
    } else {
        q as i64
    }
}

#[cfg(test)]
mod tests {
    use super::*;

    #[test]
    fn the_table_has_the_ends_and_the_middle() {
        let t = table();
        assert_eq!((t[0], t[128], t[256]), (1 << 30, 1_518_500_249, 1 << 31));
    }

    #[test]
    fn positions_are_floors_of_quotients() {
        let ends = [1_000_000, 1_000_001, 999_999_999, 1_000_000_000];
        let between = (0..200).map(|i| 1_000_003 + i * 4_999_937);
        // those that divide the product leave nothing over, where a floor is missed first
        let dividing = [1_024_000, 16_384_000, 32_768_000, 65_536_000, 512_000_000];
        for w in ends.into_iter().chain(between).chain(dividing) {
            let octave = Octave::of(w);
            for i in 0..=100_000 {
                let v = i * 100 - 5_000_000 + w % 100 * i64::from(i < 100_000);
                let floor = (v * 65_536_000).div_euclid(w);
                assert_eq!(octave.position(v), floor, "{v} {w}");
            }
        }
    }

    #[test]
    fn roots_are_floors() {
        for i in 0..1_000_000u64 {
            for r in [i + 1, (i * 2147 + 1) % (1 << 31) + 1, (1 << 31) - 1 - i] {
                assert_eq!(root(r * r), r);
                assert_eq!(root(r * r - 1), r - 1);
                assert_eq!(root(r * r + 2 * r), r);
            }
        }
    }

    #[test]
    fn quotients_go_toward_zero() {
        for i in 0..100_000i64 {
            for n in [i, i << 26, (1 << 53) - i, (1 << 43) - 50_000 + i] {
                let d = (1 << 21) + (i as u64) * 10_007;
                let q = (n as i128 * (1 << 21) / d as i128) as i64;
                assert_eq!((quotient(n, d), quotient(-n, d)), (q, -q), "{n} {d}");
            }
        }
    }
}
