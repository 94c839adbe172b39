//! A card: its numbers, sixteen or twenty-four by its version, clipped and worked, or the refusal's number.

use crate::numbers::{
    gain, highest, Conductance, Gain, Octave, Scaled, CURVE, RATIO_LIMIT, TICK_LIMIT,
};

/// A card as its currents need it.
#[derive(Clone, Copy, Debug, PartialEq)]
pub struct Card {
    pub sn: Scaled,
    pub bulk: Scaled,
    pub side: Scaled,
    pub nonideal: Scaled,
    pub ex: Scaled,
    pub sub: Scaled,
    pub sf: Scaled,
    pub rex: Scaled,
    pub rsub: Scaled,
    pub octave: Octave,
    pub second: Octave,
    pub exsub: bool,
    pub direct: bool,
    /// -1 for a PNP, whose voltages and currents are turned over; else 0.
    pub turn: i64,
    /// The reverse non-ideal current, where there is one.
    pub reverse: Option<Reverse>,
    pub alone: Alone,
    pub highest: Highest,
    /// The series resistors, which only a card of version 2 has.
    pub leads: Option<Leads>,
}

/// The five resistors E-E1, B-B1, C-C3, C3-C4 and C4-C1, of which the last two may be none; and whether C3 has to stand
/// where C4 does.
#[derive(Clone, Copy, Debug, PartialEq)]
pub struct Leads {
    pub g: [Conductance; 5],
    pub joined: bool,
}

/// The eighth branch: its value, its T by itself, the doubled octave and the exponential of V_Lr at it.
#[derive(Clone, Copy, Debug, PartialEq)]
pub struct Reverse {
    pub s: Scaled,
    pub alone: i64,
    pub octave: Octave,
    pub knee: Gain,
}

/// T of values by themselves.
#[derive(Clone, Copy, Debug, PartialEq)]
pub struct Alone {
    pub bulk: i64,
    pub side: i64,
    pub nonideal: i64,
    pub ex: i64,
    pub sub: i64,
    pub sf: i64,
}

/// The highest positions without an overload, for each voltage of the rows.
#[derive(Clone, Copy, Debug, PartialEq)]
pub struct Highest {
    pub b2e1: i64,
    pub b2c2: i64,
    pub b1e1: i64,
    pub second: i64,
    pub b1c4: i64,
    pub sc1: i64,
    pub sc4: i64,
}

pub struct Clipped {
    /// As many as the record has; the others are 0.
    pub numbers: [f64; WORDS],
    pub width: usize,
    pub mask: u32,
}

#[derive(Clone, Copy)]
enum Rule {
    Free,
    AtLeast(f64),
    Between(f64, f64),
}

/// The words of the widest record.
const WORDS: usize = 24;

const RULES: [Rule; WORDS] = [
    Rule::AtLeast(0.0),
    Rule::AtLeast(0.0),
    Rule::AtLeast(1e-12),
    Rule::AtLeast(1e-4),
    Rule::Between(0.0, 1.0),
    Rule::AtLeast(0.0),
    Rule::AtLeast(0.1),
    Rule::AtLeast(1e-10),
    Rule::AtLeast(0.0),
    Rule::Free,
    Rule::AtLeast(1e-12),
    Rule::AtLeast(0.0),
    Rule::AtLeast(0.0),
    Rule::Between(0.0, 1.0),
    Rule::Free,
    Rule::Free,
    Rule::AtLeast(0.0),
    Rule::Free,
    Rule::AtLeast(0.001),
    Rule::AtLeast(0.001),
    Rule::AtLeast(0.001),
    Rule::Free,
    Rule::Free,
    Rule::Free,
];

pub fn clip(record: &[u8]) -> Result<Clipped, u32> {
    if record.len() != 128 && record.len() != 192 {
        return Err(1);
    }
    let width = record.len() / 8;
    let mut numbers = [0f64; WORDS];
    for (x, bytes) in numbers.iter_mut().zip(record.chunks(8)) {
        *x = f64::from_bits(u64::from_le_bytes(bytes.try_into().unwrap()));
        if !x.is_finite() {
            return Err(6);
        }
    }
    let mut mask = 0;
    for (i, x) in numbers[..width].iter_mut().enumerate() {
        let before = *x;
        let after = match RULES[i] {
            Rule::Free => before,
            Rule::AtLeast(low) => before.max(low),
            Rule::Between(low, high) => before.max(low).min(high),
        };
        if before != after {
            mask |= 1 << i;
        }
        *x = if after == 0.0 { 0.0 } else { after };
    }
    Ok(Clipped {
        numbers,
        width,
        mask,
    })
}

/// A finite number that is not negative, as a * 2^b.
fn cut(x: f64) -> (u64, i64) {
    if x == 0.0 {
        return (0, 0);
    }
    let bits = x.to_bits();
    let field = (bits >> 52) as i64;
    let low = bits & ((1 << 52) - 1);
    let (mut f, mut k) = if field == 0 {
        (low, -1074)
    } else {
        (low | 1 << 52, field - 1075)
    };
    while f < 1 << 52 {
        f *= 2;
        k -= 1;
    }
    (f >> 22, k + 22)
}

/// The same for its product with m * 2^n in units of 2^-(30 + places).
fn scaled(x: f64, places: i64, limit: i64) -> Scaled {
    let (a, b) = cut(x);
    let shift = if a == 0 { 0 } else { -(b + places) };
    Scaled { a, shift, limit }
}

/// The same for its product with microvolts in ticks.
fn conductance(x: f64) -> Conductance {
    let (a, b) = cut(x);
    Conductance { a, down: -(b + 50) }
}

/// In ticks of 2^-50.
fn current(x: f64) -> Scaled {
    scaled(x, 20, TICK_LIMIT)
}

/// In parts of 2^-20.
fn ratio(x: f64) -> Scaled {
    scaled(x, -10, RATIO_LIMIT)
}

pub fn judge(record: &[u8]) -> Result<Card, u32> {
    let Clipped {
        numbers: x, width, ..
    } = clip(record)?;
    if x[15] != 504.0 {
        return Err(7);
    }
    if x[13] != 0.0 && x[13] != 1.0 {
        return Err(8);
    }
    if width == WORDS && (x[21].abs() != 1.0 || record[176..].iter().any(|b| *b != 0)) {
        return Err(8);
    }
    if x[9] < 0.0 {
        return Err(19);
    }
    if x[14].fract() != 0.0 || x[14] < 10_000_000.0 || x[14] > 50_000_000.0 {
        return Err(9);
    }
    let [
        mult, is, ik, bf, xi, ibf, mlf, bri, iss, icss, iks, rcblx, rcbli, exsub, octave, _, ibr, vlr, re, rbc, rcc, ..
    ] = x;
    let sn = is * mult;
    let bulk = ((1.0 - xi) * sn) / bf;
    let side = (xi * sn) / bf;
    let nonideal = ibf * mult;
    let ex = sn / bri;
    let sub = iss * mult;
    let sf = icss * mult;
    let rex = (4.0 * is) / ik;
    let rsub = (4.0 * is) / iks;
    let product = mlf * octave;
    let s = ibr * mult;
    let wide = width == WORDS;
    // the conductance of a resistor; 0 stands for the one that there is not
    let leads = [re, rbc, rcc, rcblx, rcbli].map(|r| {
        if wide && r != 0.0 {
            mult / (r * 1_000_000.0)
        } else {
            0.0
        }
    });
    let all = [sn, bulk, side, nonideal, ex, sub, sf, rex, rsub, product, s];
    if all.iter().chain(&leads).any(|v| !v.is_finite()) || product.trunc() > 1e9 || vlr.abs() > 5.0
    {
        return Err(10);
    }
    let exsub = exsub == 1.0;
    let [sn, bulk, side, nonideal, ex, sub, sf, s] =
        [sn, bulk, side, nonideal, ex, sub, sf, s].map(current);
    let [rex, rsub] = [rex, rsub].map(ratio);
    let mut highest = Highest {
        b2e1: highest(&[sn, bulk, rex]),
        b2c2: highest(&[sn, rex]),
        b1e1: highest(&[side]),
        second: highest(&[nonideal]),
        b1c4: highest(&[ex, sub, rex, rsub, s]),
        sc1: highest(&[sf]),
        sc4: highest(&[sub]),
    };
    let mut alone = |v: Scaled, counts: bool| {
        v.alone().unwrap_or_else(|| {
            if counts {
                highest.b2e1 = -(1 << 40); // no voltage is low enough
            }
            0
        })
    };
    let s_alone = alone(s, true);
    let alone = Alone {
        bulk: alone(bulk, true),
        side: alone(side, true),
        nonideal: alone(nonideal, true),
        ex: alone(ex, true),
        sub: alone(sub, !exsub),
        sf: alone(sf, true),
    };
    let doubled = Octave::of(2 * octave as i64);
    let reverse = (s.a > 0).then(|| Reverse {
        s,
        alone: s_alone,
        octave: doubled,
        knee: gain(&CURVE, (vlr * 1_000_000.0) as i64, doubled),
    });
    Ok(Card {
        sn,
        bulk,
        side,
        nonideal,
        ex,
        sub,
        sf,
        rex,
        rsub,
        octave: Octave::of(octave as i64),
        second: Octave::of(product as i64),
        exsub,
        direct: rcbli == 0.0,
        turn: if width == WORDS && x[21] < 0.0 { -1 } else { 0 },
        reverse,
        alone,
        highest,
        leads: wide.then(|| Leads {
            g: leads.map(conductance),
            joined: rcblx == 0.0,
        }),
    })
}
