//! The thirteen branch currents of a transistor.

use crate::card::Card;
use crate::numbers::{gain, over_sum, quotient, root, sum_of, Curve, Scaled};

/// The roles, in the order of a placing: E1, B1, B2, C1, C2, C4, S, E, B, C and C3.
pub const ROLES: usize = 11;

/// How many of them a card of version 1 has.
pub const NARROW: usize = 7;

/// Voltages of the roles, in microvolts.
pub type Volts = [i64; ROLES];

/// The currents of the branches, in ticks.
pub type Currents = [i64; 13];

/// The roles at which each branch starts and ends.
pub const ENDS: [(usize, usize); 13] = [
    (4, 0),
    (2, 0),
    (1, 0),
    (2, 0),
    (1, 5),
    (1, 6),
    (6, 3),
    (1, 5),
    (7, 0),
    (8, 1),
    (9, 10),
    (10, 5),
    (5, 3),
];

/// What a transistor gives to the totals of the nodes of its roles.
#[inline]
pub fn by_role([i1, i2, i3, i4, i5, i6, i7, i8, e, b, c, x, i]: Currents) -> [i64; ROLES] {
    [
        -i1 - i2 - i3 - i4 - e,
        i3 + i5 + i6 + i8 - b,
        i2 + i4,
        -i7 - i,
        i1,
        -i5 - i8 - x + i,
        i7 - i6,
        e,
        b,
        c,
        x - c,
    ]
}

/// The root for a ratio's floor.
#[inline]
fn share(f: i64) -> u64 {
    if f == 0 {
        return 1 << 20;
    }
    root(((1 << 20) + f as u64) << 20)
}

/// n shared out by the floors of two ratios.
#[inline]
fn shared(n: i64, f: i64, g: i64) -> i64 {
    if f | g == 0 || n == 0 {
        return n;
    }
    quotient(n, share(f) + share(g))
}

/// A number as it is where `turn` is 0, with its sign turned over where it is -1.
#[inline]
fn turned(x: i64, turn: i64) -> i64 {
    (x ^ turn) - turn
}

/// The voltages over the five resistors.
#[inline(always)]
fn drops(&[e1, b1, _, c1, _, c4, _, e, b, c, c3]: &Volts) -> [i64; 5] {
    [e - e1, b - b1, c - c3, c3 - c4, c4 - c1]
}

/// The currents, or nothing where the transistor overloads. Each exponential is worked once for the rows that share it,
/// and judged by its position alone.
#[inline(always)]
pub fn currents(curve: &Curve, c: &Card, v: &Volts) -> Option<Currents> {
    let v = &v.map(|x| turned(x, c.turn));
    let [e1, b1, b2, c1, c2, c4, s, ..] = *v;
    let b2e1 = gain(curve, b2 - e1, c.octave);
    let b2c2 = gain(curve, b2 - c2, c.octave);
    let b1e1 = gain(curve, b1 - e1, c.octave);
    let second = gain(curve, b2 - e1, c.second);
    let b1c4 = gain(curve, b1 - c4, c.octave);
    let sc1 = gain(curve, s - c1, c.octave);
    let most = &c.highest;
    // a difference is negative where a position is too high, and so is the OR of them all
    let mut room = (most.b2e1 - b2e1.p)
        | (most.b2c2 - b2c2.p)
        | (most.b1e1 - b1e1.p)
        | (most.second - second.p)
        | (most.b1c4 - b1c4.p)
        | (most.sc1 - sc1.p);
    let mut minus = c.alone.sub;
    if c.exsub {
        let sc4 = gain(curve, s - c4, c.octave);
        room |= most.sc4 - sc4.p;
        minus = c.sub.floor(sc4);
    }
    if room < 0 {
        return None;
    }
    let i8 = match &c.reverse {
        None => 0,
        Some(r) => {
            let y = sum_of(gain(curve, b1 - c4, r.octave), r.knee)?;
            over_sum(r.s.floor(b1c4) - r.alone, y)?
        }
    };
    let [i9, i10, i11, i12, i13] = match &c.leads {
        None => [0; 5],
        Some(leads) => {
            let [e, b, c, x, i] = drops(v);
            [
                leads.g[0].through(e)?,
                leads.g[1].through(b)?,
                leads.g[2].through(c)?,
                leads.g[3].through(x)?,
                leads.g[4].through(i)?,
            ]
        }
    };
    let upright = [
        shared(
            c.sn.floor(b2e1) - c.sn.floor(b2c2),
            c.rex.floor(b2e1),
            c.rex.floor(b2c2),
        ),
        c.bulk.floor(b2e1) - c.alone.bulk,
        c.side.floor(b1e1) - c.alone.side,
        c.nonideal.floor(second) - c.alone.nonideal,
        shared(c.ex.floor(b1c4) - c.alone.ex, 0, c.rex.floor(b1c4)),
        shared(c.sub.floor(b1c4) - minus, 0, c.rsub.floor(b1c4)),
        c.sf.floor(sc1) - c.alone.sf,
        i8,
        i9,
        i10,
        i11,
        i12,
        i13,
    ];
    Some(upright.map(|x| turned(x, c.turn)))
}

/// Of a transistor that overloads, the first branch that does, and by what: 15 for a T, 18 for a ratio.
#[cold]
pub fn overload(curve: &Curve, c: &Card, v: &Volts) -> Option<(u32, u32)> {
    let v = &v.map(|x| turned(x, c.turn));
    let [e1, b1, b2, c1, c2, c4, s, ..] = *v;
    let at = |x: Scaled, volts: i64| x.within(gain(curve, volts, c.octave));
    let alone = |x: Scaled| x.alone().is_some();
    let x = if c.exsub {
        at(c.sub, s - c4)
    } else {
        alone(c.sub)
    };
    let eighth = c.reverse.is_none_or(|r| {
        let y = sum_of(gain(curve, b1 - c4, r.octave), r.knee);
        let ticks = at(r.s, b1 - c4) && alone(r.s);
        ticks
            && y.is_some_and(|y| {
                over_sum(r.s.floor(gain(curve, b1 - c4, c.octave)) - r.alone, y).is_some()
            })
    });
    let rows = [
        (
            at(c.sn, b2 - e1) && at(c.sn, b2 - c2),
            at(c.rex, b2 - e1) && at(c.rex, b2 - c2),
        ),
        (at(c.bulk, b2 - e1) && alone(c.bulk), true),
        (at(c.side, b1 - e1) && alone(c.side), true),
        (
            c.nonideal.within(gain(curve, b2 - e1, c.second)) && alone(c.nonideal),
            true,
        ),
        (at(c.ex, b1 - c4) && alone(c.ex), at(c.rex, b1 - c4)),
        (at(c.sub, b1 - c4) && x, at(c.rsub, b1 - c4)),
        (at(c.sf, s - c1) && alone(c.sf), true),
        (eighth, true),
    ];
    let leads = c.leads.iter().flat_map(|l| l.g.iter().zip(drops(v)));
    let leads = leads.map(|(g, volts)| (g.through(volts).is_some(), true));
    rows.into_iter()
        .chain(leads)
        .zip(1..)
        .find_map(|((ticks, ratio), branch)| {
            if !ticks {
                Some((branch, 15))
            } else if !ratio {
                Some((branch, 18))
            } else {
                None
            }
        })
}
