//! The board, changed in place: each transistor's currents are held and each node knows who names it, so that a call
//! works only what it changes. Voltages and totals stand in two slices that the caller lends, whatever they hold.

use crate::card::{judge, Card};
use crate::currents::{by_role, currents, overload, Currents, ENDS, NARROW, ROLES};
use crate::library::well_formed;
use crate::numbers::{Curve, CURVE};

pub const NODES: usize = 32;
const CARDS: usize = 16;
const PLACES: usize = 64;
const LAST_ISSUE: i64 = 65_535;

/// A transistor that overloads, and by what; the least is told.
#[derive(Clone, Copy, Debug, PartialEq, Eq, PartialOrd, Ord)]
pub struct Fault {
    pub issue: i64,
    pub branch: u32,
    pub number: u32,
}

#[derive(Debug)]
pub enum Refused {
    Number(u32),
    Fault(Fault),
}

impl From<u32> for Refused {
    fn from(number: u32) -> Self {
        Refused::Number(number)
    }
}

struct Held {
    issue: i64,
    name: Vec<u8>,
    card: Card,
    /// How many transistors stand on it.
    standing: usize,
}

#[derive(Clone, Copy)]
struct Standing {
    /// The place of its card.
    card: u8,
    nodes: [u8; ROLES],
}

const NOWHERE: Standing = Standing {
    card: 0,
    nodes: [0; ROLES],
};

pub struct Board {
    curve: Curve,
    cards: [Option<Held>; CARDS],
    /// The transistors' issue numbers; 0 at a free place.
    issues: [i64; PLACES],
    standing: [Standing; PLACES],
    currents: [Currents; PLACES],
    /// The currents that a move works, until it is known to be good.
    worked_out: [Currents; PLACES],
    /// The places that are taken, and for each node those of the transistors that name it.
    taken: u64,
    naming: [u64; NODES],
    next: i64,
}

/// The two lent slices: microvolts and ticks of the 32 nodes.
pub struct Lent<'a> {
    pub volts: &'a mut [i64],
    pub totals: &'a mut [i64],
}

/// What a call brings to the nodes and what it takes away, kept apart: their difference may leave 64 bits.
struct Change {
    coming: [i64; NODES],
    going: [i64; NODES],
}

const NO_CHANGE: Change = Change {
    coming: [0; NODES],
    going: [0; NODES],
};

impl Change {
    /// The totals as they would stand; 10 where one would leave 64 bits.
    #[inline]
    fn stand(&self, totals: &[i64; NODES]) -> Result<[i64; NODES], u32> {
        let mut next = *totals;
        for (n, t) in next.iter_mut().enumerate() {
            let exact = *t as i128 + self.coming[n] as i128 - self.going[n] as i128;
            *t = exact.try_into().map_err(|_| 10u32)?;
        }
        Ok(next)
    }
}

#[inline]
fn in_range(microvolts: i64) -> bool {
    (-2_500_000..=2_500_000).contains(&microvolts)
}

/// 13 for slices of another length or a voltage outside its range.
#[inline]
fn tested(volts: &[i64], totals: &[i64]) -> Result<([i64; NODES], [i64; NODES]), u32> {
    let volts: [i64; NODES] = volts.try_into().map_err(|_| 13u32)?;
    let totals = totals.try_into().map_err(|_| 13u32)?;
    if volts.iter().all(|v| in_range(*v)) {
        Ok((volts, totals))
    } else {
        Err(13)
    }
}

/// The places of a set, lowest first.
struct Members(u64);

impl Iterator for Members {
    type Item = usize;

    #[inline]
    fn next(&mut self) -> Option<usize> {
        if self.0 == 0 {
            return None;
        }
        let place = self.0.trailing_zeros() as usize;
        self.0 &= self.0 - 1;
        Some(place)
    }
}

#[inline]
fn node(n: i64) -> Result<usize, u32> {
    if (0..NODES as i64).contains(&n) {
        Ok(n as usize)
    } else {
        Err(13)
    }
}

/// Adds a transistor's currents to the totals of its nodes.
#[inline]
fn add(totals: &mut [i64; NODES], nodes: &[u8; ROLES], i: Currents) {
    for (n, gives) in nodes.iter().zip(by_role(i)) {
        totals[*n as usize % NODES] += gives;
    }
}

impl Board {
    /// Fills the slices; 13 where one has another length.
    pub fn fresh(lent: Lent) -> Result<Self, u32> {
        if lent.volts.len() != NODES || lent.totals.len() != NODES {
            return Err(13);
        }
        lent.volts.fill(0);
        lent.totals.fill(0);
        Ok(Board {
            curve: *CURVE,
            cards: [const { None }; CARDS],
            issues: [0; PLACES],
            standing: [NOWHERE; PLACES],
            currents: [[0; 13]; PLACES],
            worked_out: [[0; 13]; PLACES],
            taken: 0,
            naming: [0; NODES],
            next: 1,
        })
    }

    fn held(&self, issue: i64) -> Option<usize> {
        let is_it = |c: &Option<Held>| c.as_ref().is_some_and(|c| c.issue == issue);
        self.cards.iter().position(is_it)
    }

    pub fn load(&mut self, name: &[u8], record: &[u8]) -> Result<i64, u32> {
        if record.len() != 128 && record.len() != 192 {
            return Err(1);
        }
        if !well_formed(name) {
            return Err(2);
        }
        let card = judge(record)?;
        let free = self.cards.iter().position(Option::is_none).ok_or(11u32)?;
        if self.next > LAST_ISSUE {
            return Err(17);
        }
        let issue = self.next;
        self.next += 1;
        self.cards[free] = Some(Held {
            issue,
            name: name.to_vec(),
            card,
            standing: 0,
        });
        Ok(issue)
    }

    /// The currents that the transistor at a place would have, or nothing where it would overload.
    #[inline(always)]
    fn worked(&self, t: &Standing, volts: &[i64; NODES]) -> Option<Currents> {
        let card = &self.cards[t.card as usize % CARDS].as_ref()?.card;
        let volts = t.nodes.map(|n| volts[n as usize % NODES]);
        currents(&self.curve, card, &volts)
    }

    /// By what a transistor overloads at these voltages, if it does.
    #[cold]
    fn fault(&self, t: &Standing, issue: i64, volts: &[i64; NODES]) -> Option<Fault> {
        let card = &self.cards[t.card as usize % CARDS].as_ref()?.card;
        let volts = t.nodes.map(|n| volts[n as usize % NODES]);
        let (branch, number) = overload(&self.curve, card, &volts)?;
        Some(Fault {
            issue,
            branch,
            number,
        })
    }

    /// The least fault among the transistors at these places.
    #[cold]
    fn least_fault(&self, places: u64, volts: &[i64; NODES]) -> Refused {
        Members(places)
            .filter_map(|p| self.fault(&self.standing[p], self.issues[p], volts))
            .min()
            .map_or(Refused::Number(0), Refused::Fault)
    }

    pub fn place(&mut self, lent: Lent, card: i64, nodes: &[i64; ROLES]) -> Result<i64, Refused> {
        let (volts, totals) = tested(lent.volts, lent.totals)?;
        let at = self.held(card).ok_or(12u32)?;
        let mut t = NOWHERE;
        t.card = at as u8;
        let held = self.cards[at].as_ref().map(|c| &c.card);
        let leads = held.and_then(|c| c.leads);
        let roles = if leads.is_some() { ROLES } else { NARROW };
        for (to, n) in t.nodes.iter_mut().zip(&nodes[..roles]) {
            *to = node(*n)? as u8;
        }
        if held.is_some_and(|c| c.direct) && t.nodes[5] != t.nodes[3] {
            return Err(14.into());
        }
        match leads {
            // a role that the card has not stands where one that it has does
            None => {
                let first = t.nodes[0];
                t.nodes[NARROW..].fill(first);
            }
            Some(l) if l.joined && t.nodes[10] != t.nodes[5] => return Err(14.into()),
            Some(_) => {}
        }
        if self.taken == u64::MAX {
            return Err(11.into());
        }
        if self.next > LAST_ISSUE {
            return Err(17.into());
        }
        let Some(i) = self.worked(&t, &volts) else {
            return Err(self
                .fault(&t, self.next, &volts)
                .map_or(Refused::Number(0), Refused::Fault));
        };
        let mut change = NO_CHANGE;
        add(&mut change.coming, &t.nodes, i);
        lent.totals.copy_from_slice(&change.stand(&totals)?);
        let place = (!self.taken).trailing_zeros() as usize;
        self.taken |= 1 << place;
        for n in t.nodes {
            self.naming[n as usize % NODES] |= 1 << place;
        }
        self.issues[place] = self.next;
        self.standing[place] = t;
        self.currents[place] = i;
        if let Some(c) = &mut self.cards[at] {
            c.standing += 1;
        }
        self.next += 1;
        Ok(self.issues[place])
    }

    pub fn shift(&mut self, lent: Lent, n: i64, microvolts: i64) -> Result<(), Refused> {
        let (mut volts, totals) = tested(lent.volts, lent.totals)?;
        let n = node(n)?;
        if !in_range(microvolts) {
            return Err(13.into());
        }
        volts[n] = microvolts;
        self.settle(self.naming[n], &volts, &totals, lent)
    }

    /// Nodes moved together, by a list of a node, its microvolts, a node and so on; each transistor is worked once.
    pub fn shift_all(&mut self, lent: Lent, pairs: &[i64]) -> Result<(), Refused> {
        let (mut volts, totals) = tested(lent.volts, lent.totals)?;
        if pairs.len() % 2 != 0 || pairs.is_empty() || pairs.len() > 2 * NODES {
            return Err(1.into());
        }
        for p in pairs.chunks_exact(2) {
            node(p[0])?;
            if !in_range(p[1]) {
                return Err(13.into());
            }
        }
        let mut places = 0;
        for p in pairs.chunks_exact(2) {
            let n = p[0] as usize % NODES;
            volts[n] = p[1];
            places |= self.naming[n];
        }
        self.settle(places, &volts, &totals, lent)
    }

    /// Works the transistors at these places at new voltages, judges them and the totals, and writes last.
    #[inline(always)]
    fn settle(
        &mut self,
        places: u64,
        volts: &[i64; NODES],
        totals: &[i64; NODES],
        lent: Lent,
    ) -> Result<(), Refused> {
        let mut change = NO_CHANGE;
        for place in Members(places) {
            let Some(i) = self.worked(&self.standing[place], volts) else {
                return Err(self.least_fault(places, volts));
            };
            let nodes = &self.standing[place].nodes;
            add(&mut change.going, nodes, self.currents[place]);
            add(&mut change.coming, nodes, i);
            self.worked_out[place] = i;
        }
        lent.totals.copy_from_slice(&change.stand(totals)?);
        lent.volts.copy_from_slice(volts);
        for place in Members(places) {
            self.currents[place] = self.worked_out[place];
        }
        Ok(())
    }

    /// The place of a transistor.
    fn place_of(&self, issue: i64) -> Result<usize, u32> {
        if issue < 1 {
            return Err(12);
        }
        let is_it = |i: &i64| *i == issue;
        self.issues.iter().position(is_it).ok_or(12)
    }

    pub fn lift(&mut self, lent: Lent, issue: i64) -> Result<(), u32> {
        let (_, totals) = tested(lent.volts, lent.totals)?;
        let place = self.place_of(issue)?;
        let t = self.standing[place];
        let mut change = NO_CHANGE;
        add(&mut change.going, &t.nodes, self.currents[place]);
        lent.totals.copy_from_slice(&change.stand(&totals)?);
        self.taken &= !(1 << place);
        for n in t.nodes {
            self.naming[n as usize % NODES] &= !(1 << place);
        }
        self.issues[place] = 0;
        if let Some(c) = &mut self.cards[t.card as usize % CARDS] {
            c.standing -= 1;
        }
        Ok(())
    }

    pub fn withdraw(&mut self, issue: i64) -> Result<(), u32> {
        let at = self.held(issue).ok_or(12u32)?;
        if self.cards[at].as_ref().is_some_and(|c| c.standing > 0) {
            return Err(16);
        }
        self.cards[at] = None;
        Ok(())
    }

    pub fn look_up(&self, name: &[u8]) -> Result<i64, u32> {
        if !well_formed(name) {
            return Err(2);
        }
        let of_name = self.cards.iter().flatten().filter(|c| c.name == name);
        of_name.map(|c| c.issue).max().ok_or(4)
    }

    /// The held currents of a transistor, branch by branch.
    pub fn currents_of(&self, issue: i64) -> Result<Currents, u32> {
        Ok(self.currents[self.place_of(issue)?])
    }

    /// The issue numbers of the transistors that name a node, in rising order.
    pub fn who(&self, n: i64) -> Result<Vec<i64>, u32> {
        let mut issues: Vec<i64> = Members(self.naming[node(n)?])
            .map(|p| self.issues[p])
            .collect();
        issues.sort_unstable();
        Ok(issues)
    }

    /// How many transistors name a node, on how many cards, and the largest size of a branch that starts or ends there.
    pub fn sum(&self, n: i64) -> Result<(usize, usize, u64), u32> {
        let n = node(n)?;
        let card = |p: usize| self.cards[self.standing[p].card as usize % CARDS].as_ref();
        let mut cards: Vec<i64> = Members(self.naming[n])
            .filter_map(|p| Some(card(p)?.issue))
            .collect();
        let transistors = cards.len();
        cards.sort_unstable();
        cards.dedup();
        let largest = Members(self.naming[n])
            .flat_map(|p| {
                let on = self.standing[p].nodes.map(|m| m as usize == n);
                let ends = ENDS.iter().zip(self.currents[p]);
                ends.filter_map(move |(&(from, to), i)| {
                    (on[from] || on[to]).then_some(i.unsigned_abs())
                })
            })
            .max();
        Ok((transistors, cards.len(), largest.unwrap_or(0)))
    }

    /// A node's voltage and total. It reads nothing of the board.
    pub fn node(volts: &[i64], totals: &[i64], n: i64) -> Result<(i64, i64), u32> {
        let (volts, totals) = tested(volts, totals)?;
        let n = node(n)?;
        Ok((volts[n], totals[n]))
    }
}
