//! The two programs' text, worked from the rules: what `listing` and `desk` write.

use crate::board::{Board, Lent, Refused, NODES};
use crate::card::{clip, judge};
use crate::currents::ROLES;
use crate::library;
use crate::lines;
use std::fmt::Write;

pub const LONGEST: usize = 16 + 208 * 256;

pub fn listing(input: &[u8]) -> Vec<u8> {
    let (words, n) = match library::count(input) {
        Ok(found) => found,
        Err(k) => return format!("refused {k}\n").into_bytes(),
    };
    let mut out = format!("cards {n}\n").into_bytes();
    for i in 0..n {
        let name = &input[16 + 16 * i..32 + 16 * i];
        let record = &input[16 + 16 * n + 8 * words * i..][..8 * words];
        let (mask, refusal) = match judge(record) {
            Ok(_) => (clip(record).map_or(0, |c| c.mask), 0),
            Err(k) => (0, k),
        };
        out.extend(name.iter().take_while(|&&b| b != 0));
        let digits = words / 4;
        out.extend(format!(" {mask:0digits$x} {refusal}\n").bytes());
    }
    out
}

fn amperes(ticks: i64) -> String {
    let pico = (ticks.unsigned_abs() as u128 * 1_000_000_000_000) >> 50;
    let sign = if ticks < 0 && pico != 0 { "-" } else { "" };
    format!(
        "{sign}{}.{:012}",
        pico / 1_000_000_000_000,
        pico % 1_000_000_000_000
    )
}

/// A number of the protocol; one beyond 64 bits becomes an end of the range, which every call refuses.
fn number(word: &[u8]) -> Option<i64> {
    let exact = whole(word)?;
    Some(exact.clamp(i64::MIN as i128, i64::MAX as i128) as i64)
}

/// A number that 64 bits hold.
fn within(word: &[u8]) -> Option<i64> {
    whole(word)?.try_into().ok()
}

/// A number of the protocol; one far beyond 64 bits becomes another that is beyond them on the same side.
fn whole(word: &[u8]) -> Option<i128> {
    let (minus, digits) = match word.split_first() {
        Some((b'-', rest)) => (true, rest),
        _ => (false, word),
    };
    if digits.is_empty() || !digits.iter().all(u8::is_ascii_digit) {
        return None;
    }
    let mut n: i128 = 0;
    for d in digits {
        let d = (d - b'0') as i128;
        n = n.saturating_mul(10);
        n = if minus {
            n.saturating_sub(d)
        } else {
            n.saturating_add(d)
        };
    }
    Some(n)
}

fn hex(word: &[u8]) -> Option<Vec<u8>> {
    if word == b"-" {
        return Some(Vec::new());
    }
    if word.len() % 2 != 0 {
        return None;
    }
    let digit = |b: u8| (b as char).to_digit(16).map(|d| d as u8);
    word.chunks(2)
        .map(|p| Some(digit(p[0])? * 16 + digit(p[1])?))
        .collect()
}

pub struct Desk {
    board: Board,
    volts: [i64; NODES],
    totals: [i64; NODES],
    /// Whether `poke` is a command.
    pokes: bool,
    library: Vec<u8>,
    read: fn(&[u8]) -> Option<Vec<u8>>,
}

fn told<T>(r: Result<T, impl Into<Refused>>, f: impl FnOnce(T) -> String) -> String {
    match r.map_err(Into::into) {
        Ok(x) => f(x),
        Err(Refused::Number(k)) => format!("refused {k}"),
        Err(Refused::Fault(f)) => format!("refused {} {} {}", f.number, f.issue, f.branch),
    }
}

impl Desk {
    pub fn new(read: fn(&[u8]) -> Option<Vec<u8>>, pokes: bool) -> Self {
        let (mut volts, mut totals) = ([0; NODES], [0; NODES]);
        let lent = Lent {
            volts: &mut volts,
            totals: &mut totals,
        };
        let library = vec![1, 0, 0, 0, 16, 0, 0, 0, 16, 0, 0, 0, 16, 0, 0, 0];
        Desk {
            board: Board::fresh(lent).expect("slices of 32"),
            volts,
            totals,
            pokes,
            library,
            read,
        }
    }

    pub fn run(&mut self, script: &[u8]) -> Vec<u8> {
        let mut out = Vec::new();
        let mut lines: Vec<&[u8]> = script.split(|&b| b == b'\n').collect();
        if lines.last() == Some(&&b""[..]) {
            lines.pop();
        }
        for line in lines {
            if line.len() > 4096 {
                out.extend(b"error line too long\n");
                continue;
            }
            let words: Vec<&[u8]> = line
                .split(|&b| b == b' ')
                .filter(|w| !w.is_empty())
                .collect();
            if words.is_empty() || words[0][0] == b'#' {
                continue;
            }
            let answer = if words[0] == b".model" {
                Some(self.load_line(line))
            } else {
                self.obey(&words)
            };
            match answer {
                Some(answer) => out.extend(answer),
                None => {
                    out.extend(b"error ");
                    out.extend(&words[0][..words[0].len().min(32)]);
                }
            }
            out.push(b'\n');
        }
        out
    }

    fn load_line(&mut self, line: &[u8]) -> Vec<u8> {
        let loaded = lines::read(lines::trimmed(line)).and_then(|(name, words)| {
            self.board
                .load(&name, &words.map(u64::to_le_bytes).concat())
        });
        told(loaded, |i| format!("card {i}")).into_bytes()
    }

    fn record(&self, name: &[u8]) -> Result<Vec<u8>, u32> {
        library::locate(&self.library, name).map(|(at, size)| self.library[at..at + size].to_vec())
    }

    fn obey(&mut self, words: &[&[u8]]) -> Option<Vec<u8>> {
        let rest = &words[1..];
        let lent = Lent {
            volts: &mut self.volts,
            totals: &mut self.totals,
        };
        let text = match (words[0], rest.len()) {
            (b"library", 1) => match (self.read)(rest[0]) {
                None => return Some([b"error cannot read ", rest[0]].concat()),
                Some(bytes) => match library::count(&bytes) {
                    Ok((_, n)) => {
                        self.library = bytes;
                        format!("library {n}")
                    }
                    Err(k) => format!("refused {k}"),
                },
            },
            (b"find", 1) => told(library::locate(&self.library, rest[0]), |(at, _)| {
                format!("record {at}")
            }),
            (b"clip", 1) => told(self.record(rest[0]).and_then(|r| clip(&r)), |c| {
                let mut s = format!("clip {:0d$x}", c.mask, d = c.width / 4);
                for x in &c.numbers[..c.width] {
                    write!(s, " {:016x}", x.to_bits()).unwrap();
                }
                s
            }),
            (b"load", 1) => {
                let r = self.record(rest[0]);
                told(r.and_then(|r| self.board.load(rest[0], &r)), |i| {
                    format!("card {i}")
                })
            }
            (b"model", 1) => {
                let line = self.record(rest[0]).and_then(|r| lines::write(rest[0], &r));
                match line {
                    Ok(line) => return Some(line),
                    Err(k) => format!("refused {k}"),
                }
            }
            (b"record", 2) => {
                let bytes = hex(rest[1])?;
                told(self.board.load(rest[0], &bytes), |i| format!("card {i}"))
            }
            (b"place", 8 | 12) => {
                let n: Vec<i64> = rest.iter().map(|w| number(w)).collect::<Option<_>>()?;
                let mut nodes = [-1; ROLES];
                nodes[..n.len() - 1].copy_from_slice(&n[1..]);
                told(self.board.place(lent, n[0], &nodes), |i| {
                    format!("transistor {i}")
                })
            }
            (b"move", 2) => {
                let (n, v) = (number(rest[0])?, number(rest[1])?);
                told(self.board.shift(lent, n, v), |_| "moved".into())
            }
            (b"moves", n) if n % 2 == 0 => {
                let pairs: Vec<i64> = rest.iter().map(|w| number(w)).collect::<Option<_>>()?;
                told(self.board.shift_all(lent, &pairs), |_| "moved".into())
            }
            (b"lift", 1) => told(self.board.lift(lent, number(rest[0])?), |_| "lifted".into()),
            (b"withdraw", 1) => told(self.board.withdraw(number(rest[0])?), |_| {
                "withdrawn".into()
            }),
            (b"lookup", 1) => told(self.board.look_up(rest[0]), |i| format!("card {i}")),
            (b"node", 1) => {
                let n = number(rest[0])?;
                told(Board::node(&self.volts, &self.totals, n), |(v, t)| {
                    format!("node {n} {v} {t}")
                })
            }
            (b"currents", 1) => told(self.board.currents_of(number(rest[0])?), |i| {
                i.iter()
                    .fold(String::from("currents"), |s, x| format!("{s} {x}"))
            }),
            (b"who", 1) => told(self.board.who(number(rest[0])?), |issues| {
                issues
                    .iter()
                    .fold(String::from("who"), |s, i| format!("{s} {i}"))
            }),
            (b"sum", 1) => told(self.board.sum(number(rest[0])?), |(t, c, largest)| {
                format!("sum {t} {c} {largest}")
            }),
            (b"mend", 0) => {
                let mut mended = vec![0; self.library.len()];
                told(library::mend(&self.library, &mut mended), |n| {
                    self.library = mended;
                    format!("mended {n}")
                })
            }
            (b"sheet", 0) => told(Board::node(&self.volts, &self.totals, 0), |_| {
                let mut s = String::from("sheet 32");
                for (i, (v, t)) in self.volts.iter().zip(self.totals).enumerate() {
                    write!(s, "\n{i} {v} {t} {}", amperes(t)).unwrap();
                }
                s
            }),
            (b"poke", 3) if self.pokes => {
                let (n, v, t) = (within(rest[0])?, within(rest[1])?, within(rest[2])?);
                let n = usize::try_from(n).ok().filter(|n| *n < NODES)?;
                self.volts[n] = v;
                self.totals[n] = t;
                String::from("poked")
            }
            _ => return None,
        };
        Some(text.into_bytes())
    }
}
