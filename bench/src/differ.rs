//! A differential test: random libraries and scripts, good and damaged, through the built programs and through this
//! implementation; every other script may poke.

use crate::{lines, protocol};
use std::io::Write;
use std::process::{Command, Stdio};

/// A small generator of numbers that can be repeated.
pub struct Dice(u64);

impl Dice {
    pub fn new(seed: u64) -> Self {
        Dice(seed.wrapping_mul(0x9e37_79b9_7f4a_7c15) | 1)
    }

    fn roll(&mut self, n: u64) -> u64 {
        self.0 ^= self.0 << 13;
        self.0 ^= self.0 >> 7;
        self.0 ^= self.0 << 17;
        self.0 % n
    }

    fn one_of<'a, T>(&mut self, list: &'a [T]) -> &'a T {
        &list[self.roll(list.len() as u64) as usize]
    }
}

const PLAIN: [f64; 16] = [
    1.0,
    5.1e-18,
    12e-3,
    140.0,
    0.18,
    4.0e-16,
    2.0,
    4.0,
    9e-18,
    9e-18,
    60e-6,
    0.0,
    0.0,
    0.0,
    17_808_740.0,
    504.0,
];

/// What a record of version 2 has more: a reverse current, its knee, three leads, a polarity, and two spare words.
fn wider(d: &mut Dice) -> Vec<u8> {
    let mut x = [6e-16, 0.2, 2.0, 25.0, 10.0, 1.0, 0.0, 0.0];
    for _ in 0..d.roll(4) {
        x[d.roll(5) as usize] *= 2f64.powi(d.roll(40) as i32 - 20);
    }
    if d.roll(2) == 0 {
        x[5] = -1.0;
    }
    if d.roll(8) == 0 {
        x[d.roll(8) as usize] = *d.one_of(&[f64::NAN, -0.0, 0.0, 0.5, 6.0, 1e300, -1.0]);
    }
    x.map(f64::to_le_bytes).concat()
}

/// A record of either version, for a script.
fn either(d: &mut Dice) -> Vec<u8> {
    let mut b = record(d);
    if d.roll(2) == 0 {
        b.extend(wider(d));
    }
    b
}

/// A record: a plain card with some of its numbers moved, now and then to where they hurt.
fn record(d: &mut Dice) -> Vec<u8> {
    let mut x = PLAIN;
    for _ in 0..d.roll(5) {
        let i = d.roll(14) as usize;
        x[i] *= 2f64.powi(d.roll(40) as i32 - 20);
    }
    if d.roll(3) == 0 {
        x[13] = 1.0;
    }
    if d.roll(3) == 0 {
        x[12] = 3.0;
    }
    if d.roll(5) == 0 {
        let odd = [
            f64::NAN,
            f64::INFINITY,
            -0.0,
            5e-324,
            1e300,
            -1.0,
            0.5,
            0.0,
            1e-13,
            2.0,
            503.0,
            9_999_999.0,
            50_000_001.0,
        ];
        x[d.roll(16) as usize] = *d.one_of(&odd);
    }
    if d.roll(4) == 0 {
        x[14] = 10_000_000.0 + d.roll(40_000_001) as f64;
    }
    x.map(f64::to_le_bytes).concat()
}

fn name(d: &mut Dice) -> Vec<u8> {
    let most = if d.roll(20) == 0 { 18 } else { 4 };
    let n = 1 + d.roll(most) as usize;
    (0..n).map(|_| *d.one_of(b"abcxyz019~!_")).collect()
}

/// Up to 256 names that all fall on one mark of the desk, since their two words always have the same sum; half of the
/// time one of them stands twice.
fn crowd(d: &mut Dice) -> Vec<Vec<u8>> {
    let mut names: Vec<Vec<u8>> = (0..2 + d.roll(255) as usize)
        .map(|i| {
            let (a, b) = ((i % 16) as u8, (i / 16) as u8);
            [
                [97 + a, 97 + b, b'n', b'n'],
                [b'n'; 4],
                [112 - a, 112 - b, b'n', b'n'],
                [b'n'; 4],
            ]
            .concat()
        })
        .collect();
    if d.roll(2) == 0 {
        let (from, to) = (d.roll(names.len() as u64), d.roll(names.len() as u64));
        names[to as usize] = names[from as usize].clone();
    }
    names
}

/// A library, damaged one time in three.
fn library(d: &mut Dice) -> Vec<u8> {
    let names: Vec<Vec<u8>> = if d.roll(8) == 0 {
        crowd(d)
    } else {
        (0..d.roll(6)).map(|_| name(d)).collect()
    };
    let n = names.len();
    let mut b = vec![1, 0];
    b.extend((n as u16).to_le_bytes());
    b.extend(16u32.to_le_bytes());
    b.extend((16 + 16 * n as u32).to_le_bytes());
    b.extend((16 + 144 * n as u32).to_le_bytes());
    for x in &names {
        let mut padded = x.clone();
        padded.resize(16, 0);
        b.extend(&padded[..16]);
    }
    for _ in 0..n {
        b.extend(record(d));
    }
    if d.roll(3) == 0 {
        match d.roll(4) {
            0 => b.truncate(d.roll(b.len() as u64 + 1) as usize),
            1 => b.push(0),
            _ => {
                let at = d.roll((b.len() as u64).min(16 + 16 * n as u64)) as usize;
                b[at] = b[at].wrapping_add(1 + d.roll(255) as u8);
            }
        }
    }
    b
}

fn number(d: &mut Dice, most: u64) -> String {
    match d.roll(30) {
        0 => "-1".into(),
        1 => "99999999999999999999".into(),
        2 => "-9223372036854775808".into(),
        3 => "007".into(),
        4 => "x".into(),
        _ => d.roll(most + 1).to_string(),
    }
}

fn volts(d: &mut Dice) -> String {
    let v = *d.one_of(&[
        0, 16_000, 600_000, 650_000, 700_000, 1_500_000, 2_500_000, 2_500_001,
    ]);
    let minus = if d.roll(4) == 0 { "-" } else { "" };
    format!("{minus}{v}")
}

/// A total that a host might write: small, any, or near an end of 64 bits and now and then beyond it.
fn ticks(d: &mut Dice) -> String {
    let near = i128::from(d.roll(1 << 13)) - 64;
    match d.roll(4) {
        0 => d.roll(1 << 40).to_string(),
        1 => format!("-{}", d.roll(1 << 62)),
        2 => (i128::from(i64::MAX) - near).to_string(),
        _ => (i128::from(i64::MIN) + near).to_string(),
    }
}

/// A text that is a number of a model line, or nearly one.
fn decimal(d: &mut Dice) -> String {
    let digits = |d: &mut Dice, n: u64| (0..n).map(|_| d.roll(10).to_string()).collect::<String>();
    let (before, after) = (d.roll(9), d.roll(9));
    let mut text = String::from(*d.one_of(&["", "", "", "-"]));
    text += &digits(d, before);
    text += *d.one_of(&["", ".", "."]);
    text += &digits(d, after);
    match d.roll(4) {
        0 => text += &format!("e{}", d.roll(40)),
        1 => text += &format!("e-{}", d.roll(40)),
        2 => text += *d.one_of(&["", "e", "e+5", "e005", "E5", "x"]),
        _ => {}
    }
    text
}

/// A model line, good or nearly so.
fn model_line(d: &mut Dice) -> Vec<u8> {
    let mut line = b".model ".to_vec();
    line.extend(name(d));
    line.extend(d.one_of(&[" npn", " npn", " pnp", " PNP"]).bytes());
    for _ in 0..d.roll(9) {
        let (key, _) = d.one_of(&lines::KEYS);
        let value = match (*key, d.roll(3)) {
            ("octave", 1 | 2) => String::from("17808257"),
            ("level", 1 | 2) => String::from("504"),
            (_, 0) => decimal(d),
            _ => format!("{}e-{}", d.roll(1000), d.roll(16)),
        };
        line.extend(format!(" {key}={value}").bytes());
    }
    if d.roll(5) > 0 && !line.windows(7).any(|w| w == b"octave=") {
        line.extend(b" octave=17808257");
    }
    if d.roll(6) == 0 {
        spoil(d, &mut line);
    }
    line
}

/// A byte dropped, doubled or changed.
fn spoil(d: &mut Dice, line: &mut Vec<u8>) {
    let at = d.roll(line.len() as u64) as usize;
    match d.roll(3) {
        0 => {
            line.remove(at);
        }
        1 => line.insert(at, line[at]),
        _ => line[at] = d.roll(256) as u8,
    }
}

/// A file of model lines as a foundry would send it.
fn foundry(d: &mut Dice) -> Vec<u8> {
    let mut file = Vec::new();
    for _ in 0..d.roll(7) {
        match d.roll(6) {
            0 => file.extend(b"* a comment"),
            1 => {}
            _ => {
                let line = model_line(d);
                let cut = line.iter().rposition(|b| *b == b' ').unwrap_or(0);
                file.extend(&line[..cut]);
                file.extend(*d.one_of(&[&b"\n+"[..], b"\n+ ", b"\r\n+", b" "]));
                file.extend(line[cut..].iter().skip(1));
            }
        }
        file.extend(*d.one_of(&[&b"\n"[..], b"\r\n", b"\n\n"]));
    }
    file
}

fn script(d: &mut Dice) -> Vec<u8> {
    let mut s = Vec::new();
    let hex = |b: &[u8]| b.iter().map(|x| format!("{x:02x}")).collect::<String>();
    for _ in 0..3 {
        s.extend(
            format!(
                "record {} {}\n",
                String::from_utf8(name(d)).unwrap(),
                hex(&either(d))
            )
            .bytes(),
        );
    }
    for _ in 0..120 {
        let line = match d.roll(25) {
            22 | 23 => {
                s.extend(model_line(d));
                String::new()
            }
            24 => format!("model {}", String::from_utf8(name(d)).unwrap()),
            0 => format!(
                "record {} {}",
                String::from_utf8(name(d)).unwrap(),
                hex(&either(d))
            ),
            1 | 2 => {
                let roles = *d.one_of(&[7, 11, 11]);
                let nodes: Vec<String> = (0..roles).map(|_| number(d, 33)).collect();
                format!("place {} {}", number(d, 20), nodes.join(" "))
            }
            3 => format!("place {} 0 1 1 2 2 2 3", number(d, 6)),
            20 => format!("place {} 0 1 1 2 2 2 3 4 5 6 2", number(d, 6)),
            21 => format!("poke {} {} {}", number(d, 32), volts(d), ticks(d)),
            4..=7 => format!("move {} {}", number(d, 32), volts(d)),
            13 | 14 => {
                let most = if d.roll(8) == 0 { 70 } else { 5 };
                let mut line = String::from("moves");
                for _ in 0..d.roll(most) {
                    line += &format!(" {} {}", number(d, 32), volts(d));
                }
                if d.roll(12) == 0 {
                    line += " 1";
                }
                line
            }
            8 => format!("lift {}", number(d, 40)),
            9 => format!("withdraw {}", number(d, 8)),
            10 => format!("lookup {}", String::from_utf8(name(d)).unwrap()),
            11 => format!("node {}", number(d, 33)),
            12 => "sheet".into(),
            15 | 16 => format!("currents {}", number(d, 40)),
            17 => format!("who {}", number(d, 33)),
            18 => format!("sum {}", number(d, 33)),
            _ => d
                .one_of(&[
                    "",
                    "# a word",
                    "  sheet ",
                    "sheet 1",
                    "move 1",
                    "nothing",
                    "record a 0g",
                    "find a",
                    "mend",
                ])
                .to_string(),
        };
        s.extend(line.bytes());
        s.push(b'\n');
    }
    s
}

fn piped(program: &[String], input: &[u8]) -> Vec<u8> {
    let mut child = Command::new(&program[0])
        .args(&program[1..])
        .stdin(Stdio::piped())
        .stdout(Stdio::piped())
        .spawn()
        .expect("the program runs");
    let mut pipe = child.stdin.take().unwrap();
    let input = input.to_vec();
    let feeding = std::thread::spawn(move || pipe.write_all(&input));
    let out = child.wait_with_output().unwrap().stdout;
    let _ = feeding.join();
    out
}

/// `run` gives the words that run a built program.
pub fn differ(rounds: u64, run: impl Fn(&str) -> Vec<String>) {
    let mut bad = 0;
    for round in 1..=rounds {
        let d = &mut Dice::new(round);
        let l = library(d);
        let s = script(d);
        let f = foundry(d);
        let pokes = round % 2 == 0;
        let mut desk = run("desk");
        desk.extend(pokes.then(|| String::from("--poke")));
        let alike = [
            (
                "listing",
                piped(&run("listing"), &l) == protocol::listing(&l),
            ),
            ("models", piped(&run("models"), &l) == lines::models(&l)),
            ("cards", piped(&run("cards"), &f) == lines::cards(&f)),
            (
                "desk",
                piped(&desk, &s) == protocol::Desk::new(|_| None, pokes).run(&s),
            ),
        ];
        for (program, _) in alike.iter().filter(|(_, same)| !same) {
            bad += 1;
            println!("{program} differs in round {round}");
        }
    }
    println!("{rounds} rounds, {bad} differences");
}

/// Every byte of a good line dropped, doubled and changed to every other, through the desk: as many lines to a script
/// as load no more cards than a board holds.
pub fn spoiled(desk: &[String]) {
    const CARDS: usize = 16;
    let good: &[u8] = b".model n4 npn is=2.2e-17 bf=.5 vlr=-3e-1 re=5. octave=17808257 mult=12";
    let mut all = Vec::new();
    for at in 0..good.len() {
        let with = |put: &[u8]| [&good[..at], put, &good[at + 1..]].concat();
        all.push(with(b""));
        all.push(with(&[good[at]; 2]));
        all.extend((0..=255).filter(|b| *b != b'\n').map(|b| with(&[b])));
    }
    let (mut bad, mut script, mut loaded, mut taken) = (0, Vec::new(), 0, 0);
    let mut judge = |script: &mut Vec<u8>| {
        bad += u32::from(piped(desk, script) != protocol::Desk::new(|_| None, false).run(script));
        script.clear();
    };
    for line in &all {
        script.extend(line);
        script.push(b'\n');
        let read = usize::from(lines::read(line).is_ok());
        loaded += read;
        taken += read;
        if loaded == CARDS {
            judge(&mut script);
            loaded = 0;
        }
    }
    judge(&mut script);
    println!(
        "{} spoiled lines, {taken} of them taken; {bad} scripts differ",
        all.len()
    );
}
