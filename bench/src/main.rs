//! An implementation of the desk's rules that shares nothing with the proved one, to compare with it.
//!
//!   bench vectors FOLDER    this implementation against a folder of outside vectors
//!   bench desk [--poke] SCRIPT   what the desk must answer to a script
//!   bench listing LIBRARY   what the listing must print of a library
//!   bench models FILE       the model lines of a library
//!   bench cards FILE        the library of model lines
//!   bench time NAME TIMES   one of the timed runs: root, exponential, currents, saturated, wide, reverse, sister,
//!                           empty, still, move, refused, all, named_0, named_1, named_8, named_32, named_64, singly,
//!                           together, pair, mend, write, read, find, and the last four with _wide, the last two with
//!                           _alike and _crowded; write_line, read_line
//!   bench differ ROUNDS     random inputs through the built programs (desk, listing, models, cards) and this
//!                           implementation
//!   bench spoil             every byte of a model line changed, dropped and doubled, through the desk and this
//!                           implementation

mod board;
mod card;
mod currents;
mod differ;
mod library;
mod lines;
mod numbers;
mod protocol;

use std::io::Write;
use std::path::{Path, PathBuf};

fn read_file(path: &[u8]) -> Option<Vec<u8>> {
    use std::os::unix::ffi::OsStrExt;
    let path = std::ffi::OsStr::from_bytes(path);
    let mut bytes = std::fs::read(path).ok()?;
    bytes.truncate(protocol::LONGEST + 1);
    Some(bytes)
}

fn unhex(s: &str) -> Vec<u8> {
    (0..s.len() / 2)
        .map(|i| u8::from_str_radix(&s[2 * i..2 * i + 2], 16).unwrap())
        .collect()
}

/// Files of one ending in a folder, sorted, without it.
fn stems(folder: &Path, ending: &str) -> Vec<String> {
    let mut v: Vec<String> = std::fs::read_dir(folder)
        .unwrap()
        .filter_map(|e| {
            e.unwrap()
                .file_name()
                .into_string()
                .ok()?
                .strip_suffix(ending)
                .map(Into::into)
        })
        .collect();
    v.sort();
    v
}

/// The part of a folder of vectors, or the folder itself where everything lies in one.
fn part(folder: &Path, name: &str) -> PathBuf {
    let inner = folder.join(name);
    if inner.is_dir() {
        inner
    } else {
        folder.into()
    }
}

/// The tables and files of model lines, where a folder has them.
fn line_vectors(folder: &Path, tell: &mut impl FnMut(bool, &str)) {
    let table = |file: &str| std::fs::read_to_string(folder.join(file)).unwrap_or_default();
    for row in table("lines.tsv").lines() {
        let (line, want) = row.split_once('\t').unwrap();
        let got = match lines::read(&unhex(line)) {
            Err(k) => format!("refused {k}"),
            Ok((name, words)) => {
                let name: String = name.iter().map(|b| format!("{b:02x}")).collect();
                format!("ok {name} {}", words.map(|w| format!("{w:016x}")).join(" "))
            }
        };
        tell(got == want, row);
    }
    for row in table("written.tsv").lines() {
        let cells: Vec<&str> = row.split('\t').collect();
        let got = match lines::write(&unhex(cells[0]), &unhex(cells[1])) {
            Err(k) => format!("refused {k}").into_bytes(),
            Ok(line) => line,
        };
        tell(got == cells[2].as_bytes(), row);
    }
    for row in table("numbers.tsv").lines() {
        let (word, want) = row.split_once('\t').unwrap();
        let word = u64::from_str_radix(word, 16).unwrap();
        let got = lines::shortest(f64::from_bits(word)).unwrap_or("21".into());
        tell(got == want, row);
    }
    for s in stems(folder, ".models") {
        let library = std::fs::read(folder.join(format!("{s}.lib"))).unwrap();
        let want = std::fs::read(folder.join(format!("{s}.models"))).unwrap();
        tell(lines::models(&library) == want, &s);
    }
    for s in stems(folder, ".made") {
        let text = std::fs::read(folder.join(format!("{s}.sp"))).unwrap();
        let want = std::fs::read(folder.join(format!("{s}.made"))).unwrap();
        tell(lines::cards(&text) == want, &s);
    }
}

fn vectors(folder: &Path) {
    let (mut good, mut bad) = (0, 0);
    let mut tell = |same: bool, what: &str| {
        if same {
            good += 1;
        } else {
            bad += 1;
            println!("differs: {what}");
        }
    };
    let listing = part(folder, "listing");
    for s in stems(&listing, ".lib") {
        let Ok(want) = std::fs::read(listing.join(format!("{s}.listing"))) else {
            continue;
        };
        tell(
            protocol::listing(&std::fs::read(listing.join(format!("{s}.lib"))).unwrap()) == want,
            &s,
        );
    }
    for file in ["currents.tsv", "currents-rich.tsv"] {
        let curve = *numbers::CURVE;
        for line in std::fs::read_to_string(folder.join(file)).unwrap().lines() {
            let cells: Vec<&str> = line.split('\t').collect();
            let v: Vec<i64> = cells[1].split(' ').map(|x| x.parse().unwrap()).collect();
            let v: currents::Volts = v.try_into().unwrap();
            let got = match card::judge(&unhex(cells[0])) {
                Err(k) => format!("refused {k}"),
                Ok(c) => match currents::currents(&curve, &c, &v) {
                    None => format!("overload {:?}", currents::overload(&curve, &c, &v)),
                    Some(i) => format!("ok {}", i.map(|x| x.to_string()).join(" ")),
                },
            };
            tell(
                match cells[2].strip_prefix("refused ") {
                    Some(all) => match all.split([' ', ':']).collect::<Vec<_>>()[..] {
                        [branch, number, ..] => {
                            got == format!("overload Some(({branch}, {number}))")
                        }
                        _ => got == cells[2],
                    },
                    None => got == cells[2],
                },
                line,
            );
        }
    }
    line_vectors(folder, &mut tell);
    let desk = part(folder, "desk");
    std::env::set_current_dir(&desk).unwrap();
    for s in stems(Path::new("."), ".desk") {
        let want = std::fs::read(format!("{s}.out")).unwrap();
        tell(
            protocol::Desk::new(read_file, s.starts_with("poke"))
                .run(&std::fs::read(format!("{s}.desk")).unwrap())
                == want,
            &s,
        );
    }
    println!("{good} agree, {bad} differ");
}

/// The card of the timed runs: a small transistor with every row at work.
fn timed_record() -> Vec<u8> {
    let words = [
        1.0,
        5.1e-18,
        12e-3,
        140.0,
        0.18,
        4.0e-16,
        2.0,
        4.0,
        9e-18,
        9e-18,
        60e-6,
        0.0,
        0.0,
        0.0,
        17_808_740.0,
        504.0f64,
    ];
    words.map(f64::to_le_bytes).concat()
}

/// The same as version 2 has it, with a reverse non-ideal current, of either polarity.
fn wide_record(polarity: f64) -> Vec<u8> {
    let more = [1e-15, 0.2, 1.0, 1.0, 1.0, polarity, 0.0, 0.0f64];
    [timed_record(), more.map(f64::to_le_bytes).concat()].concat()
}

fn time_root(times: u64) {
    let (mut x, mut sum) = (1u64, 0u64);
    for n in 0..times {
        x = (x * 1103 + 12345) % 65536;
        sum = (sum + numbers::root((x << 46) + n)) % (1 << 30);
    }
    println!("{sum}");
}

fn time_exponential(times: u64) {
    let curve = *numbers::CURVE;
    let octave = numbers::Octave::of(std::hint::black_box(17_808_740));
    let (mut x, mut sum) = (1u64, 0u64);
    for _ in 0..times {
        x = (x * 1103 + 12345) % 65536;
        let g = numbers::gain(&curve, 10 * x as i64 - 10_000, octave);
        sum = (sum + g.m + (g.n + 8192) as u64) % (1 << 30);
    }
    println!("{sum}");
}

/// Eleven voltages of which no two go together, so that no exponential serves two rows by chance; a PNP's have the
/// other sign.
fn time_currents(times: u64, record: &[u8], collector: i64, slope: i64, sign: i64) {
    let curve = *numbers::CURVE;
    let c = card::judge(record).unwrap();
    let (mut x, mut sum) = (1u32, 0u64);
    for _ in 0..times {
        x = (x * 1103 + 12345) % 65536;
        let y = x as i64;
        let (b, h) = (600_000 + 2 * y, collector + slope * y);
        let (c1, c4) = (h, h + y / 32);
        let v = [
            0,
            b,
            b - y / 8,
            c1,
            h + y / 16,
            c4,
            0,
            -y / 4,
            b + y / 2,
            c4 + y,
            c4 + y / 2,
        ]
        .map(|v| sign * v);
        let t = currents::currents(&curve, &c, &v).unwrap_or([0; 13]);
        sum = t.iter().fold(sum, |s, t| s.wrapping_add(*t as u64));
    }
    println!("{sum}");
}

/// A placing of a card of version 1: the four other nodes are not looked at.
fn narrow(nodes: [i64; currents::NARROW]) -> [i64; currents::ROLES] {
    std::array::from_fn(|k| nodes.get(k).copied().unwrap_or(-1))
}

/// A board with the slices that it is lent.
struct Timed {
    board: board::Board,
    volts: [i64; board::NODES],
    totals: [i64; board::NODES],
}

impl Timed {
    fn fresh() -> Self {
        let (mut volts, mut totals) = ([0; board::NODES], [0; board::NODES]);
        let lent = board::Lent {
            volts: &mut volts,
            totals: &mut totals,
        };
        let mut board = board::Board::fresh(lent).unwrap();
        board.load(b"a", &timed_record()).unwrap();
        Timed {
            board,
            volts,
            totals,
        }
    }

    /// The board, and its slices to be lent to it.
    fn parts(&mut self) -> (&mut board::Board, board::Lent<'_>) {
        let lent = board::Lent {
            volts: &mut self.volts,
            totals: &mut self.totals,
        };
        (&mut self.board, lent)
    }

    fn place(&mut self, nodes: [i64; currents::NARROW]) -> i64 {
        let (b, lent) = self.parts();
        b.place(lent, 1, &narrow(nodes)).unwrap()
    }

    fn shift(&mut self, n: i64, microvolts: i64) -> bool {
        let (b, lent) = self.parts();
        b.shift(lent, n, microvolts).is_ok()
    }

    /// One number of every total and voltage.
    fn told(&self) -> i64 {
        self.totals.iter().zip(self.volts).fold(0, |sum, (t, v)| {
            (sum * 31 + t % 1_000_003 + 1_000_003 + v + 2_500_000) % (1 << 30)
        })
    }
}

/// A voltage moved so often, on a board with so many transistors, carried out or turned away; the first move brings the
/// collectors to 2 V.
fn time_moves(times: u64, places: i64, node: impl Fn(u64) -> u64, microvolts: i64) {
    time_moves_on(times, places, |i| 1 + i % 8, node, microvolts)
}

/// The same, where the transistor i has its base on a node of its own.
fn time_moves_on(
    times: u64,
    places: i64,
    base: impl Fn(i64) -> i64,
    node: impl Fn(u64) -> u64,
    microvolts: i64,
) {
    let mut b = Timed::fresh();
    for i in 0..places {
        let n = base(i);
        b.place([0, n, n, 20, 20, 20, 0]);
    }
    let mut x = 1u32;
    let mut next = (20, 2_000_000);
    for n in 0..times {
        let _ = std::hint::black_box(b.shift(next.0, next.1));
        x = (x * 1103 + 12345) % 65536;
        next = (node(n) as i64, microvolts + x as i64);
    }
    println!("{}", b.told());
}

/// One node of a full board moved so often, which the first so many of its transistors name.
fn time_named(times: u64, named: i64) {
    let base = |i| if i < named { 1 } else { 2 };
    time_moves_on(times, 64, base, |_| 1, 600_000)
}

/// Every node of a full board moved so often, node by node or all together: eight stages of eight transistors.
fn time_stages(times: u64, together: bool) {
    let mut b = Timed::fresh();
    for i in 0..64 {
        let e = 4 * (i % 8);
        b.place([e, e + 1, e + 1, e + 2, e + 2, e + 2, e + 3]);
    }
    let mut x = 1u32;
    for _ in 0..times {
        x = (x * 1103 + 12345) % 65536;
        let y = x as i64;
        let to = [y, 600_000 + y, 2_000_000 - y, -y];
        let pairs: [i64; 64] = std::array::from_fn(|k| {
            if k % 2 == 0 {
                k as i64 / 2
            } else {
                to[k / 2 % 4]
            }
        });
        if together {
            let (b, lent) = b.parts();
            b.shift_all(lent, std::hint::black_box(&pairs)).unwrap();
        } else {
            for p in std::hint::black_box(&pairs).chunks_exact(2) {
                assert!(b.shift(p[0], p[1]));
            }
        }
    }
    println!("{}", b.told());
}

fn time_pair(times: u64) {
    let mut b = Timed::fresh();
    for n in 0..times {
        if n % 32_000 == 0 {
            b = Timed::fresh();
        }
        let i = b.place([0, 1, 1, 2, 2, 2, 3]);
        let (b, lent) = b.parts();
        b.lift(lent, i).unwrap();
    }
    println!("{}", b.told());
}

/// A set of 256 names, how the last one is changed, and the one of place 200, which is found.
struct Names {
    name: fn(usize) -> Vec<u8>,
    change: fn(&mut [u8], u8),
    found: &'static [u8],
}

/// npn000 to npn255.
const PLAIN: Names = Names {
    name: |i| format!("npn{i:03}").into_bytes(),
    change: |l, c| l[4102] = 48 + c,
    found: b"npn200",
};

/// Names that share their first fourteen bytes; no more than 95 that are well-formed share fifteen.
const ALIKE: Names = Names {
    name: |i| {
        let mut name = vec![b'n'; 16];
        name[14] = 97 + (i % 16) as u8;
        name[15] = 97 + (i / 16) as u8;
        name
    },
    change: |l, c| l[4110] = 113 + c,
    found: b"nnnnnnnnnnnnnnim",
};

/// Names whose two words always have the same sum, so that all fall on one mark of the desk.
const CROWDED: Names = Names {
    name: |i| {
        let mut name = vec![b'n'; 16];
        name[0] = 97 + (i % 16) as u8;
        name[8] = 112 - (i % 16) as u8;
        name[1] = 97 + (i / 16) as u8;
        name[9] = 112 - (i / 16) as u8;
        name
    },
    change: |l, c| {
        l[4102] = 48 + c;
        l[4110] = 57 - c;
    },
    found: b"imnnnnnnhdnnnnnn",
};

/// A good library of 256 cards of a version.
fn timed_library(set: &Names, version: u16) -> Vec<u8> {
    let mut names = vec![0; 4096];
    for (i, field) in names.chunks_mut(16).enumerate() {
        let name = (set.name)(i);
        field[..name.len()].copy_from_slice(&name);
    }
    let record = if version == 1 {
        timed_record()
    } else {
        wide_record(1.0)
    };
    let words: Vec<u64> = record
        .chunks(8)
        .map(|b| u64::from_le_bytes(b.try_into().unwrap()))
        .collect();
    let mut l = vec![0; protocol::LONGEST];
    let n = library::write(version, &names, &words.repeat(256), &mut l).unwrap();
    l.truncate(n);
    l
}

fn time_read(times: usize, set: &Names, version: u16) {
    let mut l = timed_library(set, version);
    let (mut names, mut words, mut sum) = (vec![0; 4096], vec![0; 6144], 0);
    for n in 0..times {
        (set.change)(&mut l, (n % 10) as u8);
        library::read(std::hint::black_box(&l), &mut names, &mut words).unwrap();
        sum = (sum + 1 + words[n % 4096] % 7 + names[n % 4096] as u64) % (1 << 30);
    }
    println!("{sum}");
}

fn time_write(times: usize, set: &Names, version: u16) {
    let mut l = timed_library(set, version);
    let (mut names, mut words) = (vec![0; 4096], vec![0; 6144]);
    library::read(&l, &mut names, &mut words).unwrap();
    words.truncate((l.len() - 16 - names.len()) / 8);
    let mut sum = 0;
    for n in 0..times {
        let k = n % 4096;
        names[4086] = 48 + (n % 10) as u8;
        words[k] = n as u64;
        let long = library::write(version, std::hint::black_box(&names), &words, &mut l).unwrap();
        sum = (sum + long as u64 + l[4102] as u64 + l[4112 + 8 * k] as u64) % (1 << 30);
    }
    println!("{sum}");
}

fn time_mend(times: usize, set: &Names, version: u16) {
    let mut l = timed_library(set, version);
    let size = l.len() / 256 - 16;
    for record in l[16 + 16 * 256..].chunks_exact_mut(size) {
        record[79] |= 0x80;
    }
    let (mut out, mut sum) = (vec![0; l.len()], 0);
    for n in 0..times {
        (set.change)(&mut l, (n % 10) as u8);
        let set = library::mend(std::hint::black_box(&l), &mut out).unwrap();
        sum = (sum + set as u64 + out[n % out.len()] as u64) % (1 << 30);
    }
    println!("{sum}");
}

fn time_find(times: usize, set: &Names, version: u16) {
    let (mut l, mut sum) = (timed_library(set, version), 0);
    for n in 0..times {
        (set.change)(&mut l, (n % 10) as u8);
        let (at, _) = library::locate(std::hint::black_box(&l), set.found).unwrap();
        sum += 1 + l[at + n % 128] as u64;
    }
    println!("{sum}");
}

/// A card's line written so often, its multiplicity another each time.
fn time_write_line(times: u64) {
    let mut record = wide_record(1.0);
    let mut sum = 0;
    for n in 0..times {
        record[7] = 64;
        record[6] = (16 * (n % 8)) as u8;
        let line = lines::write(b"npn200", std::hint::black_box(&record)).unwrap();
        sum = (sum + line.len() as u64 + line[17] as u64) % (1 << 30);
    }
    println!("{sum}");
}

/// A card's line read so often, the last byte of its name another each time.
fn time_read_line(times: u64) {
    let mut line = lines::write(b"npn200", &wide_record(1.0)).unwrap();
    let mut sum = 0;
    for n in 0..times {
        line[12] = 48 + (n % 10) as u8;
        let (name, words) = lines::read(std::hint::black_box(&line)).unwrap();
        sum = (sum + name[5] as u64 + words[n as usize % 24] % 7) % (1 << 30);
    }
    println!("{sum}");
}

fn time(name: &str, times: u64) {
    match name {
        "root" => time_root(times),
        "exponential" => time_exponential(times),
        "currents" => time_currents(times, &timed_record(), 2_000_000, -1, 1),
        "saturated" => time_currents(times, &timed_record(), 0, 1, 1),
        "wide" => time_currents(times, &wide_record(1.0), 2_000_000, -1, 1),
        "reverse" => time_currents(times, &wide_record(1.0), 0, 1, 1),
        "sister" => time_currents(times, &wide_record(-1.0), 2_000_000, -1, -1),
        "empty" => time_moves(times, 0, |n| 1 + n % 8, 600_000),
        "still" => time_moves(times, 64, |_| 31, 600_000),
        "move" => time_moves(times, 64, |n| 1 + n % 8, 600_000),
        "refused" => time_moves(times, 64, |n| 1 + n % 8, 2_300_000),
        "all" => time_moves(times, 64, |_| 20, 2_000_000),
        "named_0" => time_named(times, 0),
        "named_1" => time_named(times, 1),
        "named_8" => time_named(times, 8),
        "named_32" => time_named(times, 32),
        "named_64" => time_named(times, 64),
        "singly" => time_stages(times, false),
        "together" => time_stages(times, true),
        "pair" => time_pair(times),
        "read" => time_read(times as usize, &PLAIN, 1),
        "find" => time_find(times as usize, &PLAIN, 1),
        "write" => time_write(times as usize, &PLAIN, 1),
        "write_wide" => time_write(times as usize, &PLAIN, 2),
        "mend" => time_mend(times as usize, &PLAIN, 1),
        "mend_wide" => time_mend(times as usize, &PLAIN, 2),
        "read_wide" => time_read(times as usize, &PLAIN, 2),
        "find_wide" => time_find(times as usize, &PLAIN, 2),
        "read_alike" => time_read(times as usize, &ALIKE, 1),
        "find_alike" => time_find(times as usize, &ALIKE, 1),
        "read_crowded" => time_read(times as usize, &CROWDED, 1),
        "write_line" => time_write_line(times),
        "read_line" => time_read_line(times),
        "find_crowded" => time_find(times as usize, &CROWDED, 1),
        _ => println!("no timed run {name}"),
    }
}

fn answer(script: &str, pokes: bool) {
    let out = protocol::Desk::new(read_file, pokes).run(&std::fs::read(script).unwrap());
    std::io::stdout().write_all(&out).unwrap();
}

/// The words that run a program of the project, which must have been built.
fn program(name: &str) -> Vec<String> {
    let run = concat!(env!("CARGO_MANIFEST_DIR"), "/../tools/run");
    vec![run.to_string(), name.to_string()]
}

fn main() {
    let args: Vec<String> = std::env::args().skip(1).collect();
    match args.iter().map(String::as_str).collect::<Vec<_>>()[..] {
        ["desk", script] => answer(script, false),
        ["desk", "--poke", script] => answer(script, true),
        ["listing", library] => std::io::stdout()
            .write_all(&protocol::listing(&std::fs::read(library).unwrap()))
            .unwrap(),
        ["models", file] => std::io::stdout()
            .write_all(&lines::models(&std::fs::read(file).unwrap()))
            .unwrap(),
        ["cards", file] => std::io::stdout()
            .write_all(&lines::cards(&std::fs::read(file).unwrap()))
            .unwrap(),
        ["time", name, times] => time(name, times.parse().unwrap()),
        ["vectors", folder] => vectors(&std::fs::canonicalize(folder).unwrap()),
        ["differ", rounds] => differ::differ(rounds.parse().unwrap(), program),
        ["spoil"] => differ::spoiled(&program("desk")),
        _ => {
            println!(
                "usage: bench vectors FOLDER | desk [--poke] SCRIPT | listing LIBRARY | models FILE | \
                 cards FILE | time NAME TIMES | differ ROUNDS | spoil"
            )
        }
    }
}
