//! Model lines and the two programs over them, worked from the rules; numbers by Rust's own reading and printing of
//! f64.

use crate::library;
use crate::protocol::LONGEST;

/// The keys in record order, each with the text of its default; the one without must be given.
pub const KEYS: [(&str, Option<&str>); 21] = [
    ("mult", Some("1")),
    ("is", Some("2.2e-17")),
    ("ik", Some("0.1")),
    ("bf", Some("215")),
    ("xibi", Some("0")),
    ("ibf", Some("2.7e-15")),
    ("mlf", Some("2")),
    ("bri", Some("7")),
    ("iss", Some("4.8e-17")),
    ("icss", Some("0")),
    ("iks", Some("2.5e-4")),
    ("rcblx", Some("0")),
    ("rcbli", Some("0")),
    ("exsub", Some("0")),
    ("octave", None),
    ("level", Some("504")),
    ("ibr", Some("1e-15")),
    ("vlr", Some("0.2")),
    ("re", Some("5")),
    ("rbc", Some("23")),
    ("rcc", Some("12")),
];

const WORDS: usize = 24;
const POLARITY: usize = 21;
const MOST_DIGITS: usize = 15;
const MOST_POWER: i32 = 22;
pub const MOST_LINE: usize = 4096;

/// The number that a text stands for: its form is judged here, its value is the standard library's.
pub fn number(text: &[u8]) -> Option<f64> {
    let text = std::str::from_utf8(text).ok()?;
    let (mantissa, power) = match text.split_once('e') {
        None => (text, 0),
        Some((m, p)) => {
            let digits = p.strip_prefix('-').unwrap_or(p);
            if !matches!(digits.len(), 1 | 2) || !digits.bytes().all(|b| b.is_ascii_digit()) {
                return None;
            }
            (m, p.parse::<i32>().unwrap())
        }
    };
    let bare = mantissa.strip_prefix('-').unwrap_or(mantissa);
    let (whole, part) = bare.split_once('.').unwrap_or((bare, ""));
    let digits = whole.len() + part.len();
    if !(1..=MOST_DIGITS).contains(&digits)
        || !(whole.bytes().chain(part.bytes())).all(|b| b.is_ascii_digit())
    {
        return None;
    }
    let moved = power - part.len() as i32;
    if moved.abs() > MOST_POWER {
        return None;
    }
    let x: f64 = text.parse().unwrap();
    Some(if x == 0.0 { 0.0 } else { x })
}

/// The shortest text of a number: the digits of the standard library's shortest printing, the power brought into its
/// range.
pub fn shortest(x: f64) -> Option<String> {
    if !x.is_finite() || x.to_bits() == 1 << 63 {
        return None;
    }
    if x == 0.0 {
        return Some("0e0".into());
    }
    let printed = format!("{:e}", x.abs());
    let (mantissa, power) = printed.split_once('e').unwrap();
    let power: i32 = power.parse().unwrap();
    let mut digits: String = mantissa.chars().filter(|c| *c != '.').collect();
    let mut power = power - (digits.len() as i32 - 1);
    while power > MOST_POWER && digits.len() < MOST_DIGITS {
        digits.push('0');
        power -= 1;
    }
    if power.abs() > MOST_POWER || digits.len() > MOST_DIGITS {
        return None;
    }
    let sign = if x < 0.0 { "-" } else { "" };
    Some(format!("{sign}{digits}e{power}"))
}

/// The name and the words that a line stands for.
pub fn read(line: &[u8]) -> Result<(Vec<u8>, [u64; WORDS]), u32> {
    if line.first() == Some(&b' ') {
        return Err(23);
    }
    let mut words = line.split(|b| *b == b' ').filter(|w| !w.is_empty());
    if words.next() != Some(b".model") {
        return Err(23);
    }
    let name = words.next().ok_or(23u32)?;
    if !library::well_formed(name) {
        return Err(2);
    }
    let polarity = match words.next() {
        Some(b"npn") => 1.0f64,
        Some(b"pnp") => -1.0,
        _ => return Err(23),
    };
    let mut given = [None; KEYS.len()];
    for word in words {
        let at = word.iter().position(|b| *b == b'=').ok_or(23u32)?;
        let key = KEYS
            .iter()
            .position(|k| k.0.as_bytes() == &word[..at])
            .ok_or(20u32)?;
        if given[key].is_some() {
            return Err(20);
        }
        given[key] = Some(number(&word[at + 1..]).ok_or(21u32)?);
    }
    if line.last() == Some(&b' ') {
        return Err(23);
    }
    let mut record = [0; WORDS];
    for ((word, given), key) in record.iter_mut().zip(given).zip(KEYS) {
        let default = key.1.map(|text| text.parse().unwrap());
        *word = given.or(default).ok_or(22u32)?.to_bits();
    }
    record[POLARITY] = polarity.to_bits();
    Ok((name.to_vec(), record))
}

/// The line of a name and a record.
pub fn write(name: &[u8], record: &[u8]) -> Result<Vec<u8>, u32> {
    if record.len() != 8 * WORDS {
        return Err(1);
    }
    if !library::well_formed(name) {
        return Err(2);
    }
    let words: Vec<u64> = record
        .chunks(8)
        .map(|b| u64::from_le_bytes(b.try_into().unwrap()))
        .collect();
    let kind: &[u8] = match f64::from_bits(words[POLARITY]) {
        1.0 => b"npn",
        -1.0 => b"pnp",
        _ => return Err(8),
    };
    if words[POLARITY + 1..].iter().any(|w| *w != 0) {
        return Err(8);
    }
    let mut line = [b".model ", name, b" ", kind].concat();
    for (key, word) in KEYS.iter().zip(words) {
        let text = shortest(f64::from_bits(word)).ok_or(21u32)?;
        line.extend(format!(" {}={text}", key.0).bytes());
    }
    Ok(line)
}

/// What `models` prints for a library.
pub fn models(input: &[u8]) -> Vec<u8> {
    let (words, n) = match library::count(&input[..input.len().min(LONGEST + 1)]) {
        Ok(found) => found,
        Err(k) => return format!("refused {k}\n").into_bytes(),
    };
    let mut out = Vec::new();
    for i in 0..n {
        let name = &input[16 + 16 * i..32 + 16 * i];
        let name = &name[..name.iter().position(|b| *b == 0).unwrap_or(16)];
        match write(name, &input[16 + 16 * n + 8 * words * i..][..8 * words]) {
            Ok(line) => out.extend(line),
            Err(k) => out.extend([b"* ", name, format!(" refused {k}").as_bytes()].concat()),
        }
        out.push(b'\n');
    }
    out
}

pub fn trimmed(line: &[u8]) -> &[u8] {
    let from = line.iter().position(|b| *b != b' ').unwrap_or(line.len());
    let to = line
        .iter()
        .rposition(|b| *b != b' ')
        .map_or(from, |i| i + 1);
    &line[from..to]
}

/// The model lines of a text, each with its parts joined and the number of its first line.
fn model_lines(text: &[u8]) -> Vec<(usize, Vec<u8>)> {
    let mut lines: Vec<(usize, Vec<u8>)> = Vec::new();
    for (i, line) in text.split(|b| *b == b'\n').enumerate() {
        let line = line.strip_suffix(b"\r").unwrap_or(line);
        if trimmed(line).is_empty() || line[0] == b'*' {
            continue;
        }
        match (line[0], lines.last_mut()) {
            (b'+', Some(last)) => {
                last.1.push(b' ');
                last.1.extend(&line[1..]);
            }
            _ => lines.push((i + 1, line.to_vec())),
        }
    }
    lines
}

/// What `cards` writes for a text.
pub fn cards(text: &[u8]) -> Vec<u8> {
    let mut names: Vec<Vec<u8>> = Vec::new();
    let mut words = Vec::new();
    for (at, line) in model_lines(text) {
        let judged = if line.len() > MOST_LINE {
            Err(23)
        } else {
            read(trimmed(&line))
        };
        let judged = judged.and_then(|(name, record)| {
            if names.contains(&name) {
                Err(3)
            } else if names.len() == 256 {
                Err(1)
            } else {
                Ok((name, record))
            }
        });
        match judged {
            Ok((name, record)) => {
                names.push(name);
                words.extend(record);
            }
            Err(k) => return format!("line {at} refused {k}\n").into_bytes(),
        }
    }
    let padded: Vec<u8> = names
        .iter()
        .flat_map(|n| (0..16).map(|i| n.get(i).copied().unwrap_or(0)))
        .collect();
    let mut out = vec![0; LONGEST];
    let long = library::write(2, &padded, &words, &mut out).unwrap();
    out.truncate(long);
    out
}
