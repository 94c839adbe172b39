//! The card library: read, written and searched.

pub fn well_formed(name: &[u8]) -> bool {
    (1..=16).contains(&name.len()) && name.iter().all(|b| (0x21..=0x7e).contains(b))
}

const fn sixteen(byte: u8) -> u128 {
    u128::from_le_bytes([byte; 16])
}

/// A name with its padding, its sixteen bytes judged at once by the upper bits of sums.
#[inline]
fn padded_well(name: &[u8; 16]) -> bool {
    let key = u128::from_le_bytes(*name);
    let upper = |x: u128| x & sixteen(0x80);
    let filled = upper(key.wrapping_add(sixteen(0x7f)));
    let from_21 = upper(key.wrapping_add(sixteen(0x5f)));
    let past_7e = upper(key | key.wrapping_add(sixteen(1)));
    // 0xff for each filled byte: with 1 added it has no bit in common where they stand first
    let whole = (filled << 1).wrapping_sub(filled >> 7);
    let gap = whole & whole.wrapping_add(1);
    name[0] != 0 && past_7e | (filled ^ from_21) | gap == 0
}

const SLOTS: usize = 512;

/// Whether no name, of at most 256, stands twice: each takes the first free slot after that of its hash.
fn all_different(names: &[[u8; 16]]) -> bool {
    let mut slots = [u16::MAX; SLOTS];
    for (i, name) in names.iter().enumerate() {
        let key = u128::from_le_bytes(*name);
        let mixed = (key as u64).wrapping_mul(0x9e37_79b9_7f4a_7c15) ^ (key >> 64) as u64;
        let mut at = (mixed.wrapping_mul(0xd6e8_feb8_6659_fd93) >> 55) as usize;
        while let Some(other) = names.get(slots[at] as usize) {
            if other == name {
                return false;
            }
            at = (at + 1) % SLOTS;
        }
        slots[at] = i as u16;
    }
    true
}

fn names_judged(names: &[u8]) -> Result<(), u32> {
    let names = names.as_chunks().0;
    if !names.iter().all(padded_well) {
        return Err(2);
    }
    if !all_different(names) {
        return Err(3);
    }
    Ok(())
}

fn field(library: &[u8], at: usize, width: usize) -> usize {
    (0..width)
        .rev()
        .fold(0, |n, i| n * 256 + library[at + i] as usize)
}

/// The words of a version's records.
fn width(version: usize) -> Option<usize> {
    match version {
        1 => Some(16),
        2 => Some(24),
        _ => None,
    }
}

/// The words of the records and the number of cards of a good library.
pub fn count(library: &[u8]) -> Result<(usize, usize), u32> {
    if library.len() < 16 {
        return Err(1);
    }
    let n = field(library, 2, 2);
    let words = width(field(library, 0, 2)).ok_or(1u32)?;
    let whole = 16 + (16 + 8 * words) * n;
    if n > 256
        || field(library, 4, 4) != 16
        || field(library, 8, 4) != 16 + 16 * n
        || field(library, 12, 4) != whole
        || library.len() != whole
    {
        return Err(1);
    }
    names_judged(&library[16..16 + 16 * n])?;
    Ok((words, n))
}

/// Reads a library: its version and the number of its cards.
pub fn read(library: &[u8], names: &mut [u8], words: &mut [u64]) -> Result<(usize, usize), u32> {
    let (width, n) = count(library)?;
    if names.len() < 16 * n || words.len() < width * n {
        return Err(5);
    }
    names[..16 * n].copy_from_slice(&library[16..16 + 16 * n]);
    for (w, b) in words.iter_mut().zip(library[16 + 16 * n..].chunks(8)) {
        *w = u64::from_le_bytes(b.try_into().unwrap());
    }
    Ok((field(library, 0, 2), n))
}

pub fn write(version: u16, names: &[u8], words: &[u64], library: &mut [u8]) -> Result<usize, u32> {
    let width = width(version as usize).ok_or(1u32)?;
    let n = names.len() / 16;
    if names.len() % 16 != 0 || words.len() != width * n || n > 256 {
        return Err(1);
    }
    names_judged(names)?;
    let whole = 16 + (16 + 8 * width) * n;
    if library.len() < whole {
        return Err(5);
    }
    library[0..2].copy_from_slice(&version.to_le_bytes());
    library[2..4].copy_from_slice(&(n as u16).to_le_bytes());
    library[4..8].copy_from_slice(&16u32.to_le_bytes());
    library[8..12].copy_from_slice(&((16 + 16 * n) as u32).to_le_bytes());
    library[12..16].copy_from_slice(&(whole as u32).to_le_bytes());
    library[16..16 + 16 * n].copy_from_slice(names);
    for (w, b) in words.iter().zip(library[16 + 16 * n..].chunks_mut(8)) {
        b.copy_from_slice(&w.to_le_bytes());
    }
    Ok(whole)
}

/// The word of I_CSs in a record.
const ICSS: usize = 9;

/// Copies a library, with +0 for each finite I_CSs below zero: how many there were. Refusals are those of reading.
pub fn mend(library: &[u8], output: &mut [u8]) -> Result<usize, u32> {
    let (width, n) = count(library)?;
    let output = output.get_mut(..library.len()).ok_or(5u32)?;
    output.copy_from_slice(library);
    let mut set = 0;
    for record in output[16 + 16 * n..].chunks_exact_mut(8 * width) {
        let word = &mut record[8 * ICSS..8 * ICSS + 8];
        let icss = f64::from_bits(u64::from_le_bytes((&*word).try_into().unwrap()));
        if icss.is_finite() && icss < 0.0 {
            word.fill(0);
            set += 1;
        }
    }
    Ok(set)
}

/// Where a card's record starts, and its bytes.
pub fn locate(library: &[u8], name: &[u8]) -> Result<(usize, usize), u32> {
    let (words, n) = count(library)?;
    if !well_formed(name) {
        return Err(2);
    }
    let mut key = [0u8; 16];
    key[..name.len()].copy_from_slice(name);
    let at = library[16..16 + 16 * n].chunks(16).position(|x| x == key);
    at.map(|i| (16 + 16 * n + 8 * words * i, 8 * words))
        .ok_or(4)
}
