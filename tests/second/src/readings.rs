//! Opening facts from bench readings, by whole numbers only.

use crate::rules::{check_lent, refuse, Refusal};

const MOST_MARKS: u64 = 16;
const LEVELS: std::ops::RangeInclusive<i16> = -1_000..=1_000;
const SIGN: u64 = 1 << 63;
const EXPONENT: u64 = 0x7ff;
const FRACTION_BITS: u32 = 52;
/// The bits of the float 100: sign 0, exponent 1023 + 6, fraction 100/64 - 1 = 9/16.
const HUNDRED: u64 = (1_023 + 6) << FRACTION_BITS | 9 << (FRACTION_BITS - 4);

/// A bench reading as bits of two floats.
#[derive(Clone, Copy)]
pub struct Reading {
    pub temperature: u64,
    pub humidity: u64,
}

/// The marks as three lent tables with the count apart.
#[derive(Clone, Copy)]
pub struct Marks<'a> {
    pub count: u64,
    pub channels: &'a [u8],
    pub levels: &'a [i16],
    pub facts: &'a [u8],
}

/// Finite and from -100 to 100. Without the sign, floats are in the order of their bits,
/// and what is not finite comes last.
fn in_range(bits: u64) -> bool {
    bits & !SIGN <= HUNDRED
}

/// The size of a float is `whole` parts of which 2 to the power of `shift` make one.
/// For floats in range the shift is at least 46.
fn take_apart(bits: u64) -> (u64, u32) {
    let exponent = (bits >> FRACTION_BITS & EXPONENT) as u32;
    let fraction = bits & ((1 << FRACTION_BITS) - 1);
    match exponent {
        0 => (fraction, 1_074),
        _ => (fraction | 1 << FRACTION_BITS, 1_075 - exponent),
    }
}

/// The nearest whole number to ten times the exact value, halves going up, for a float in range.
pub fn tenths(bits: u64) -> i32 {
    let (whole, shift) = take_apart(bits);
    // Ten times a fraction of 53 bits is below 2 to the power of 57, so with a longer shift it is less than a half.
    let shift = shift.min(63);
    let (ten, half) = (10 * whole, 1u64 << (shift - 1));
    match bits & SIGN {
        0 => ((ten + half) >> shift) as i32,
        // Below zero up is towards zero: of the size, more than a half counts as one.
        _ => -(((ten + half - 1) >> shift) as i32),
    }
}

fn mark_in_range(marks: &Marks, mark: usize) -> bool {
    marks.channels[mark] <= 1 && LEVELS.contains(&marks.levels[mark]) && marks.facts[mark] < 64
}

/// Refusals 3, 17 and 18.
fn check_reading(reading: Reading, marks: &Marks) -> Result<(), Refusal> {
    for lent in [marks.channels.len(), marks.levels.len(), marks.facts.len()] {
        check_lent(lent, marks.count)?;
    }
    for (channel, bits) in [reading.temperature, reading.humidity].into_iter().enumerate() {
        if !in_range(bits) {
            return refuse(17, channel as u64);
        }
    }
    if marks.count > MOST_MARKS {
        return refuse(18, MOST_MARKS);
    }
    match (0..marks.count as usize).find(|&mark| !mark_in_range(marks, mark)) {
        Some(mark) => refuse(18, mark as u64),
        None => Ok(()),
    }
}

/// A marked fact is set if every mark on it is reached, else cleared; other facts stay as given.
pub fn opening_facts(given: u64, reading: Reading, marks: &Marks) -> Result<u64, Refusal> {
    check_reading(reading, marks)?;
    let values = [tenths(reading.temperature), tenths(reading.humidity)];
    let (mut marked, mut missed) = (0u64, 0u64);
    for mark in 0..marks.count as usize {
        let fact = 1 << marks.facts[mark];
        marked |= fact;
        if values[marks.channels[mark] as usize] < marks.levels[mark] as i32 {
            missed |= fact;
        }
    }
    Ok(given & !marked | marked & !missed)
}
