//! OASIS time stamps: yyyymmddhhmmss and a zone, 16 bytes.

use std::cmp::Ordering;

use crate::layout::{EARLIER, END_SECOND, LATER, NOT_A_STAMP, SAME, STAMP_RANGE};

/// Zones by their codes 0 to 8.
pub const ZONES: [&[u8; 2]; 9] = [b"UT", b"ES", b"ED", b"CS", b"CD", b"MS", b"MD", b"PS", b"PD"];

/// Hours behind UT of each zone.
pub const HOURS_BEHIND: [u32; 9] = [0, 5, 4, 6, 5, 7, 6, 8, 7];

/// Days before each of the 1,200 months from January 2000 on.
pub const DAYS_BEFORE_MONTH: [u32; 1200] = days_before_month();

const fn days_before_month() -> [u32; 1200] {
    let mut table = [0; 1200];
    let mut month = 1;
    while month < 1200 {
        table[month] = table[month - 1] + days_in_month(month - 1);
        month += 1;
    }
    table
}

const fn days_in_month(month: usize) -> u32 {
    let year = 2000 + month / 12;
    match month % 12 {
        1 if leap(year) => 29,
        1 => 28,
        3 | 5 | 8 | 10 => 30,
        _ => 31,
    }
}

const fn leap(year: usize) -> bool {
    year.is_multiple_of(4) && (!year.is_multiple_of(100) || year.is_multiple_of(400))
}

/// The digits of a stamp's part as a number.
fn number(digits: &[u8]) -> Option<u32> {
    digits.iter().try_fold(0, |number, &digit| {
        digit.is_ascii_digit().then(|| number * 10 + u32::from(digit - b'0'))
    })
}

fn parse(bytes: &[u8]) -> Option<u32> {
    if bytes.len() != 16 {
        return None;
    }
    let year = number(&bytes[0..4])?;
    let month = number(&bytes[4..6])?;
    let day = number(&bytes[6..8])?;
    let hour = number(&bytes[8..10])?;
    let minute = number(&bytes[10..12])?;
    let second = number(&bytes[12..14])?;
    let zone = ZONES.iter().position(|zone| zone[..] == bytes[14..16])?;
    if !(2000..=2099).contains(&year) || !(1..=12).contains(&month) {
        return None;
    }
    let month = ((year - 2000) * 12 + month - 1) as usize;
    if day < 1 || day > days_in_month(month) || hour > 23 || minute > 59 || second > 59 {
        return None;
    }
    let local = ((DAYS_BEFORE_MONTH[month] + day - 1) * 24 + hour) * 3600 + minute * 60 + second;
    let universal = local + HOURS_BEHIND[zone] * 3600;
    (universal < END_SECOND).then_some(universal)
}

/// The second of a stamp, counted from 2000-01-01 00:00 UT, or 18.
pub fn read_stamp(bytes: &[u8]) -> Result<u32, u32> {
    parse(bytes).ok_or(NOT_A_STAMP)
}

/// Whether the first stamp's second is earlier than, the same as or later than the
/// second's, whatever the zones, or 18.
pub fn compare_stamps(first: &[u8], second: &[u8]) -> Result<u32, u32> {
    let first = read_stamp(first)?;
    let second = read_stamp(second)?;
    Ok(match first.cmp(&second) {
        Ordering::Less => EARLIER,
        Ordering::Equal => SAME,
        Ordering::Greater => LATER,
    })
}

/// Writes the stamp of a second in a zone: 0, or 19 and nothing written.
pub fn write_stamp(bytes: &mut [u8], second: u32, zone: u32) -> u32 {
    if bytes.len() != 16 || second >= END_SECOND || zone as usize >= ZONES.len() {
        return STAMP_RANGE;
    }
    let zone = zone as usize;
    let Some(local) = second.checked_sub(HOURS_BEHIND[zone] * 3600) else {
        return STAMP_RANGE;
    };
    let day = local / 86_400;
    let month = DAYS_BEFORE_MONTH.partition_point(|&days| days <= day) - 1;
    put(&mut bytes[0..4], 2000 + month as u32 / 12);
    put(&mut bytes[4..6], month as u32 % 12 + 1);
    put(&mut bytes[6..8], day - DAYS_BEFORE_MONTH[month] + 1);
    put(&mut bytes[8..10], local / 3600 % 24);
    put(&mut bytes[10..12], local / 60 % 60);
    put(&mut bytes[12..14], local % 60);
    bytes[14..16].copy_from_slice(ZONES[zone]);
    0
}

/// Writes a number in digits, with leading zeros.
fn put(digits: &mut [u8], mut number: u32) {
    for digit in digits.iter_mut().rev() {
        *digit = b'0' + (number % 10) as u8;
        number /= 10;
    }
}
