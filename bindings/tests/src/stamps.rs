//! Stamps, valid and damaged, both round trips, and pairs of stamps compared.

use std::cmp::Ordering;

use luddrisa_model::{
    read_stamp, EARLIER, END_SECOND, HOURS_BEHIND, LATER, NOT_A_STAMP, SAME, ZONES,
};

use crate::rng::Rng;
use crate::rules::{Model, Rules};
use crate::run::{Difference, Run};

fn read(run: &mut Run, bytes: &[u8]) -> Result<(u32, u32), Difference> {
    let ours = Model.read_stamp(bytes);
    let theirs = run.subject().read_stamp(bytes);
    if ours != theirs {
        let stamp = String::from_utf8_lossy(bytes);
        return Err(format!("stamp {stamp:?}: {theirs:?}, by the model {ours:?}"));
    }
    run.reached.note_call("read stamp", ours.0);
    Ok(ours)
}

fn write(run: &mut Run, len: usize, second: u32, zone: u32) -> Result<Vec<u8>, Difference> {
    let mut ours = vec![b'-'; len];
    let mut theirs = ours.clone();
    let ours_gave = Model.write_stamp(&mut ours, second, zone);
    let theirs_gave = run.subject().write_stamp(&mut theirs, second, zone);
    if (&ours, ours_gave) != (&theirs, theirs_gave) {
        return Err(format!(
            "stamp of {second} in zone {zone} into {len} bytes: {theirs_gave} {:?}, by the model {ours_gave} {:?}",
            String::from_utf8_lossy(&theirs),
            String::from_utf8_lossy(&ours)
        ));
    }
    run.reached.note_call("write stamp", ours_gave);
    Ok(ours)
}

/// The first second that can be written in a zone.
fn first_of(zone: u32) -> u32 {
    HOURS_BEHIND[zone as usize] * 3_600
}

/// The zone that the letters of 16 bytes name.
pub fn zone_named(bytes: &[u8]) -> Option<u32> {
    let letters = bytes.get(14..)?;
    ZONES.iter().position(|zone| zone[..] == *letters).map(|zone| zone as u32)
}

/// The zone of a stamp that is refused for passing the last second alone.
pub fn zone_past_the_last(bytes: &[u8]) -> Option<u32> {
    let zone = zone_named(bytes)?;
    let in_ut = [&bytes[..14], b"UT"].concat();
    let passes = Model.read_stamp(bytes).0 != 0 && Model.read_stamp(&in_ut).0 == 0;
    passes.then_some(zone)
}

/// The number of an order.
pub fn order_number(order: Ordering) -> u32 {
    match order {
        Ordering::Less => EARLIER,
        Ordering::Equal => SAME,
        Ordering::Greater => LATER,
    }
}

/// A second, its stamp, and the second again.
fn there_and_back(run: &mut Run, second: u32, zone: u32) -> Result<Vec<u8>, Difference> {
    let bytes = write(run, 16, second, zone)?;
    let early = second < HOURS_BEHIND[zone as usize] * 3_600;
    if !early && read(run, &bytes)? != (0, second) {
        return Err(format!("second {second} in zone {zone} does not come back"));
    }
    Ok(bytes)
}

/// A stamp, its second, and the stamp again.
fn back_and_there(run: &mut Run, bytes: &[u8]) -> Result<(), Difference> {
    let (number, second) = read(run, bytes)?;
    if number != 0 {
        return Ok(());
    }
    let zone = ZONES.iter().position(|zone| zone[..] == bytes[14..]).expect("a zone") as u32;
    if write(run, 16, second, zone)? != bytes {
        return Err(format!("stamp {:?} does not come back", String::from_utf8_lossy(bytes)));
    }
    Ok(())
}

fn stamp(rng: &mut Rng) -> Vec<u8> {
    let year =
        if rng.chance(90) { rng.from_to(2000, 2099) } else { rng.pick(&[0, 1999, 2100, 9999]) };
    let month = rng.pick(&[0, 1, 2, 2, 2, 3, 4, 5, 6, 7, 8, 9, 10, 11, 12, 13]);
    let day = rng.pick(&[0, 1, 15, 28, 29, 30, 31, 32, 99]);
    let hour = rng.pick(&[0, 0, 4, 12, 16, 19, 23, 24]);
    let minute = rng.pick(&[0, 30, 59, 60]);
    let second = rng.pick(&[0, 30, 59, 60, 70]);
    let zone = std::str::from_utf8(&rng.pick(&ZONES)[..]).expect("letters");
    format!("{year:04}{month:02}{day:02}{hour:02}{minute:02}{second:02}{zone}").into_bytes()
}

/// Bytes to compare, and the second that they were made to tell; none where they were made
/// to be refused.
#[derive(Clone)]
struct Given {
    bytes: Vec<u8>,
    second: Option<u32>,
}

impl Given {
    /// A stamp of a second that its zone can tell.
    fn at(second: u32, zone: u32) -> Given {
        let mut bytes = vec![0; 16];
        assert_eq!(Model.write_stamp(&mut bytes, second, zone), 0, "{second} in zone {zone}");
        Given { bytes, second: Some(second) }
    }

    fn refused(bytes: Vec<u8>) -> Given {
        Given { bytes, second: None }
    }

    /// Any bytes, with the second that they are read as.
    fn as_read(bytes: Vec<u8>) -> Given {
        let second = read_stamp(&bytes).ok();
        Given { bytes, second }
    }

    /// A local second of 2099 that passes the last, so many before its end; the zone is not
    /// UT.
    fn past(before_end: u32, zone: u32) -> Given {
        assert!((1..=first_of(zone)).contains(&before_end), "{before_end} in zone {zone}");
        let mut bytes = Given::at(END_SECOND - before_end, 0).bytes;
        bytes[14..].copy_from_slice(ZONES[zone as usize]);
        Given::refused(bytes)
    }

    /// Any local second of 2099 that passes the last.
    fn any_past(rng: &mut Rng) -> Given {
        let zone = rng.from_to(1, 8);
        Given::past(rng.from_to(1, first_of(zone)), zone)
    }

    /// No stamp any more.
    fn damaged(&self, rng: &mut Rng) -> Given {
        let mut bytes = self.bytes.clone();
        match rng.below(5) {
            0 => bytes.truncate(rng.below(16) as usize),
            1 => bytes.extend_from_slice(&b"UT0\0"[..rng.from_to(1, 4) as usize]),
            2 => bytes[rng.below(14) as usize] = rng.pick(b"/:A- \0\xb0"),
            3 => bytes[14..].copy_from_slice(rng.pick(&[b"ut", b"Es", b"TU", b"SE", b"XX", b"00"])),
            _ => {
                let (at, digits) = rng.pick(&[
                    (0, b"19"),
                    (0, b"21"),
                    (4, b"00"),
                    (4, b"13"),
                    (6, b"00"),
                    (6, b"32"),
                    (8, b"24"),
                    (10, b"60"),
                    (12, b"60"),
                ]);
                bytes[at..at + 2].copy_from_slice(digits);
            }
        }
        Given::refused(bytes)
    }

    fn told(&self) -> String {
        format!("{:?}", String::from_utf8_lossy(&self.bytes))
    }
}

/// What comparing comes to, by the seconds that the stamps were made to tell.
fn compared_apart(first: &Given, second: &Given) -> (u32, u32) {
    match (first.second, second.second) {
        (Some(first), Some(second)) => (0, order_number(first.cmp(&second))),
        _ => (NOT_A_STAMP, 0),
    }
}

/// Two stamps compared, which is worked out a second time.
fn compare(run: &mut Run, first: &Given, second: &Given) -> Result<(), Difference> {
    let ours = Model.compare_stamps(&first.bytes, &second.bytes);
    let theirs = run.subject().compare_stamps(&first.bytes, &second.bytes);
    let what = || format!("comparing {} and {}", first.told(), second.told());
    if ours != theirs {
        return Err(format!("{}: {theirs:?}, by the model {ours:?}", what()));
    }
    let apart = compared_apart(first, second);
    if ours != apart {
        return Err(format!("{}: {ours:?}, worked out apart {apart:?}", what()));
    }
    run.reached.note_comparison(&first.bytes, &second.bytes, ours);
    Ok(())
}

/// The laws of comparing, by the subject alone: the other way round it is refused alike, or
/// earlier and later change places, and an accepted stamp is the same as itself.
fn keeps_laws(subject: &dyn Rules, first: &Given, second: &Given) -> Result<(), Difference> {
    let compared = |one: &Given, other: &Given| subject.compare_stamps(&one.bytes, &other.bytes);
    let there = compared(first, second);
    let back = compared(second, first);
    let expected = match there {
        (0, EARLIER) => (0, LATER),
        (0, LATER) => (0, EARLIER),
        same_or_refused => same_or_refused,
    };
    if back != expected {
        let (first, second) = (first.told(), second.told());
        return Err(format!("comparing {first} and {second}: {there:?}, and back {back:?}"));
    }
    for one in [first, second] {
        let itself = compared(one, one);
        if subject.read_stamp(&one.bytes).0 == 0 && itself != (0, SAME) {
            return Err(format!("comparing {} and itself: {itself:?}", one.told()));
        }
    }
    Ok(())
}

/// Every two zones, at the first seconds, in between and at the last: the same second, the
/// same local time, and seconds, minutes and hours around both; stamps that pass the last
/// second, and the nearest that do not.
fn pairs_at_the_edges() -> Vec<[Given; 2]> {
    let mut pairs = Vec::new();
    for zone in 0..9 {
        for other in zone..9 {
            let seconds = [first_of(zone), first_of(7), 230_641_200, END_SECOND - 1];
            let hours_between = i64::from(first_of(other)) - i64::from(first_of(zone));
            for second in seconds.into_iter().filter(|&second| second >= first_of(zone)) {
                for around in [0, hours_between] {
                    for apart in [-3_600, -60, -1, 0, 1, 60, 3_600] {
                        let moved = u32::try_from(i64::from(second) + around + apart);
                        let Ok(moved @ 0..END_SECOND) = moved else { continue };
                        if moved >= first_of(other) {
                            pairs.push([Given::at(second, zone), Given::at(moved, other)]);
                        }
                    }
                }
            }
            if other > 0 {
                for before_end in [1, first_of(other)] {
                    let past = Given::past(before_end, other);
                    pairs.push([Given::at(END_SECOND - 1, zone), past.clone()]);
                    pairs.push([Given::at(first_of(zone), zone), past.clone()]);
                    if zone > 0 {
                        pairs.push([Given::past(1, zone), past.clone()]);
                        pairs.push([Given::past(first_of(zone), zone), past]);
                    }
                }
            }
        }
    }
    pairs
}

/// Seconds in two zones, near one another and anywhere, and such as are refused for one
/// stamp or for both.
fn drawn_pairs(rng: &mut Rng) -> Vec<[Given; 2]> {
    // From then on every zone can tell a second.
    let start = first_of(7);
    let (zone, other) = (rng.below(9), rng.below(9));
    let second = rng.from_to(start, END_SECOND - 1);
    let apart = rng.pick(&[0, 1, 59, 60, 3_599, 3_600, 3_601]) + 3_600 * rng.below(9);
    let later = second.saturating_add(apart).min(END_SECOND - 1);
    let earlier = second.saturating_sub(apart).max(start);
    let one = Given::at(second, zone);
    let anywhere = Given::at(rng.from_to(start, END_SECOND - 1), other);
    let past = Given::any_past(rng);
    vec![
        [one.clone(), one.clone()],
        [one.clone(), Given::at(second, other)],
        [one.clone(), Given::at(later, other)],
        [one.clone(), Given::at(earlier, other)],
        [one.clone(), one.damaged(rng)],
        [one.damaged(rng), anywhere.damaged(rng)],
        [one.damaged(rng), past.clone()],
        [past, anywhere.clone()],
        [one, anywhere],
        [Given::as_read(stamp(rng)), Given::as_read(stamp(rng))],
    ]
}

fn all_pairs(rng: &mut Rng, count: u32) -> impl Iterator<Item = [Given; 2]> + '_ {
    pairs_at_the_edges().into_iter().chain((0..count).flat_map(|_| drawn_pairs(rng)))
}

/// The laws of comparing over all pairs, so many times those drawn.
pub fn laws_of(subject: &dyn Rules, seed: u64, count: u32) -> Result<(), Difference> {
    all_pairs(&mut Rng::new(seed), count)
        .try_for_each(|[first, second]| keeps_laws(subject, &first, &second))
        .map_err(|difference| format!("stamps, seed {seed}: {difference}"))
}

/// So many of each sort.
pub fn stamps(run: &mut Run, seed: u64, count: u32) -> Result<(), Difference> {
    let rng = &mut Rng::new(seed);
    let all = all(run, rng, count).and_then(|()| pairs(run, rng, count));
    all.map_err(|difference| format!("stamps, seed {seed}: {difference}"))
}

/// Each pair both ways round.
fn pairs(run: &mut Run, rng: &mut Rng, count: u32) -> Result<(), Difference> {
    for [first, second] in all_pairs(rng, count) {
        compare(run, &first, &second)?;
        compare(run, &second, &first)?;
        keeps_laws(run.subject(), &first, &second)?;
    }
    Ok(())
}

fn all(run: &mut Run, rng: &mut Rng, count: u32) -> Result<(), Difference> {
    // The first and last seconds in each zone, and around each zone's first.
    for zone in 0..9 {
        let behind = HOURS_BEHIND[zone as usize] * 3_600;
        for second in [0, 1, behind.saturating_sub(1), behind, behind + 1, END_SECOND - 1] {
            there_and_back(run, second, zone)?;
        }
        for second in [END_SECOND, END_SECOND + 1, u32::MAX] {
            write(run, 16, second, zone)?;
        }
    }
    // The last local seconds of 2099: all but UT pass the last second.
    for zone in ZONES {
        for time in ["155959", "160000", "185959", "190000", "235959"] {
            let bytes = [b"20991231", time.as_bytes(), zone].concat();
            back_and_there(run, &bytes)?;
        }
    }
    // The first and the last day of each of the 1,200 months.
    for year in 2000..2100 {
        for month in 1..=12 {
            for day in [1, 28, 29, 30, 31] {
                back_and_there(run, format!("{year}{month:02}{day:02}060000PD").as_bytes())?;
            }
        }
    }
    for _ in 0..count {
        let zone = rng.below(9);
        let bytes = there_and_back(run, rng.below(END_SECOND), zone)?;
        // One byte damaged.
        let mut damaged = bytes.clone();
        let at = rng.below(16) as usize;
        damaged[at] = match rng.below(4) {
            0 => rng.below(256) as u8,
            1 => b'0' + rng.below(12) as u8,
            2 => damaged[at] ^ 32,
            _ => rng.pick(b"UTESDCMP :/"),
        };
        back_and_there(run, &damaged)?;
        let drawn = stamp(rng);
        back_and_there(run, &drawn)?;
        // Other lengths.
        let len = rng.below(20) as usize;
        let mut other = bytes;
        other.resize(len, b'0');
        read(run, &other)?;
        write(run, len, rng.below(END_SECOND), rng.below(11))?;
        write(run, 16, rng.below(60_000), rng.pick(&[0, 1, 7, 8, 9, 10, u32::MAX]))?;
    }
    Ok(())
}
