//! Use against postings, worked out apart from the model: each row's megawatts are
//! put on the path that carries them and on the one that they keep free.

use luddrisa_model::*;

/// The path of a row and that of its related row, which may be the same.
pub fn both_paths(ledger: &[u32], row: Row) -> Vec<u32> {
    let related = row.get(ledger, RELATED);
    let above = (related != 0).then(|| Row::of(ledger, related).get(ledger, PATH));
    [row.get(ledger, PATH)].into_iter().chain(above).collect()
}

/// Use of every path in every hour, in the order of the postings.
pub fn uses(ledger: &[u32]) -> Vec<u64> {
    let hours = ledger[HOURS] as usize;
    let mut uses = vec![0; posting_words(ledger[HOURS])];
    for reference in 1..=ledger[USED] {
        let row = Row::of(ledger, reference);
        if row.get(ledger, STATUS) != CONFIRMED {
            continue;
        }
        let mut paths = vec![row.get(ledger, PATH)];
        if row.get(ledger, TYPE) == REDIRECT_NON_FIRM {
            let related = Row::of(ledger, row.get(ledger, RELATED));
            let left = related.get(ledger, PATH);
            if related.get(ledger, STATUS) == CONFIRMED && !paths.contains(&left) {
                paths.push(left);
            }
        }
        let available = &ledger[row.profile(AVAILABLE)];
        for path in paths {
            for hour in 0..hours {
                uses[(path as usize - 1) * hours + hour] += u64::from(available[hour]);
            }
        }
    }
    uses
}

/// No path is used beyond its posting in any hour.
pub fn within(ledger: &[u32], postings: &[u32]) -> Result<(), String> {
    let hours = ledger[HOURS] as usize;
    for (at, (mw, &posted)) in uses(ledger).into_iter().zip(postings).enumerate() {
        if mw > u64::from(posted) {
            let (path, hour) = (at / hours + 1, at % hours);
            return Err(format!("path {path}, hour {hour}: use {mw}, posted {posted}"));
        }
    }
    Ok(())
}
