//! Stamps compared.

use std::cmp::Ordering;

use luddrisa::{calls, compare_stamps, read_stamp, write_stamp, Refusal, Zone};

#[test]
fn stamps_are_compared_by_their_seconds() {
    for (first, second, order) in [
        ("20070423060000ES", "20070423070000ED", Ordering::Equal),
        ("20000101000000PD", "20000101000000UT", Ordering::Greater),
        // The hour that both share in the night when the clocks are put back.
        ("20071104013000ED", "20071104013000ES", Ordering::Less),
        ("20991231155959PS", "20991231235959UT", Ordering::Equal),
        ("20061231190000ES", "20061231235959UT", Ordering::Greater),
    ] {
        let (first, second) = (first.as_bytes(), second.as_bytes());
        assert_eq!(compare_stamps(first, second), Ok(order));
        assert_eq!(compare_stamps(second, first), Ok(order.reverse()));
        assert_eq!(compare_stamps(first, first), Ok(Ordering::Equal));
        assert_eq!(read_stamp(first).unwrap().cmp(&read_stamp(second).unwrap()), order);
    }
}

#[test]
fn every_zone_is_compared() {
    let noon = read_stamp(b"20070423120000UT").unwrap();
    let told = |second| move |&zone: &Zone| write_stamp(second, zone).unwrap();
    for first in Zone::ALL.iter().map(told(noon)) {
        for (second, order) in
            [(noon - 1, Ordering::Greater), (noon, Ordering::Equal), (noon + 1, Ordering::Less)]
        {
            for other in Zone::ALL.iter().map(told(second)) {
                assert_eq!(compare_stamps(&first, &other), Ok(order));
            }
        }
    }
}

#[test]
fn comparisons_are_refused() {
    let fine = b"20070423060000ES";
    let refused = Err(Refusal::NOT_A_STAMP);
    for text in [
        "20070423220070ES",
        "20991231160000PS",
        "20070101000000ut",
        "20070101000000U",
        "20070101000000UT ",
        "\u{660}0070101000000UT",
        "",
    ] {
        assert_eq!(compare_stamps(text.as_bytes(), fine), refused, "{text}");
        assert_eq!(compare_stamps(fine, text.as_bytes()), refused, "{text}");
        assert_eq!(compare_stamps(text.as_bytes(), text.as_bytes()), refused, "{text}");
    }
    assert_eq!(compare_stamps(&[255; 16], fine), refused);
}

/// The order is written whatever was there before.
#[test]
fn the_numbers_of_a_comparison() {
    let (earlier, later) = (b"20070423060000ES", b"20070423060001ES");
    assert_eq!(calls::compare_stamps(earlier, later), (0, 0));
    assert_eq!(calls::compare_stamps(earlier, earlier), (0, 1));
    assert_eq!(calls::compare_stamps(later, earlier), (0, 2));
    assert_eq!(calls::compare_stamps(later, b""), (18, 0));
    assert_eq!(calls::compare_stamps(b"", later), (18, 0));
    assert_eq!(calls::compare_stamps(b"", b""), (18, 0));
}

#[test]
fn a_list_is_sorted_across_zones() {
    let mut list = [
        "20070423070000ED",
        "20070423050000PS",
        "20070423120000UT",
        "20070423060000ES",
        "20070423110000UT",
        "20070423105959UT",
        "20070423070000ES",
    ];
    list.sort_by(|first, second| compare_stamps(first.as_bytes(), second.as_bytes()).unwrap());
    assert_eq!(
        list,
        [
            "20070423105959UT",
            // The same second, as they came.
            "20070423070000ED",
            "20070423060000ES",
            "20070423110000UT",
            "20070423120000UT",
            "20070423070000ES",
            "20070423050000PS",
        ]
    );
}
