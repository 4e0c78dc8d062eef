//! A short comparison, with everything that can be hit hit, and the limits as users see them.

#[test]
fn library_and_reference_agree() {
    let comparison = compare::run(40_000, 7).unwrap();
    assert_eq!(comparison.coverage.missed(), Vec::<String>::new());
}

#[test]
fn the_sweep_alone_hits_all_but_damage_and_rebuilds() {
    let comparison = compare::run(0, 7).unwrap();
    let of_histories = [
        "damage to ",
        "rebuild",
        "history with exits",
        "calls while the order differs",
        "reports while the order differs",
    ];
    let mut missed = comparison.coverage.missed();
    missed.retain(|row| !of_histories.iter().any(|group| row.starts_with(group)));
    assert_eq!(missed, Vec::<String>::new());
}

#[test]
fn the_header_and_the_reference_have_the_same_limits() {
    assert_eq!(varpolicy::MAX_ENTRIES, reference::MAX_ENTRIES);
    assert_eq!(varpolicy::POLICY_BYTES, reference::POLICY_BYTES);
    assert_eq!(varpolicy::MAX_STORE_BYTES, reference::MAX_STORE);
    assert_eq!(varpolicy::MAX_PAYLOAD_BYTES, reference::MAX_PAYLOAD);
    assert_eq!(varpolicy::MAX_NAME_UNITS, reference::MAX_UNITS);
    assert_eq!(varpolicy::MAX_LINKS, reference::MAX_LINKS);
}
