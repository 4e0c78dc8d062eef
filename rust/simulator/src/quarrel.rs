//! Entries that quarrel (docs/RULES.md, 10.11), as text. Whether two do, and over which name, is the library's answer.

use crate::describe;
use std::collections::BTreeMap;
use varpolicy::{Namespace, Quarrel, quarrels};

/// Of a dump in which no two entries quarrel.
pub fn none(dump: &[u8]) -> String {
    let entries = match describe::split(dump).len() {
        1 => "1 entry".to_string(),
        count => format!("{count} entries"),
    };
    format!("no quarrel: {entries}, which a rebuild may register in any order")
}

/// Of a dump and its pair: the name, a line for each of the two entries, and what to do.
pub fn pair(dump: &[u8], quarrel: &Quarrel, namespaces: &BTreeMap<String, Namespace>) -> String {
    let entries = describe::split(dump);
    let Quarrel { earlier, later, .. } = *quarrel;
    let [one, other] = [earlier, later].map(|place| describe::entry_line(place, entries[place], namespaces));
    format!(
        "{quarrel}{one}{other}\n    Of the two, entry {earlier} goes before, as it was registered first: make one \
         more specific, by a hex digit for a '#', or keep their order at every rebuild."
    )
}

/// Of the entries of an engine's dump, the first two that quarrel and that registering in the order of `places` puts in
/// the other order.
pub fn changed(dump: &[u8], places: &[usize]) -> Option<Quarrel> {
    found(dump)?;
    let entries = describe::split(dump);
    places.iter().enumerate().find_map(|(index, &later)| {
        let mut overtaken = places[index + 1..].iter().copied().filter(|&place| place < later);
        overtaken.find_map(|earlier| {
            let quarrel = found(&[entries[earlier], entries[later]].concat())?;
            Some(Quarrel { earlier, later, ..quarrel })
        })
    })
}

/// The pair of an engine's dump, or of two entries of one, which end to end are a dump too.
fn found(dump: &[u8]) -> Option<Quarrel> {
    quarrels(dump).expect("entries of an engine are a dump")
}

#[cfg(test)]
mod tests {
    use super::*;
    use varpolicy::{Entry, Name};

    /// The entries of these names, end to end.
    fn dump(names: &[&str]) -> Vec<u8> {
        names.iter().flat_map(|name| Entry::new([1; 16], Name::new(name).unwrap()).pack().to_vec()).collect()
    }

    #[test]
    fn only_entries_that_change_places() {
        let dump = dump(&["A#", "", "#B", "CD"]);
        let overtaken = Quarrel { earlier: 0, later: 2, name: Name::new("AB").unwrap() };
        assert_eq!(changed(&dump, &[0, 1, 2, 3]), None);
        assert_eq!(changed(&dump, &[3, 1, 0, 2]), None);
        assert_eq!(changed(&dump, &[3, 2, 1, 0]), Some(overtaken));
        assert_eq!(changed(&dump, &[2, 0, 1, 3]), Some(overtaken));
        assert_eq!(changed(&[], &[]), None);
    }

    /// The first of the dump keeps its order; another, which comes later in it, does not.
    #[test]
    fn another_pair_than_the_first_of_the_dump() {
        let dump = dump(&["A#0", "A0#", "B#1", "B2#"]);
        let overtaken = Quarrel { earlier: 2, later: 3, name: Name::new("B21").unwrap() };
        assert_eq!(changed(&dump, &[0, 1, 3, 2]), Some(overtaken));
        assert_eq!(changed(&dump, &[2, 3, 0, 1]), None);
    }

    #[test]
    fn entries_are_counted() {
        let any_order = "which a rebuild may register in any order";
        for (names, count) in [(&[][..], "0 entries"), (&["A#"], "1 entry"), (&["A#", "B#"], "2 entries")] {
            assert_eq!(none(&dump(names)), format!("no quarrel: {count}, {any_order}"));
        }
    }
}
