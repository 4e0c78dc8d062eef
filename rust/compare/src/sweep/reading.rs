//! What a reader says of a dump (docs/RULES.md, 10.12): dumps cut, changed and added to, malformed entries and repeats
//! at each place, the limits, and every number that is handed out of an entry. Each is read in several cuts.

use super::dumps::{bad_entries, lists, repeated_lists};
use super::{Outcome, Sweep, entry, one_of_each_type, packed_names, with_each_bit_changed};
use crate::FORMER_POLICY_BYTES;
use crate::make::{EntryFields, G, LONGEST, SHARE, closed, entries_of_size, entries_of_sum, entry_of_size, numbered};
use crate::make::{packed, unit_bytes, units};
use crate::pieces;
use crate::reading::{Fed, Watch};
use reference::{MAX_ENTRIES, MAX_UNITS, POLICY_BYTES};
use varpolicy::Namespace;

pub(super) fn run(sweep: &mut Sweep) -> Outcome {
    ends(sweep)?;
    bits(sweep)?;
    malformed(sweep)?;
    bad_names(sweep)?;
    repeats(sweep)?;
    near_repeats(sweep)?;
    counts(sweep)?;
    sums(sweep)?;
    records(sweep)?;
    behind_the_limits(sweep)?;
    sizes(sweep)?;
    signs(sweep)?;
    near_signs(sweep)?;
    locks(sweep)?;
    junk(sweep)
}

/// Dumps of more bytes are not read byte by byte here, and their verdict is asked for once in each cut.
const SHORT: usize = 1000;

/// Reads bytes in as few pieces as there can be, with a cut in their last entry, in pieces of 45, and byte by byte.
fn read(sweep: &mut Sweep, dump: &[u8]) -> Outcome {
    let (mut fed, count) = (Fed::new(dump), dump.len());
    let last = count.saturating_sub(1 + count % 43);
    let watch = if count > SHORT { Watch::Last } else { Watch::EachPiece };
    for cut in [pieces::few(count), pieces::of_length(count, 45), pieces::cut_at(count, &[last])] {
        sweep.comparison.read(&mut fed, &cut, watch)?;
    }
    if count > SHORT {
        return Ok(());
    }
    sweep.comparison.read(&mut fed, &pieces::single(count), Watch::Last)
}

/// Reads a dump of these entries.
fn read_list(sweep: &mut Sweep, entries: &[Vec<u8>]) -> Outcome {
    read(sweep, &entries.concat())
}

/// Dumps cut at each byte, at the front too, and with zeros and other bytes behind.
fn ends(sweep: &mut Sweep) -> Outcome {
    let longest = vec![entry_of_size(44, 1), entry_of_size(LONGEST, 2)];
    for dump in lists().iter().chain([&longest]).map(|list| list.concat()) {
        for len in 0..=dump.len() {
            read(sweep, &dump[..len])?;
            read(sweep, &dump[len..])?;
        }
        for count in (0..=50).chain([LONGEST - 1, LONGEST, LONGEST + 1]) {
            read(sweep, &[&dump[..], &vec![0; count]].concat())?;
        }
        for byte in 1..=u8::MAX {
            read(sweep, &[&dump[..], &[byte]].concat())?;
            read(sweep, &[&dump[..], &[byte; 44]].concat())?;
        }
    }
    Ok(())
}

/// Each bit of a dump changed.
fn bits(sweep: &mut Sweep) -> Outcome {
    for list in lists() {
        with_each_bit_changed(&list.concat()).try_for_each(|dump| read(sweep, &dump))?;
    }
    Ok(())
}

/// Malformed entries before, between and behind others.
fn malformed(sweep: &mut Sweep) -> Outcome {
    let [a, b, ..] = one_of_each_type();
    for bad in bad_entries() {
        read_list(sweep, &[bad.clone(), a.clone()])?;
        read_list(sweep, &[a.clone(), bad.clone(), b.clone()])?;
        read_list(sweep, &[a.clone(), b.clone(), bad])?;
    }
    Ok(())
}

/// Good and bad names of an entry and of its trigger.
fn bad_names(sweep: &mut Sweep) -> Outcome {
    let [a, b, ..] = one_of_each_type();
    for name in packed_names() {
        let plain = EntryFields { name: name.clone(), ..entry("") };
        let mut triggered = entry("Q").with_trigger(G, &units("T"), 0);
        triggered.trigger.truncate(18);
        triggered.trigger.extend(&name);
        for fields in [plain, triggered] {
            read_list(sweep, &[a.clone(), fields.pack(), b.clone()])?;
        }
    }
    Ok(())
}

/// Entries repeated at each place.
fn repeats(sweep: &mut Sweep) -> Outcome {
    repeated_lists().iter().try_for_each(|list| read_list(sweep, list))
}

/// Entries that nearly repeat each other: with another namespace or another name by one bit, unit or length.
fn near_repeats(sweep: &mut Sweep) -> Outcome {
    for name in ["", "A", "A#"] {
        for namespace in with_each_bit_changed(&G) {
            let namespace: Namespace = namespace.try_into().expect("16 bytes");
            read_list(sweep, &[entry(name).pack(), EntryFields::new(namespace, &units(name)).pack()])?;
        }
    }
    for length in [1, 2, 3, 4, 5, 8, 9, 16, 63, MAX_UNITS] {
        let name = vec![0x41; length];
        for (place, bit) in (0..length).flat_map(|place| (0..16).map(move |bit| (place, bit))) {
            let mut other = name.clone();
            other[place] ^= 1 << bit;
            read_list(sweep, &[name.clone(), other].map(|name| EntryFields::new(G, &name).pack()))?;
        }
        for other in [vec![0x41; length - 1], [&name[..], &[0x41]].concat(), vec![0x23; length]] {
            let both = [&name, &other].map(|name| EntryFields::new(G, name).pack());
            read_list(sweep, &both)?;
        }
    }
    let names = ["Boot####", "Boot0000", "Boot000#", "BOOT0000", "boot####", "Boot", ""];
    read_list(sweep, &names.map(|name| entry(name).pack()))
}

/// Every number of entries around the limit, some that are far over it, and a bad entry behind each number.
fn counts(sweep: &mut Sweep) -> Outcome {
    for count in (0..=MAX_ENTRIES + 3).chain([255, 256, 257, 300, 512]) {
        read_list(sweep, &entries_of_size(44, count))?;
    }
    for size in [SHARE - 2, SHARE, SHARE + 2] {
        for count in MAX_ENTRIES - 3..=MAX_ENTRIES + 1 {
            read_list(sweep, &entries_of_size(size, count))?;
        }
    }
    let bad = EntryFields { version: 0, ..entry("") }.pack();
    for count in 0..=MAX_ENTRIES {
        let entries = entries_of_size(44, count);
        read_list(sweep, &[&entries[..], &[bad.clone(), entry("").pack()]].concat())?;
    }
    Ok(())
}

/// Sums around the limit, with the longest entries and with shorter ones.
fn sums(sweep: &mut Sweep) -> Outcome {
    for sum in (POLICY_BYTES - 6..=POLICY_BYTES + 6).step_by(2).chain([2 * POLICY_BYTES, 1 << 16, (1 << 16) + 50]) {
        read_list(sweep, &entries_of_sum(sum))?;
    }
    for sum in (FORMER_POLICY_BYTES - 4..=FORMER_POLICY_BYTES + 4).step_by(2) {
        read_list(sweep, &entries_of_sum(sum))?;
    }
    for count in POLICY_BYTES / LONGEST - 1..POLICY_BYTES / LONGEST + 3 {
        read_list(sweep, &entries_of_size(LONGEST, count))?;
    }
    let full = entries_of_size(SHARE, MAX_ENTRIES - 1);
    for size in [SHARE - 2, SHARE, SHARE + 2, LONGEST] {
        let last = [entry_of_size(size, MAX_ENTRIES), entry_of_size(44, MAX_ENTRIES + 1)];
        read_list(sweep, &[&full[..], &last].concat())?;
    }
    Ok(())
}

/// Policy records as they stand, whole and in part, and with bytes behind.
fn records(sweep: &mut Sweep) -> Outcome {
    let mut all = lists();
    all.extend([entries_of_size(44, MAX_ENTRIES), entries_of_size(SHARE, MAX_ENTRIES), entries_of_sum(POLICY_BYTES)]);
    for entries in all {
        let record = packed(&entries);
        let used = entries.concat().len();
        for len in [used, FORMER_POLICY_BYTES, POLICY_BYTES - 44, POLICY_BYTES - 1, POLICY_BYTES] {
            read(sweep, &record[..len])?;
        }
        read(sweep, &[&record[..], &[0]].concat())?;
        read(sweep, &[&record[..], &record].concat())?;
    }
    Ok(())
}

/// Full dumps with one entry more, which is good, malformed, repeated or cut at each of its first bytes.
fn behind_the_limits(sweep: &mut Sweep) -> Outcome {
    let good = entry_of_size(50, 999);
    let malformed = EntryFields { version: 0, ..entry("Q") }.pack();
    for full in [entries_of_size(44, MAX_ENTRIES), entries_of_size(SHARE, MAX_ENTRIES), entries_of_sum(POLICY_BYTES)] {
        let repeats = [full[0].clone(), full[full.len() - 1].clone()];
        for more in [&good, &malformed].into_iter().chain(&repeats) {
            for len in (0..=more.len().min(50)).chain([more.len()]) {
                let dump = [full.concat(), more[..len].to_vec()].concat();
                let mut fed = Fed::new(&dump);
                let cuts = [full.concat().len(), dump.len() - len / 2].map(|at| pieces::cut_at(dump.len(), &[at]));
                for cut in cuts {
                    sweep.comparison.read(&mut fed, &cut, Watch::EachPiece)?;
                }
            }
        }
    }
    Ok(())
}

/// Entries of every Size.
fn sizes(sweep: &mut Sweep) -> Outcome {
    let sizes = [44].into_iter().chain((48..=LONGEST).step_by(2));
    let entries: Vec<Vec<u8>> = sizes.enumerate().map(|(number, size)| entry_of_size(size, number)).collect();
    in_dumps(sweep, entries)
}

/// Reads all these entries, in dumps of as many as fit.
fn in_dumps(sweep: &mut Sweep, entries: Vec<Vec<u8>>) -> Outcome {
    let mut list: Vec<Vec<u8>> = Vec::new();
    for entry in entries {
        if list.len() == MAX_ENTRIES || list.concat().len() + entry.len() > POLICY_BYTES {
            read_list(sweep, &std::mem::take(&mut list))?;
        }
        list.push(entry);
    }
    read_list(sweep, &list)
}

/// Names of every number of units with every number of '#', which stand at the front or at the back.
fn signs(sweep: &mut Sweep) -> Outcome {
    let mut entries = Vec::new();
    for length in 1..=MAX_UNITS {
        for signs in 0..=length {
            let mut name = vec![0x23; length];
            name[signs..].fill(0x41);
            if length % 2 == 1 {
                name.reverse();
            }
            entries.push(EntryFields::new(numbered(entries.len()), &name).pack());
        }
    }
    in_dumps(sweep, entries)
}

/// Units that are nearly '#', and '#' beside the name: in a namespace, in reserved bytes, across two units.
fn near_signs(sweep: &mut Sweep) -> Outcome {
    let near: [&[u16]; 9] =
        [&[0x2300], &[0x2341], &[0x4123], &[0x2323], &[0x0123], &[0x22, 0x24], &[0xFF03], &[0x2300, 0x4100], &[0x23]];
    for name in near {
        let fields = EntryFields { reserved: [0x23, 0, 0x23], ..EntryFields::new([0x23; 16], name) };
        let sizes = EntryFields { min_size: 0x23, max_size: 0x23_0023, must_have: 0x23, ..fields.clone() };
        let triggered = fields.clone().with_trigger([0x23; 16], &units("T\u{2341}"), 0x23);
        for fields in [fields, sizes, triggered] {
            read_list(sweep, &[fields.pack(), entry("##").pack()])?;
        }
    }
    Ok(())
}

/// Every lock type with every kind of name, and with reserved bytes.
fn locks(sweep: &mut Sweep) -> Outcome {
    let mut entries = Vec::new();
    for name in ["", "A", "A#", "##"] {
        for lock_type in 0..4 {
            let fields = EntryFields { lock_type, ..EntryFields::new(numbered(entries.len()), &units(name)) };
            let reserved = EntryFields { reserved: [1, 2, 3], ..fields };
            entries.push(match lock_type {
                3 => reserved.with_trigger(G, &units("Trigger"), 2).pack(),
                _ => reserved.pack(),
            });
        }
    }
    for shift in 0..entries.len() {
        entries.rotate_left(1);
        read_list(sweep, &entries[..entries.len() - shift])?;
    }
    Ok(())
}

/// The bytes of an entry that stand in another entry's name, beginning at an odd byte.
fn entry_in_a_name() -> Vec<u8> {
    let fields = EntryFields {
        min_size: 0x0101_0101,
        max_size: 0x0101_0101,
        must_have: 0x0101_0101,
        cant_have: 0x0202_0202,
        reserved: [1; 3],
        ..EntryFields::new([0x11; 16], &[])
    };
    let mut name = [&[1][..], &fields.pack(), &[1]].concat();
    name.resize(name.len() + name.len() % 2, 1);
    EntryFields { name: closed(&crate::steps::units(&name)), ..entry("") }.pack()
}

/// Bytes that are no entries, short and long; good entries over and over; and entries of which another is a part.
fn junk(sweep: &mut Sweep) -> Outcome {
    let [a, b, ..] = one_of_each_type();
    for byte in [0, 1, 0x2C, 0x41, 0xFF] {
        for count in [1, 5, 6, 7, 43, 44, 322, 323, 5000, POLICY_BYTES, 70_000] {
            read(sweep, &vec![byte; count])?;
            read(sweep, &[a.clone(), vec![byte; count]].concat())?;
        }
    }
    for size in [0, 1, 6, 43, 44, 45, 46, 47, 48, 322, 323, 324, 4096, 0x7FFF, 0x8000, 0xFFFF_u16] {
        let mut claims = a.clone();
        claims[4..6].copy_from_slice(&size.to_le_bytes());
        for count in [0, 100, 400, 70_000] {
            read(sweep, &[b.clone(), claims.clone(), vec![1; count]].concat())?;
        }
    }
    read(sweep, &[a.clone(), b.clone()].concat().repeat(1000))?;
    let within = entry_in_a_name();
    let list = [a, within, unit_bytes(&units("Q"))];
    read_list(sweep, &list[..2])?;
    read_list(sweep, &list)?;
    for dump in [list[..2].concat(), list.concat()] {
        let mut fed = Fed::new(&dump);
        for cut in [pieces::few(dump.len()), pieces::single(dump.len())] {
            sweep.comparison.every_place(&mut fed, &cut)?;
        }
    }
    Ok(())
}
