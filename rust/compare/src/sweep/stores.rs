//! The stores: records bit by bit, their lengths and room to the byte, and where variables stand.

use super::{ERASED, Outcome, Sweep, delete, full, read, set, state, store, with_each_bit_changed};
use crate::call::Call;
use crate::make::{G, record, units};
use std::slice::from_ref;
use varpolicy::{MAX_STORE_BYTES, Namespace};

pub(super) fn run(sweep: &mut Sweep) -> Outcome {
    bits(sweep)?;
    sizes(sweep)?;
    attributes(sweep)?;
    names(sweep)?;
    ends(sweep)?;
    rests(sweep)?;
    long_ends(sweep)?;
    repeats(sweep)?;
    room(sweep)?;
    appends(sweep)?;
    places(sweep)
}

/// The calls that are lent the stores, those refused on other grounds among them.
fn lent_stores() -> [Call; 8] {
    let name = units("AB");
    [
        Call::PowerOn { disabling_allowed: 1 },
        Call::Restart { disabling_allowed: 1 },
        read(&name),
        read(&[]),
        read(&units("?")),
        set(&name, 3, vec![5]),
        set(&name, 4, vec![5; 1025]),
        set(&[], 8, Vec::new()),
    ]
}

/// The calls over the store as the one and as the other of the two.
fn as_either(sweep: &mut Sweep, bytes: &[u8]) -> Outcome {
    sweep.each(&state(bytes, ERASED, &[]), lent_stores())?;
    sweep.each(&state(ERASED, bytes, &[]), lent_stores())
}

/// Two records, with each bit changed.
fn bits(sweep: &mut Sweep) -> Outcome {
    for attributes in [3, 2] {
        let records = [record(&G, &units("AB"), attributes, &[1]), record(&G, &units("C"), attributes, &[1, 2, 3])];
        for bytes in with_each_bit_changed(&full(&records)) {
            let (nv, volatile) = if attributes == 3 { (&bytes[..], ERASED) } else { (ERASED, &bytes[..]) };
            sweep.each(&state(nv, volatile, &[]), lent_stores())?;
        }
    }
    Ok(())
}

/// NameSize and DataSize as they may and may not be, with the bytes that they speak of there or not.
fn sizes(sweep: &mut Sweep) -> Outcome {
    for units in [0, 1, 2, 63, 64, 65] {
        for length in [0, 1, 2, 1023, 1024, 1025] {
            let record = record(&G, &vec![0x41; units], 3, &vec![7; length]);
            as_either(sweep, &store(1300, &[record]))?;
        }
    }
    let wild = [0, 1, 2, 3, 4, 5, 6, 7, 130, 131, 132, 1024, 1025, 0x1_0001, 0x1_0004, 0x8000_0001, 0x8000_0004];
    for size in wild.into_iter().chain([u32::MAX - 36, u32::MAX - 3, u32::MAX - 1, u32::MAX]) {
        for at in [8, 12] {
            let mut bytes = store(200, &[record(&G, &units("AB"), 3, &[1, 2, 3, 4])]);
            bytes[at..at + 4].copy_from_slice(&size.to_le_bytes());
            as_either(sweep, &bytes)?;
            bytes[8 + 12 - at + 4..][..4].copy_from_slice(&size.wrapping_neg().to_le_bytes());
            as_either(sweep, &bytes)?;
        }
    }
    Ok(())
}

/// Stored attributes: each bit alone and beside BS, and each number of the low bits, in either store.
fn attributes(sweep: &mut Sweep) -> Outcome {
    let single = (0..32).flat_map(|bit| [0, 2, 3].map(|others| (1 << bit) | others));
    for attributes in single.chain(0..8) {
        as_either(sweep, &store(100, &[record(&G, &units("AB"), attributes, &[1])]))?;
    }
    Ok(())
}

/// Records of names with a zero unit at each place, and without the closing one.
fn names(sweep: &mut Sweep) -> Outcome {
    for count in [1, 2, 5, 64] {
        for place in 0..=count {
            let mut name = vec![0x41; count];
            if let Some(unit) = name.get_mut(place) {
                *unit = 0;
            }
            let mut bytes = store(200, &[record(&G, &name, 3, &[1])]);
            if place == count {
                bytes[32 + 2 * count] = 1;
            }
            as_either(sweep, &bytes)?;
        }
    }
    Ok(())
}

/// Records with each padding, padded with another byte, cut at each byte, and with a byte behind them.
fn ends(sweep: &mut Sweep) -> Outcome {
    for length in 1..=4 {
        let record = record(&G, &units("AB"), 3, &vec![1; length]);
        for place in 32..record.len() {
            let mut bytes = record.clone();
            bytes[place] ^= 0x11;
            as_either(sweep, &bytes)?;
            bytes[place] = 0;
            as_either(sweep, &bytes)?;
            as_either(sweep, &record[..place])?;
        }
        let mut zeros = record.clone();
        zeros[38 + length..].fill(0);
        as_either(sweep, &zeros)?;
        for behind in 0..12 {
            let mut bytes = store(record.len() + behind, from_ref(&record));
            as_either(sweep, &bytes)?;
            for place in record.len()..bytes.len() {
                for byte in [0, 0x7F, 0xAA, 0xFE] {
                    bytes[place] = byte;
                    as_either(sweep, &bytes)?;
                }
                bytes[place] = 0xFF;
            }
        }
    }
    Ok(())
}

/// One byte at each place of a long rest.
fn rests(sweep: &mut Sweep) -> Outcome {
    let record = record(&G, &units("AB"), 3, &[1]);
    for place in 0..100 {
        let mut bytes = store(record.len() + 100, from_ref(&record));
        bytes[record.len() + place] = 0xFE;
        sweep.each(&state(&bytes, ERASED, &[]), lent_stores())?;
    }
    Ok(())
}

/// Stores around the greatest length, erased, full, and with one byte behind the records.
fn long_ends(sweep: &mut Sweep) -> Outcome {
    let record = record(&G, &units("AB"), 3, &[1]);
    for len in [MAX_STORE_BYTES - 1, MAX_STORE_BYTES, MAX_STORE_BYTES + 1, 2 * MAX_STORE_BYTES, 2 * MAX_STORE_BYTES + 1]
    {
        let bytes = store(len, from_ref(&record));
        sweep.each(&state(&bytes, ERASED, &[]), lent_stores())?;
        sweep.each(&state(ERASED, &vec![0xFF; len], &[]), lent_stores())?;
        for place in [record.len(), 256, 4095, 20_000, len - 2, len - 1] {
            let mut bytes = bytes.clone();
            bytes[place] = 0xFE;
            sweep.each(&state(&bytes, ERASED, &[]), [Call::Restart { disabling_allowed: 1 }])?;
        }
    }
    Ok(())
}

/// A variable twice in one store, and in both; and its neighbours, which are others.
fn repeats(sweep: &mut Sweep) -> Outcome {
    let mut near = G;
    near[15] ^= 1;
    let variables: [(Namespace, &str); 5] = [(G, "AB"), (G, "AC"), (G, "A"), (G, "ABC"), (near, "AB")];
    let records = |attributes: u32| {
        variables.map(|(namespace, name)| record(&namespace, &units(name), attributes, &[attributes as u8]))
    };
    let (nv, volatile) = (records(3), records(2));
    for first in 0..variables.len() {
        for second in 0..variables.len() {
            let pair = |records: &[Vec<u8>; 5]| full(&[records[first].clone(), records[second].clone()]);
            let triple = |records: &[Vec<u8>; 5]| full(&[pair(records), records[first].clone()]);
            sweep.each(&state(&pair(&nv), ERASED, &[]), lent_stores())?;
            sweep.each(&state(ERASED, &pair(&volatile), &[]), lent_stores())?;
            sweep.each(&state(&triple(&nv), ERASED, &[]), lent_stores())?;
            sweep.each(&state(&nv[first], &volatile[second], &[]), lent_stores())?;
            sweep.each(&state(&full(&nv[..first]), &full(&volatile[second..]), &[]), lent_stores())?;
        }
    }
    Ok(())
}

/// Writing with room to the byte: what is created, rewritten and appended to, with each padding, alone and
/// beside another variable, in either store.
fn room(sweep: &mut Sweep) -> Outcome {
    let (other, name) = (units("other"), units("AB"));
    for kind in [1, 0] {
        let beside = record(&G, &other, 2 | kind, &[9; 6]);
        let old = record(&G, &name, 2 | kind, &[1; 3]);
        let arrangements =
            [vec![], vec![beside.clone()], vec![old.clone()], vec![old.clone(), beside.clone()], vec![beside, old]];
        for records in arrangements {
            let used = records.concat().len();
            for len in used..used + 50 {
                let bytes = store(len, &records);
                let (nv, volatile) = if kind == 1 { (&bytes[..], ERASED) } else { (ERASED, &bytes[..]) };
                let calls =
                    (1..=12).flat_map(|length| [0, 0x40].map(|append| set(&name, 2 | kind | append, vec![5; length])));
                sweep.each(&state(nv, volatile, &[]), calls)?;
            }
        }
    }
    Ok(())
}

/// Appends to lengths around the greatest, with room for them and without.
fn appends(sweep: &mut Sweep) -> Outcome {
    let name = units("AB");
    for old in [1, 2, 512, 1022, 1023, 1024] {
        let record = [record(&G, &name, 3, &vec![1; old])];
        for bytes in [store(3000, &record), full(&record)] {
            let around = [1022, 1023, 1024, 1025, 1026, 2048].map(|sum: usize| sum.checked_sub(old));
            let lengths = around.into_iter().flatten().filter(|length| *length <= 1024).chain([0, 1, 1024]);
            let calls = lengths.map(|length| set(&name, 0x43, vec![2; length]));
            sweep.each(&state(&bytes, ERASED, &[]), calls)?;
        }
    }
    Ok(())
}

/// Three variables in each store, each of them rewritten, appended to, deleted and read, and one more
/// created, one call after the other.
fn places(sweep: &mut Sweep) -> Outcome {
    let lens = [("A", 1), ("BBB", 2), ("CC", 7)];
    let records = |prefix: &str, attributes: u32| {
        let record = |(name, len): (&str, usize)| {
            record(&G, &units(&format!("{prefix}{name}")), attributes, &vec![len as u8; len])
        };
        store(320, &lens.map(record))
    };
    let state = state(&records("nv", 7), &records("v", 6), &[]);
    for name in ["nvA", "nvBBB", "nvCC", "vA", "vBBB", "vCC"].map(units) {
        let bits = if name[0] == 0x6E { 7 } else { 6 };
        sweep.each(&state, each_payload(&name, bits))?;
        let again = [delete(&name), read(&name), set(&name, bits, vec![4; 9]), read(&name)];
        sweep.history(state.clone(), each_payload(&name, bits).into_iter().chain(again))?;
    }
    let new = ["new", "newer", "newest"].map(units);
    let created = new.iter().zip([7, 6, 7]).map(|(name, bits)| set(name, bits, vec![3; 5]));
    sweep.history(state, created.chain(new.iter().map(|name| read(name))))
}

/// Rewrites and appends of several lengths, reads between them.
fn each_payload(name: &[u16], bits: u32) -> Vec<Call> {
    let lengths = [1, 2, 3, 4, 5, 8, 20];
    let calls =
        lengths.map(|length| [set(name, bits, vec![8; length]), set(name, bits | 0x40, vec![9; length]), read(name)]);
    calls.into_iter().flatten().chain([delete(name)]).collect()
}
