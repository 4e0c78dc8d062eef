//! Names unit by unit: under '#', place by place, and of every length.

use super::{ERASED, Outcome, Sweep, delete, engine, locking, packed_names, read, register, set, state};
use crate::call::Call;
use crate::make::{G, record, units};

pub(super) const NUMBER_SIGN: u16 = 0x23;

pub(super) fn run(sweep: &mut Sweep) -> Outcome {
    lengths(sweep)?;
    places(sweep)?;
    beginnings(sweep)?;
    under_number_sign(sweep)
}

/// Requests with names of every length in bytes, and with a zero unit at each place.
fn lengths(sweep: &mut Sweep) -> Outcome {
    let stored = |name: &[u16]| record(&G, name, 3, &[1]);
    let state = state(&[stored(&[0x41]), stored(&[0x41; 64])].concat(), ERASED, &[]);
    let long = [129, 192, 256, 257, 1 << 15, (1 << 15) + 1].map(|count| vec![0x41; 2 * count]);
    for name in packed_names().into_iter().chain(long) {
        let call = |attributes| Call::Set { namespace: G, name: name.clone(), attributes, payload: vec![1] };
        sweep.each(&state, [call(0), call(2), call(8), Call::Read { namespace: G, name: name.clone() }])?;
    }
    Ok(())
}

/// Names of every length that differ at one place, and that have '#' there.
fn places(sweep: &mut Sweep) -> Outcome {
    for count in 1..=64 {
        let name = digits(count);
        for place in 0..count {
            let bits = if count == 64 { 0..16 } else { place % 16..place % 16 + 1 };
            for bit in bits {
                let mut other = name.clone();
                other[place] ^= 1 << bit;
                let state = state(&record(&G, &other, 3, &[1]), ERASED, &[locking(G, &other)]);
                sweep.each(&state, [delete(&name), read(&name), delete(&other), read(&other)])?;
                sweep.each(&engine(&[locking(G, &other)]), [register(locking(G, &name))])?;
                let (other, name) = (record(&G, &other, 3, &[1]), [3, 2].map(|bits| record(&G, &name, bits, &[2])));
                let [beside, volatile] = name;
                sweep.each(&super::state(&[&other[..], &beside].concat(), &[], &[]), [read(&units("A"))])?;
                sweep.each(&super::state(&other, &volatile, &[]), [read(&units("A"))])?;
            }
            let mut pattern = name.clone();
            pattern[place] = NUMBER_SIGN;
            sweep.each(&engine(&[locking(G, &pattern)]), [delete(&name), delete(&pattern)])?;
            sweep.each(&engine(&[locking(G, &name)]), [delete(&pattern)])?;
        }
    }
    Ok(())
}

/// A name of so many digits.
pub(super) fn digits(count: usize) -> Vec<u16> {
    units("0aF9").into_iter().cycle().take(count).collect()
}

/// Names that begin alike.
fn beginnings(sweep: &mut Sweep) -> Outcome {
    for count in 1..64 {
        let (short, long) = (digits(count), digits(count + 1));
        for (stored, asked) in [(&short, &long), (&long, &short)] {
            let state = state(&record(&G, stored, 3, &[1]), ERASED, &[locking(G, stored)]);
            sweep.each(&state, [delete(asked), read(asked), set(asked, 3, vec![2])])?;
        }
    }
    Ok(())
}

/// A name of so many units with this one at that place.
pub(super) fn among(count: usize, place: usize, unit: u16) -> Vec<u16> {
    let mut name = vec![0x5A; count];
    name[place] = unit;
    name
}

/// Each of the 65,536 units under a '#', alone and as one of four and of eight units.
fn under_number_sign(sweep: &mut Sweep) -> Outcome {
    for count in [1, 4, 8] {
        let entries: Vec<Vec<u8>> = (0..count).map(|place| locking(G, &among(count, place, NUMBER_SIGN))).collect();
        let calls = (0..=u16::MAX).map(|unit| delete(&among(count, usize::from(unit) % count, unit)));
        sweep.history(engine(&entries), calls)?;
    }
    Ok(())
}
