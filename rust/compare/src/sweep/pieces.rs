//! Dumps in pieces (docs/RULES.md, 10.12): cut at every place, in pieces of every length, with pieces that are refused
//! anywhere between and of every length; and readers of any bytes.

use super::dumps::lists;
use super::{Outcome, Sweep, entry, one_of_each_type};
use crate::make::{EntryFields, LONGEST, SHARE, entries_of_size, entries_of_sum, entry_of_size};
use crate::pieces::{self, Piece};
use crate::random::Random;
use crate::reader::{MAX_PIECE, READER_BYTES, Reader};
use crate::reading::{Fed, Watch};
use reference::{MAX_ENTRIES, POLICY_BYTES};

pub(super) fn run(sweep: &mut Sweep) -> Outcome {
    two_pieces(sweep)?;
    three_pieces(sweep)?;
    long_dumps(sweep)?;
    every_length(sweep)?;
    refused(sweep)?;
    refused_lengths(sweep)?;
    any_readers(sweep)
}

/// Two entries in 94 bytes.
fn short() -> Vec<u8> {
    [EntryFields { lock_type: 1, ..entry("") }.pack(), entry("A#").pack()].concat()
}

/// The dump of 94 bytes as it is, cut short, malformed, repeated and with zeros behind.
fn short_dumps() -> Vec<Vec<u8>> {
    let good = short();
    let mut malformed = good.clone();
    malformed[44] = 1;
    let repeated = [&good[..44], &good[..44], &good[44..]].concat();
    vec![good.clone(), good[..90].to_vec(), malformed, repeated, [&good[..], &[0; 8]].concat()]
}

/// Dumps of some hundred bytes, good and bad.
fn dumps() -> Vec<Vec<u8>> {
    let [a, b, c, d] = one_of_each_type();
    let mut dumps: Vec<Vec<u8>> = lists().iter().map(|list| list.concat()).collect();
    dumps.extend(short_dumps());
    let longest = entry_of_size(LONGEST, 7);
    dumps.push([longest.clone(), a.clone(), longest.clone(), b.clone()].concat());
    dumps.push([a.clone(), longest, b.clone(), d.clone()].concat());
    let sign = entry("D").with_trigger([7; 16], &[0x54, 0x23], 7).pack();
    dumps.push([a.clone(), sign, b.clone()].concat());
    for size in [0, 43, 323, 0xFFFF_u16] {
        let mut claims = c.clone();
        claims[4..6].copy_from_slice(&size.to_le_bytes());
        dumps.push([b.clone(), claims, d.clone()].concat());
    }
    dumps.push([a, b, c, d, vec![0xFF; 100]].concat());
    dumps
}

/// Each of those dumps in one piece, byte by byte, and in two pieces with the cut at every place.
fn two_pieces(sweep: &mut Sweep) -> Outcome {
    for dump in dumps() {
        let (mut fed, count) = (Fed::new(&dump), dump.len());
        for cut in [pieces::few(count), pieces::single(count)] {
            sweep.comparison.read(&mut fed, &cut, Watch::EachPiece)?;
            sweep.comparison.every_place(&mut fed, &cut)?;
        }
        for place in 0..=count {
            sweep.comparison.read(&mut fed, &pieces::cut_at(count, &[place]), Watch::EachPiece)?;
        }
    }
    Ok(())
}

/// Dumps of some 94 bytes in three pieces, with the cuts at every two places.
fn three_pieces(sweep: &mut Sweep) -> Outcome {
    for dump in short_dumps() {
        let mut fed = Fed::new(&dump);
        for first in 1..dump.len() {
            for second in first + 1..dump.len() {
                let cut = pieces::cut_at(dump.len(), &[first, second]);
                sweep.comparison.read(&mut fed, &cut, Watch::EachPiece)?;
            }
        }
    }
    Ok(())
}

/// Dumps at the limits and over them.
fn limit_dumps() -> Vec<Vec<u8>> {
    let lists = [
        entries_of_size(SHARE, MAX_ENTRIES),
        entries_of_sum(POLICY_BYTES),
        entries_of_size(44, MAX_ENTRIES + 1),
        entries_of_sum(POLICY_BYTES + 2),
        entries_of_size(LONGEST, MAX_ENTRIES),
    ];
    lists.map(|list| list.concat()).to_vec()
}

/// Those dumps byte by byte, and in two pieces or more with a cut around the beginning of each entry.
fn long_dumps(sweep: &mut Sweep) -> Outcome {
    for dump in limit_dumps() {
        let (mut fed, count) = (Fed::new(&dump), dump.len());
        sweep.comparison.read(&mut fed, &pieces::single(count), Watch::Last)?;
        let firsts: Vec<usize> = fed.reading(count).entries.iter().map(|listed| listed.first).collect();
        let behind = fed.reading(count).bytes;
        for first in firsts.into_iter().chain([behind]) {
            for place in [first.saturating_sub(1), first, first + 1, first + 5, first + 6, first + 44] {
                sweep.comparison.read(&mut fed, &pieces::cut_at(count, &[place.min(count)]), Watch::Last)?;
            }
        }
    }
    Ok(())
}

/// A full dump in pieces of every length, and one that is bad behind 128 entries.
fn every_length(sweep: &mut Sweep) -> Outcome {
    let dumps = [entries_of_size(SHARE, MAX_ENTRIES).concat(), entries_of_size(44, MAX_ENTRIES + 9).concat()];
    for (place, dump) in dumps.iter().enumerate() {
        let mut fed = Fed::new(dump);
        for length in (1..=MAX_PIECE).step_by(1 + 16 * place) {
            sweep.comparison.read(&mut fed, &pieces::of_length(dump.len(), length), Watch::Last)?;
        }
    }
    Ok(())
}

/// Pieces that are refused at every place among single bytes, one of them or two, and among two pieces.
fn refused(sweep: &mut Sweep) -> Outcome {
    for dump in short_dumps().into_iter().chain([Vec::new()]) {
        let mut fed = Fed::new(&dump);
        let single = pieces::single(dump.len());
        for place in 0..=dump.len() {
            for length in [0, MAX_PIECE + 1] {
                let once = pieces::with_refused(&single, place, length);
                let twice = pieces::with_refused(&once, place, MAX_PIECE + 1 - length);
                let halves = pieces::with_refused(&pieces::cut_at(dump.len(), &[place]), 1.min(place), length);
                for cut in [once, twice, halves] {
                    sweep.comparison.read(&mut fed, &cut, Watch::EachPiece)?;
                }
            }
        }
    }
    Ok(())
}

/// Pieces of all lengths up to twice the most that are refused, and of some that are longer, before a dump, in its
/// second entry and behind it.
fn refused_lengths(sweep: &mut Sweep) -> Outcome {
    let long = [1 << 16, (1 << 16) + 1, (1 << 16) + 44, (1 << 16) + MAX_PIECE, 1 << 17];
    let lengths: Vec<usize> = [0].into_iter().chain(MAX_PIECE + 1..=2 * MAX_PIECE).chain(long).collect();
    for dump in short_dumps() {
        let mut fed = Fed::new(&dump);
        for place in 0..3 {
            let mut cut = vec![Piece::Next(60), Piece::Next(dump.len() - 60)];
            cut.splice(place..place, lengths.iter().map(|length| Piece::Refused(*length)));
            sweep.comparison.read(&mut fed, &cut, Watch::Last)?;
        }
    }
    Ok(())
}

/// Readers that were fed so far: not at all, with a part of an entry, to the limits, and to a bad entry.
fn used_readers() -> Vec<Reader> {
    let good = short();
    let mut lists = limit_dumps();
    lists.extend([Vec::new(), good[..60].to_vec(), good[..94].to_vec(), vec![0; 100]]);
    let fed = lists.iter().map(|dump| {
        let mut reader = Reader::over(&[0x5A; READER_BYTES]);
        dump.chunks(MAX_PIECE).for_each(|piece| assert_eq!(reader.feed(piece), varpolicy::Status::Success));
        reader
    });
    fed.collect()
}

/// Readers of one byte over and over, of random bytes, and of what a reader was left with but for some bytes.
fn any_readers(sweep: &mut Sweep) -> Outcome {
    let mut random = Random::new(13);
    let (good, long) = (short(), vec![0x41; MAX_PIECE + 1]);
    let pieces: [&[u8]; 7] = [&[], &good[44..], &long, &good[..1], &good, &long[1..], &[]];
    for byte in 0..=u8::MAX {
        sweep.comparison.any_reader(&[byte; READER_BYTES], &pieces)?;
        sweep.comparison.any_reader(&random.bytes(READER_BYTES), &pieces)?;
    }
    for reader in used_readers() {
        let ends = (0..64).chain(READER_BYTES - 64..READER_BYTES);
        let between = (64..READER_BYTES - 64).step_by(32).map(|place| place + random.below(32));
        let places: Vec<usize> = ends.chain(between).collect();
        for place in places {
            let mut content = reader.bytes().to_vec();
            content[place] = random.pick(&[0, 1, 0x7F, 0x80, 0xFF, content[place] ^ 1, content[place].wrapping_add(1)]);
            sweep.comparison.any_reader(&content, &pieces[1..4])?;
        }
        for length in [16, 64, 2100] {
            for start in [0, READER_BYTES - length] {
                for _ in 0..20 {
                    let mut content = reader.bytes().to_vec();
                    content[start..start + length].copy_from_slice(&random.bytes(length));
                    sweep.comparison.any_reader(&content, &pieces)?;
                }
            }
        }
    }
    Ok(())
}
