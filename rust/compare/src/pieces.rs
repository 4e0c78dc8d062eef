//! Dumps cut into pieces.

use crate::random::Random;
use crate::reader::MAX_PIECE;

/// What is fed at once.
#[derive(Clone, Copy, PartialEq, Eq, Debug)]
pub enum Piece {
    /// So many of the next bytes of the dump, 1 to [`MAX_PIECE`].
    Next(usize),
    /// So many bytes, none or more than [`MAX_PIECE`], which are refused.
    Refused(usize),
}

impl Piece {
    /// How many bytes it has.
    pub fn length(self) -> usize {
        let (Piece::Next(length) | Piece::Refused(length)) = self;
        length
    }

    /// How many bytes of the dump it has, unless it is refused.
    pub fn taken(self) -> Option<usize> {
        match self {
            Piece::Next(length) => Some(length),
            Piece::Refused(_) => None,
        }
    }
}

/// So many bytes in pieces of this length, the last one shorter.
pub fn of_length(count: usize, length: usize) -> Vec<Piece> {
    let full = vec![Piece::Next(length); count / length];
    let last = Some(count % length).filter(|rest| *rest > 0).map(Piece::Next);
    full.into_iter().chain(last).collect()
}

/// So many bytes in as few pieces as there can be.
pub fn few(count: usize) -> Vec<Piece> {
    of_length(count, MAX_PIECE)
}

/// So many bytes, one by one.
pub fn single(count: usize) -> Vec<Piece> {
    of_length(count, 1)
}

/// So many bytes, cut at these places, which rise.
pub fn cut_at(count: usize, places: &[usize]) -> Vec<Piece> {
    let ends = places.iter().copied().chain([count]);
    let starts = [0].into_iter().chain(places.iter().copied());
    starts.zip(ends).flat_map(|(start, end)| few(end - start)).collect()
}

/// The pieces with one of this length, which is refused, at this place among them.
pub fn with_refused(pieces: &[Piece], place: usize, length: usize) -> Vec<Piece> {
    let mut pieces = pieces.to_vec();
    pieces.insert(place, Piece::Refused(length));
    pieces
}

/// So many bytes cut by chance, with pieces that are refused before, between and behind.
pub fn by_chance(random: &mut Random, count: usize) -> Vec<Piece> {
    let most = random.pick(&[1, 2, 7, 44, 100, 322, 1000, MAX_PIECE]);
    let refused = random.pick(&[2, 6, 40]);
    let (mut pieces, mut left) = (Vec::new(), count);
    loop {
        if random.one_in(refused) {
            pieces.push(Piece::Refused(refused_length(random)));
            continue;
        }
        if left == 0 {
            return pieces;
        }
        let length = if random.one_in(8) { random.pick(&[1, 5, 6, 44, MAX_PIECE]) } else { 1 + random.below(most) };
        pieces.push(Piece::Next(length.min(left)));
        left -= length.min(left);
    }
}

/// A length that is refused.
fn refused_length(random: &mut Random) -> usize {
    match random.below(6) {
        0..=2 => 0,
        3 => MAX_PIECE + 1,
        4 => random.pick(&[MAX_PIECE + 2, 2 * MAX_PIECE, 1 << 16, (1 << 16) + 1]),
        _ => MAX_PIECE + 1 + random.below(MAX_PIECE),
    }
}

#[cfg(test)]
mod tests {
    use super::*;

    fn taken(pieces: &[Piece]) -> usize {
        pieces.iter().filter_map(|piece| piece.taken()).sum()
    }

    #[test]
    fn pieces_have_all_bytes_and_lengths_that_fit() {
        let mut random = Random::new(5);
        for count in [0, 1, 43, 94, 4096, 4097, 9000] {
            let mut cuts = vec![few(count), single(count), by_chance(&mut random, count)];
            cuts.extend([0, 1, count / 2, count].map(|place| cut_at(count, &[place.min(count)])));
            for pieces in cuts {
                assert_eq!(taken(&pieces), count);
                for piece in pieces {
                    let fits = (1..=MAX_PIECE).contains(&piece.length());
                    assert_eq!(fits, piece.taken().is_some(), "{piece:?}");
                }
            }
        }
    }
}
