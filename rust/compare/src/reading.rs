//! A dump fed to the library's reader in pieces, and read whole by the reference (docs/RULES.md, 10.12). The reader is
//! no part of an engine, so that it stands beside [`Call`](crate::call::Call).

use crate::call::Ground;
use crate::comparison::{Comparison, check};
use crate::inputs;
use crate::pieces::Piece;
use crate::reader::{Listed, MAX_PIECE, READER_BYTES, Reader, Verdict};
use crate::state::Guarded;
use reference::{MAX_ENTRIES, POLICY_BYTES, Reading};
use std::collections::BTreeMap;
use std::sync::LazyLock;
use varpolicy::{MAX_NAME_UNITS, Status};

/// Bytes that are fed in pieces, with what is known of them by how many came.
pub struct Fed<'a> {
    dump: &'a [u8],
    /// What the reference says of them.
    readings: BTreeMap<usize, Reading>,
    /// Whether they are counted.
    counted: bool,
}

impl<'a> Fed<'a> {
    /// Bytes of which nothing is known yet.
    pub fn new(dump: &'a [u8]) -> Fed<'a> {
        Fed { dump, readings: BTreeMap::new(), counted: false }
    }

    /// What the reference says of the first so many.
    pub fn reading(&mut self, count: usize) -> &Reading {
        self.readings.entry(count).or_insert_with(|| reference::read_dump(&self.dump[..count]))
    }
}

/// The verdict that the reference gives.
fn expected(dump: &[u8], reading: &Reading) -> Verdict {
    let (whole, ended) = (reading.fault.is_none(), reading.has_ended(dump));
    Verdict { whole, ended, entries: reading.entries.len(), bytes: reading.bytes }
}

/// When the verdict is asked for.
#[derive(Clone, Copy, PartialEq, Eq, Debug)]
pub enum Watch {
    /// Behind each piece.
    EachPiece,
    /// Behind the last.
    Last,
}

/// A reader that is fed.
struct Feeding<'a, 'b> {
    fed: &'a mut Fed<'b>,
    reader: Reader,
    /// How many bytes came.
    taken: usize,
    /// The entries that were handed out.
    handed: Vec<Listed>,
    /// How many bytes had come when it ended.
    ended: Option<usize>,
}

impl Comparison {
    /// Feeds bytes in pieces to a reader. Every piece gets its status; one that is refused, or comes behind a bad
    /// entry, leaves every byte of the reader; the verdicts, and the entries whenever they are handed out, are the
    /// reference's of the bytes read whole. Else the difference in words.
    pub fn read(&mut self, fed: &mut Fed, pieces: &[Piece], watch: Watch) -> Result<(), String> {
        self.calls += 1;
        let lent = Guarded::new(fed.dump, self.calls as usize % 8);
        let reader = Reader::over(&OLD[self.calls as usize % OLD.len()]);
        let mut feeding = Feeding { fed, reader, taken: 0, handed: Vec::new(), ended: None };
        let outcome = self.all_pieces(&mut feeding, &lent, pieces, watch).and_then(|()| feeding.end(&lent));
        if let Err(what) = outcome {
            let (taken, verdict) = (feeding.taken, feeding.reader.verdict());
            let reading = feeding.fed.reading(taken);
            let sides = format!("library {verdict:?}\nreference {reading:?} of {taken} bytes");
            return Err(format!("{what}\nread {:?}\nin {pieces:?}\n{sides}", &*lent));
        }
        let Feeding { fed, taken, ended, .. } = feeding;
        self.count_read(fed, taken, pieces, ended)
    }

    /// Counts bytes that were read in these pieces, and behind how many the reader ended.
    fn count_read(
        &mut self,
        fed: &mut Fed,
        taken: usize,
        pieces: &[Piece],
        ended: Option<usize>,
    ) -> Result<(), String> {
        let (coverage, first) = (&mut self.coverage, !std::mem::replace(&mut fed.counted, true));
        let dump = fed.dump;
        let reading = fed.reading(taken);
        inputs::pieces::count(coverage, reading, taken, pieces, ended);
        if first {
            inputs::pieces::count_dump(coverage, dump, reading);
        }
        let handed = if reading.entries.is_empty() { Status::NotFound } else { Status::Success };
        let ground = reading.fault.map_or(Ground::WholeDump, Ground::BadEntry);
        let known = [
            coverage.answer("reader", Status::Success, Ground::Status),
            coverage.answer("entry", handed, Ground::Status),
            coverage.answer("verdict", Status::Success, ground),
        ];
        check(known == [true; 3], "no such answer is possible")
    }

    /// Feeds the pieces one behind the other.
    fn all_pieces(
        &mut self,
        feeding: &mut Feeding,
        lent: &[u8],
        pieces: &[Piece],
        watch: Watch,
    ) -> Result<(), &'static str> {
        for piece in pieces {
            let (status, ground) = feeding.piece(lent, *piece)?;
            self.coverage.answer("feed", status, ground);
            if watch == Watch::EachPiece {
                feeding.look()?;
            }
        }
        feeding.look()
    }

    /// Feeds bytes in pieces and asks for an entry at each of them, and some behind. The answers are the reference's,
    /// also where no good entry begins.
    pub fn every_place(&mut self, fed: &mut Fed, pieces: &[Piece]) -> Result<(), String> {
        self.read(fed, pieces, Watch::Last)?;
        let (mut reader, dump) = (Reader::over(&OLD[1]), fed.dump);
        let mut rest = dump;
        for length in pieces.iter().filter_map(|piece| piece.taken()) {
            let (piece, behind) = rest.split_at(length);
            reader.feed(piece);
            rest = behind;
        }
        let reading = fed.reading(dump.len());
        for at in 0..dump.len() + 50 {
            let (handed, told) = (reader.entry_at(at), reading.entry_at(dump, at));
            let differs = format_args!("at byte {at} of {dump:?} {handed:?} is handed out, and not {told:?}");
            check(handed == told.as_ref().map(as_handed), differs)?;
            inputs::pieces::count_place(&mut self.coverage, reading, at, told.is_some());
        }
        Ok(())
    }

    /// Makes the calls on a reader of any bytes, which its own calls need not have left: each gets its status, a piece
    /// that is refused or comes behind the end leaves every byte, and no other byte changes.
    pub fn any_reader(&mut self, content: &[u8], pieces: &[&[u8]]) -> Result<(), String> {
        self.calls += 1;
        let mut reader = Reader::of(content);
        for piece in pieces {
            let (before, ended) = (reader.clone(), asked(&reader).ended);
            let taken = (1..=MAX_PIECE).contains(&piece.len());
            let expected = if taken { Status::Success } else { Status::InvalidParameter };
            check(reader.feed(piece) == expected, "a piece got another status, in a reader of any bytes")?;
            let stays = ended || !taken;
            check(!stays || reader == before, "a piece has changed a reader of any bytes that stays")?;
            check(!ended || asked(&reader).ended, "a reader of any bytes that had ended goes on")?;
            inputs::pieces::count_any(&mut self.coverage, taken, ended);
        }
        let kept = reader.bytes()[..POLICY_BYTES].to_vec();
        reader.start();
        let fresh = Verdict { whole: true, ended: false, entries: 0, bytes: 0 };
        check(reader.verdict() == fresh && reader.entry_at(0).is_none(), "a reader that is started is not fresh")?;
        check(reader.bytes()[..POLICY_BYTES] == kept, "a start has written where the entries stand")?;
        check(reader.is_intact(), "a byte outside of a reader of any bytes has changed")
    }
}

/// The verdict, with entries asked for one behind the other, at their second bytes and at many other places.
fn asked(reader: &Reader) -> Verdict {
    let (verdict, mut at, mut entries) = (reader.verdict(), 0, 0);
    while let Some(listed) = reader.entry_at(at).filter(|_| entries < 2 * MAX_ENTRIES) {
        reader.entry_at(at.saturating_add(1));
        at = at.saturating_add(listed.size);
        entries += 1;
    }
    for at in places_behind(verdict.bytes) {
        reader.entry_at(at);
    }
    verdict
}

/// Old bytes over which readers are started.
static OLD: LazyLock<[Vec<u8>; 3]> = LazyLock::new(|| {
    let counted = (0..READER_BYTES).map(|place| (place / 256) as u8 ^ place as u8);
    [vec![0; READER_BYTES], vec![0xFF; READER_BYTES], counted.collect()]
});

/// Bytes for pieces that are refused: the beginning of an entry, over and over.
static REFUSED: LazyLock<Vec<u8>> = LazyLock::new(|| [0, 0, 1, 0, 44, 0, 44, 0].repeat(1 << 14));

impl Feeding<'_, '_> {
    /// Feeds a piece. Tells the status and what decided it.
    fn piece(&mut self, lent: &[u8], piece: Piece) -> Result<(Status, Ground), &'static str> {
        let (bytes, expected) = match piece {
            Piece::Next(length) => (&lent[self.taken..self.taken + length], Status::Success),
            Piece::Refused(length) => (&REFUSED[..length], Status::InvalidParameter),
        };
        let stays = expected != Status::Success || self.ended.is_some();
        let before = stays.then(|| self.reader.bytes().to_vec());
        if self.reader.feed(bytes) != expected {
            return Err("a piece got another status");
        }
        if before.is_some_and(|before| before != self.reader.bytes()) {
            return Err("a piece that is refused, or behind the end, has changed the reader");
        }
        if expected != Status::Success {
            let ground = if bytes.is_empty() { Ground::NoBytes } else { Ground::ManyBytes };
            return Ok((expected, ground));
        }
        self.taken += bytes.len();
        let behind = self.ended.is_some();
        if !behind && self.reader.verdict().ended {
            self.ended = Some(self.taken);
        }
        Ok((expected, if behind { Ground::BehindEnd } else { Ground::Taken }))
    }

    /// Compares the verdict, and the entries that are new, with what the reference says of the bytes so far.
    fn look(&mut self) -> Result<(), &'static str> {
        let (verdict, dump) = (self.reader.verdict(), &self.fed.dump[..self.taken]);
        let reading = self.fed.reading(self.taken);
        if verdict != expected(dump, reading) {
            return Err("the verdicts differ");
        }
        if verdict.ended != self.ended.is_some() {
            return Err("a reader that had ended goes on");
        }
        for listed in reading.entries.iter().skip(self.handed.len()) {
            let handed = self.reader.entry_at(listed.first);
            if handed != Some(as_handed(listed)) {
                return Err("an entry differs");
            }
            self.handed.extend(handed);
        }
        Ok(())
    }

    /// Compares all entries with those handed out before, and what is handed out behind them.
    fn end(&mut self, lent: &Guarded) -> Result<(), &'static str> {
        let reader = &self.reader;
        let (mut at, mut again) = (0, Vec::new());
        while let Some(listed) = reader.entry_at(at).filter(|listed| listed.size > 0) {
            again.push(listed);
            at += listed.size;
        }
        if again != self.handed {
            return Err("the entries are not those that were handed out before");
        }
        if places_behind(at).into_iter().any(|at| reader.entry_at(at).is_some()) {
            return Err("an entry is handed out behind the good ones");
        }
        if reader.bytes()[..at] != self.fed.dump[..at] {
            return Err("the good entries do not stand in the reader as they were fed");
        }
        if !reader.is_intact() || !lent.is_intact() || **lent != *self.fed.dump {
            return Err("a byte outside of the reader has changed");
        }
        Ok(())
    }
}

/// Places where the good entries end and behind. The low bits of the high ones are places of entries.
fn places_behind(end: usize) -> [usize; 12] {
    let (low, high) = (1 << 16, 1 << 32);
    let [next, second, size, header] = [0, 1, 4, 44].map(|more| end + more);
    let (last, far) = (usize::MAX, usize::MAX - 43);
    [next, second, size, header, POLICY_BYTES, READER_BYTES, low, low + 44, high, high + 44, far, last]
}

/// What the library is to say of an entry. A whole namespace has the rank behind all others.
fn as_handed(listed: &reference::Listed) -> Listed {
    Listed { size: listed.size, lock: listed.lock, rank: listed.marks.unwrap_or(MAX_NAME_UNITS + 1) }
}
