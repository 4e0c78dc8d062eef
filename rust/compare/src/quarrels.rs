//! The call that finds quarrels in a dump (docs/RULES.md, 10.11), made by the library and by the reference. It is lent
//! no state and is no call of a history, so that it stands beside [`Call`](crate::call::Call).

use crate::call::{Ground, translate};
use crate::comparison::{Comparison, check};
use crate::inputs;
use crate::state::Guarded;
use varpolicy::calls::{self, Quarrelled};
use varpolicy::{MAX_NAME_UNITS, Status};

/// The buffer for the name.
pub type NameBuffer = [u8; 2 * MAX_NAME_UNITS];

/// Old bytes of a buffer, each of them another and none zero.
pub const OLD_NAME: NameBuffer = {
    let mut bytes = [0; 2 * MAX_NAME_UNITS];
    let mut place = 0;
    while place < bytes.len() {
        bytes[place] = 0x80 + place as u8;
        place += 1;
    }
    bytes
};

/// What the call hands back, and the buffer from end to end.
#[derive(Clone, PartialEq, Eq, Debug)]
#[allow(missing_docs)]
pub struct Asked {
    pub answer: Quarrelled,
    pub buffer: Vec<u8>,
}

impl Asked {
    /// The answer without a pair, over a buffer that stays.
    pub fn without_pair(status: Status, old: &NameBuffer) -> Asked {
        let answer = Quarrelled { status, found: false, earlier: 0, later: 0, name_length: 0 };
        Asked { answer, buffer: old.to_vec() }
    }

    /// The answer with this pair and the bytes of this name.
    pub fn with_pair((earlier, later): (usize, usize), name: &[u8], old: &NameBuffer) -> Asked {
        let answer = Quarrelled { status: Status::Success, found: true, earlier, later, name_length: name.len() };
        Asked { answer, buffer: [name, &old[name.len()..]].concat() }
    }
}

impl Comparison {
    /// Asks both sides for a quarrel in these bytes, over a buffer with old bytes. After it the answers and all of the
    /// buffer are equal, and no other byte has changed; else the difference in words.
    pub fn quarrels(&mut self, dump: &[u8], old: &NameBuffer) -> Result<Asked, String> {
        self.calls += 1;
        let (lent, mut buffer) = (Guarded::new(dump, 3), Guarded::new(old, 5));
        let answer = calls::quarrels(&lent, as_name(&mut buffer));
        let asked = Asked { answer, buffer: buffer.to_vec() };
        let expected = by_reference(dump, old);
        let differs = |what: &str| format!("{what}\nquarrels {dump:?}\nlibrary {asked:?}\nreference {expected:?}");
        if asked != expected {
            return Err(differs("the answers differ"));
        }
        if *lent != *dump || !lent.is_intact() || !buffer.is_intact() {
            return Err(differs("a byte outside of the buffer has changed"));
        }
        inputs::quarrels::count(&mut self.coverage, dump, &answer);
        let ground = match (answer.status, answer.found) {
            (Status::Success, true) => Ground::Quarrel,
            (Status::Success, false) => Ground::NoQuarrel,
            _ => Ground::Status,
        };
        check(self.coverage.answer("quarrels", answer.status, ground), "no such answer is possible")?;
        Ok(asked)
    }
}

/// What the library answers to these bytes, over a buffer with old bytes.
pub fn by_library(dump: &[u8], old: &NameBuffer) -> Asked {
    let mut buffer = *old;
    let answer = calls::quarrels(dump, &mut buffer);
    Asked { answer, buffer: buffer.to_vec() }
}

/// What the reference answers.
pub fn by_reference(dump: &[u8], old: &NameBuffer) -> Asked {
    let mut buffer = *old;
    let reference::Quarrelled { status, found, earlier, later, name_length } = reference::quarrels(dump, &mut buffer);
    let answer = Quarrelled { status: translate(status), found, earlier, later, name_length };
    Asked { answer, buffer: buffer.to_vec() }
}

fn as_name(buffer: &mut [u8]) -> &mut NameBuffer {
    buffer.try_into().expect("as long as the longest name")
}

/// What two patterns have at one place.
#[derive(Clone, Copy, PartialEq, Eq, Debug)]
#[allow(missing_docs)]
pub enum Meeting {
    BothSigns,
    SignAndDigit,
    DigitAndSign,
    Same,
    NoDigit,
    Other,
}

impl Meeting {
    /// What the units are that one pattern and another have at one place.
    pub fn of(unit: u16, other: u16) -> Meeting {
        const NUMBER_SIGN: u16 = 0x23;
        let digit = |unit: u16| char::from_u32(unit.into()).is_some_and(|unit| unit.is_ascii_hexdigit());
        match (unit, other) {
            (NUMBER_SIGN, NUMBER_SIGN) => Meeting::BothSigns,
            (NUMBER_SIGN, other) if digit(other) => Meeting::SignAndDigit,
            (unit, NUMBER_SIGN) if digit(unit) => Meeting::DigitAndSign,
            (NUMBER_SIGN, _) | (_, NUMBER_SIGN) => Meeting::NoDigit,
            _ if unit == other => Meeting::Same,
            _ => Meeting::Other,
        }
    }

    /// Whether some unit is matched by both.
    pub fn is_shared(self) -> bool {
        !matches!(self, Meeting::NoDigit | Meeting::Other)
    }
}

/// What two patterns of equally many units have at each place.
pub fn meetings(pattern: &[u16], other: &[u16]) -> Option<Vec<Meeting>> {
    let units = pattern.iter().zip(other);
    (pattern.len() == other.len()).then(|| units.map(|(unit, other)| Meeting::of(*unit, *other)).collect())
}

/// Whether some name is matched by both patterns.
pub fn share_a_target(pattern: &[u16], other: &[u16]) -> bool {
    meetings(pattern, other).is_some_and(|meetings| meetings.iter().all(|meeting| meeting.is_shared()))
}
