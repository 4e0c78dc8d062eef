//! The report of a set (docs/RULES.md, 10.10): what step 4 said against it.

use crate::engine::{Request, SetGround};
use crate::entry::Entry;
use crate::name;
use crate::policy::Policy;

/// The ground of step 4 that gave the status of a set, with its number.
#[derive(Clone, Copy, PartialEq, Eq, Debug)]
#[repr(u32)]
pub enum Ground {
    /// Step 4 did not give it.
    None = 0,
    /// MinSize or MaxSize.
    Size = 1,
    /// AttributesMustHave or AttributesCantHave.
    Attributes = 2,
    /// The lock.
    Lock = 3,
}

impl Ground {
    /// The ground of a set that was decided so.
    fn of(decided: SetGround) -> Ground {
        use SetGround::*;
        match decided {
            TooShort | TooLong => Ground::Size,
            AttributeMissing | AttributeProhibited => Ground::Attributes,
            LockedNow | LockedOnCreate | LockedOnVarState => Ground::Lock,
            _ => Ground::None,
        }
    }
}

/// What a set hands back beside its status.
#[derive(Clone, Copy, PartialEq, Eq, Debug)]
pub struct Report {
    /// The ground.
    pub ground: Ground,
    /// How many entries stand before the one that spoke.
    pub place: u32,
    /// The rank of the one that spoke.
    pub rank: u32,
    /// How many required attributes the request lacks.
    pub missing: u32,
    /// How many prohibited attributes it has.
    pub prohibited: u32,
    /// The number of the lowest of all these bits.
    pub lowest_bit: u32,
}

impl Report {
    /// What stands beside a status that step 4 did not give.
    pub const NONE: Report =
        Report { ground: Ground::None, place: 0, rank: 0, missing: 0, prohibited: 0, lowest_bit: 0 };

    /// The report of a request that was decided so. The policy record is as the set found it.
    pub(crate) fn of(decided: SetGround, record: &[u8], request: &Request) -> Report {
        match Ground::of(decided) {
            Ground::None => Report::NONE,
            ground => Report::by_chosen(ground, record, request).unwrap_or(Report::NONE),
        }
    }

    /// The report with this ground, which the chosen entry gave.
    fn by_chosen(ground: Ground, record: &[u8], request: &Request) -> Option<Report> {
        let policy = Policy::decode(record)?;
        let entry = policy.choose(request.namespace, &name::decode_request(request.name)?)?;
        let (missing, prohibited) = match ground {
            Ground::Attributes => offending_bits(entry, request.attributes),
            _ => (Vec::new(), Vec::new()),
        };
        let lowest_bit = missing.iter().chain(&prohibited).min();
        Some(Report {
            ground,
            place: policy.entries.iter().position(|known| known.repeats(entry))? as u32,
            rank: entry.rank() as u32,
            missing: missing.len() as u32,
            prohibited: prohibited.len() as u32,
            lowest_bit: lowest_bit.copied().unwrap_or(0),
        })
    }
}

/// The numbers of the bits that are required and not given, and of those that are prohibited and given.
fn offending_bits(entry: &Entry, attributes: u32) -> (Vec<u32>, Vec<u32>) {
    let (mut missing, mut prohibited) = (Vec::new(), Vec::new());
    for number in 0..32 {
        let among = |word: u32| word & (1 << number) != 0;
        if among(entry.must_have) && !among(attributes) {
            missing.push(number);
        }
        if among(entry.cant_have) && among(attributes) {
            prohibited.push(number);
        }
    }
    (missing, prohibited)
}

#[cfg(test)]
mod tests {
    use super::*;
    use crate::entry::LockRule;
    use crate::{NV, POLICY_BYTES};

    fn entry(name: &str, must_have: u32, cant_have: u32) -> Entry {
        let name = name.encode_utf16().collect();
        let (namespace, lock, reserved) = ([7; 16], LockRule::LockNow, [0; 3]);
        Entry { namespace, name, min_size: 1, max_size: 9, must_have, cant_have, lock, reserved }
    }

    /// The report of a set of "A0" with these attributes.
    fn reported(entries: &[Entry], attributes: u32, decided: SetGround) -> Report {
        let mut record = Policy { entries: entries.to_vec() }.encode();
        record.resize(POLICY_BYTES, 0);
        let request = Request { namespace: &[7; 16], name: &[0x41, 0, 0x30, 0], attributes, payload: &[1] };
        Report::of(decided, &record, &request)
    }

    #[test]
    fn each_of_32_bits_is_missing_or_prohibited() {
        for number in 0..u32::BITS {
            let bit = 1 << number;
            assert_eq!(offending_bits(&entry("", bit, !bit), 0), (vec![number], Vec::new()));
            assert_eq!(offending_bits(&entry("", !bit, bit), u32::MAX), (Vec::new(), vec![number]));
            assert_eq!(offending_bits(&entry("", bit, !bit), bit), (Vec::new(), Vec::new()));
        }
    }

    #[test]
    fn the_lowest_bit_is_of_either_kind() {
        let cases = [(0x15, 2, [3, 1, 0]), (0x9C, 0x42, [4, 2, 1]), (0x8000_0000, 0, [1, 0, 31]), (2, 0x44, [0, 1, 6])];
        for (must_have, cant_have, expected) in cases {
            let report = reported(&[entry("", must_have, cant_have)], 0x42, SetGround::AttributeMissing);
            assert_eq!([report.missing, report.prohibited, report.lowest_bit], expected);
            assert_eq!((report.ground, report.place, report.rank), (Ground::Attributes, 0, 65));
        }
    }

    #[test]
    fn place_and_rank_are_those_of_the_chosen_entry() {
        let entries = ["B", "", "##", "A#", "#0", "C"].map(|name| entry(name, NV, 2));
        for (decided, ground) in [(SetGround::TooShort, Ground::Size), (SetGround::LockedNow, Ground::Lock)] {
            let expected = Report { ground, place: 3, rank: 1, missing: 0, prohibited: 0, lowest_bit: 0 };
            assert_eq!(reported(&entries, 2, decided), expected);
        }
    }

    #[test]
    fn without_a_ground_all_is_zero() {
        use SetGround::*;
        let steps_1_to_3 = [BadName, UnknownAttribute, NotForRuntime];
        for decided in steps_1_to_3.into_iter().chain([DeleteHidden, DeleteVolatile, OtherAttributes, Created]) {
            assert_eq!(reported(&[entry("", NV, 2)], 2, decided), Report::NONE);
        }
    }
}
