//! Which cases are measured: whole calls and parts, each group by itself.

use crate::calls::Call;
use crate::case::{Bar, Case, Group, Growth, Work};
use crate::inputs::{self, Full, Policy, VOLATILE, variable};
use crate::lent::{Lent, OURS};
use crate::parts::Part;
use crate::reading::Reading;
use varpolicy::{
    Attributes, Entry, Ground, Lock, MAX_ENTRIES, MAX_LINKS, MAX_PIECE, MAX_STORE_BYTES, MIN_ENTRY_SIZE, Name,
    POLICY_BYTES,
};

/// How many entries a policy record holds, from a quarter of the most to the most.
const COUNTS: [usize; 4] = [MAX_ENTRIES / 4, MAX_ENTRIES / 2, MAX_ENTRIES / 4 * 3, MAX_ENTRIES];

/// How long the names of numbered entries are. With the second length the most entries fill the record.
const UNITS: [usize; 2] = [8, 41];
const _: () = assert!(MAX_ENTRIES * (MIN_ENTRY_SIZE + 2 * (UNITS[1] + 1)) == POLICY_BYTES);

/// How long the names of triggers are, and how many entries with such triggers and names of 8 units are checked. With
/// the second length an entry has 164 bytes, so the record holds 99 of them.
const TRIGGERS: [(usize, [usize; 2]); 2] = [(3, [COUNTS[1], COUNTS[3]]), (41, [COUNTS[1], COUNTS[2]])];

// ---- whole calls

const VERSIONS: &[&str] = &["library", "standard", "small"];
const RATIOS: &[&str] = &["to std.", "to small"];

const PLAIN: Attributes = Attributes(3);
const APPEND: Attributes = Attributes(0x43);

fn call(name: String, made: Call, lent: &Lent, most: f64) -> Case {
    Case { bar: Some(Bar::AtMost(most)), ..Case::new(name, Work::Call(made), lent.clone()) }
}

/// Sets of a variable under a policy.
fn set_under(name: Name, enabled: bool) -> Call {
    Call::Set { name, requests: [(PLAIN, vec![1]), (PLAIN, vec![2])], enabled }
}

/// Whole calls.
pub fn whole() -> Group {
    let mut cases: Vec<Case> = [20, 100, 300, 819].into_iter().flat_map(over_records).collect();
    cases.extend([COUNTS[1], COUNTS[3]].into_iter().flat_map(over_entries));
    cases.extend([0, 1].map(over_few_entries));
    cases.extend(refused(COUNTS[1]));
    cases.extend([COUNTS[1], COUNTS[3]].into_iter().flat_map(triggered));
    Group { title: "whole calls", columns: VERSIONS, ratios: RATIOS, cases, growth: Vec::new() }
}

/// Reads and sets over two stores of `count` records each.
fn over_records(count: usize) -> Vec<Case> {
    let stores = inputs::with_records(count);
    let case = |what: &str, made: Call| call(format!("{what}, {count} records each"), made, &stores, 1.25);
    let rewrite = |name, old: &[u8], new: &[u8]| {
        let requests = [(PLAIN, old.to_vec()), (PLAIN, new.to_vec())];
        Call::Set { name, requests, enabled: true }
    };
    let mut cases = vec![
        case("read the last", Call::Read { name: variable(VOLATILE + count - 1) }),
        case("read an absent one", Call::Read { name: variable(60000) }),
        case("set, same length", rewrite(variable(count - 1), &[1], &[2])),
    ];
    if count < 819 {
        cases.push(case("set, first record longer, shorter", rewrite(variable(0), &[1], &[2; 20])));
    }
    cases
}

/// Sets, appends and a dump over `count` entries.
fn over_entries(count: usize) -> Vec<Case> {
    let policies = inputs::policies(count);
    let set = |(what, entries, name): &Policy| {
        let lent = inputs::with_short_stores(entries);
        call(format!("set, {count} entries, {what}"), set_under(*name, true), &lent, 1.1)
    };
    let mut cases: Vec<Case> = policies.iter().map(set).collect();
    let (what, entries, name) = &policies[1];
    let lent = inputs::with_short_stores(entries);
    for (append, bytes) in [("append 20 bytes", 20), ("append nothing", 0)] {
        let requests = [(APPEND, vec![2; bytes]), (PLAIN, vec![1])];
        let made = Call::Set { name: *name, requests, enabled: true };
        cases.push(call(format!("{append}, {count} entries, {what}"), made, &lent, 1.1));
    }
    let lent = inputs::with_entries(&inputs::numbered(count, UNITS[1]));
    cases.push(call(format!("dump, {count} entries, {} bytes", lent.policy_end), Call::Dump, &lent, 1.1));
    cases
}

/// A set over no entry or over one that matches: the smallest sets.
fn over_few_entries(count: usize) -> Case {
    let lent = inputs::with_short_stores(&inputs::numbered(count, 8));
    let what = if count == 0 { "no entries" } else { "1 entry, match" };
    call(format!("set, {what}"), set_under(inputs::text("NNNN0000"), true), &lent, 1.25)
}

/// Sets that the last of `count` entries refuses, on each ground.
fn refused(count: usize) -> Vec<Case> {
    let entries = inputs::numbered(count, 8);
    let name = entries[count - 1].name;
    let case = |ground: Ground, last: Entry| {
        let entries = [&entries[..count - 1], &[last]].concat();
        let what = format!("set refused, {count} entries, {}", ground.name().to_lowercase());
        call(what, set_under(name, true), &inputs::with_short_stores(&entries), 1.0)
    };
    let last = Entry::new(OURS, name);
    vec![
        case(Ground::Size, Entry { min_size: 2, ..last }),
        case(Ground::Attributes, Entry { must_have: Attributes::RT, cant_have: Attributes::BS, ..last }),
        case(Ground::Lock, Entry { lock: Lock::Now, ..last }),
    ]
}

/// Sets of which the last of `count` entries asks a trigger: there is none, or it locks.
fn triggered(count: usize) -> [Case; 2] {
    let (units, _) = TRIGGERS[0];
    let entries = inputs::with_triggers(count, units);
    let (made, trigger) = (|| set_under(entries[count - 1].name, true), inputs::trigger(units));
    let stored = inputs::with_stored(&entries, &[trigger]);
    [
        call(format!("set, {count} entries, trigger absent"), made(), &inputs::with_short_stores(&entries), 1.1),
        call(format!("set refused, {count} entries, trigger"), made(), &stored, 1.1),
    ]
}

/// The registration of one entry more.
pub fn register() -> Group {
    let case = |what: &str, units: usize, mut entries: Vec<Entry>, bar: f64| {
        let name = format!("register as entry {}, {what} of {units} units", entries.len());
        let last = entries.pop().expect("an entry").pack().to_vec();
        call(name, Call::Register { entry: last }, &inputs::with_entries(&entries), bar)
    };
    let named = |units: usize| COUNTS.map(|count| case("names", units, inputs::numbered(count, units), 1.25));
    // The library walks the entries once more to find a repeat, which over triggers shows more (docs/BENCHMARKS.md).
    let triggered =
        |(units, [count, _]): (usize, [usize; 2])| case("triggers", units, inputs::with_triggers(count, units), 1.35);
    let triggered = TRIGGERS.map(triggered);
    let cases = UNITS.into_iter().flat_map(named).chain(triggered).collect();
    let title = "registering an entry";
    Group { title, columns: &["library", "ordinary"], ratios: &["to ord."], cases, growth: Vec::new() }
}

/// Two entries of a dump that quarrel. The library is held to a bar where the dump is longest.
pub fn quarrels() -> Group {
    let case = |count: usize, (what, entries): (&str, Vec<Entry>)| {
        let lent = inputs::with_entries(&entries);
        let bar = (count == MAX_ENTRIES).then_some(Bar::AtMost(1.25));
        Case { bar, ..Case::new(format!("quarrels, {count} entries, {what}"), Work::Call(Call::Quarrels), lent) }
    };
    let of_count = |count: usize| inputs::dumps(count).into_iter().map(move |dump| (count, dump));
    let cases = COUNTS.into_iter().flat_map(of_count).map(|(count, dump)| case(count, dump)).collect();
    let title = "quarrels of a dump";
    Group { title, columns: &["library", "ordinary"], ratios: &["to ord."], cases, growth: Vec::new() }
}

/// Whether a variable is settled, over full stores and the most entries, and over short stores.
pub fn settled() -> Group {
    Group {
        title: "settled variables",
        columns: &["library", "as a set", "by table"],
        ratios: &["to set", "to table"],
        cases: over_full_stores().into_iter().chain(far_links()).chain(over_short_stores()).collect(),
        growth: Vec::new(),
    }
}

fn settled_case(what: &str, name: Name, lent: &Lent, bar: f64) -> Case {
    call(format!("settled, {what}"), Call::Settled { name }, lent, bar)
}

/// Whether the first of these variables is settled: each is linked to the next, and the last is locked as is told.
fn chain(full: Full, names: &[Name], last: Lock, what: &str, bar: f64) -> Case {
    let links = match names.len() - 1 {
        0 => "no link".into(),
        1 => "1 link".into(),
        links => format!("{links} links"),
    };
    settled_case(&format!("{links}, {what}"), names[0], &full.under(inputs::linked(names, last)), bar)
}

/// Chains that are spread evenly over the stores and among the entries.
fn over_full_stores() -> Vec<Case> {
    let full = Full::ONE_UNIT;
    let spread = |links: usize, last: Lock, what: &str, bar: f64| chain(full, &full.spread(links + 1), last, what, bar);
    let two = full.spread(2);
    let back = Lock::OnVarState { namespace: OURS, name: two[0], value: 1 };
    vec![
        spread(MAX_LINKS, Lock::OnCreate, "lock on create", 1.25),
        spread(MAX_LINKS, Lock::Now, "lock now", 1.25),
        spread(MAX_LINKS + 1, Lock::Now, "lock now", 1.25),
        spread(1, Lock::Now, "lock now", 1.0),
        spread(0, Lock::OnCreate, "lock on create", 1.0),
        spread(0, Lock::Now, "lock now", 1.0),
        settled_case("a loop of two", two[0], &full.under(inputs::linked(&two, back)), 1.25),
        settled_case("no entry", two[0], &full.under(Vec::new()), 1.0),
    ]
}

/// The longest chains where the library, which searches from record to record, has most to do: at the end of the stores,
/// and where names begin alike.
fn far_links() -> [Case; 3] {
    let (full, alike, count) = (Full::ONE_UNIT, Full::ALIKE, MAX_LINKS + 1);
    let case = |full: Full, names: Vec<Name>, what: &str| chain(full, &names, Lock::OnCreate, what, 1.25);
    [
        case(full, full.last(count), "the last records"),
        case(alike, alike.spread(count), "names alike"),
        case(alike, alike.last(count), "names alike, the last records"),
    ]
}

/// A short chain over few entries and the longest over the most, with no other variables. The second has no bar: the
/// library goes over the entries for each link.
fn over_short_stores() -> [Case; 2] {
    let names: Vec<Name> = (0..=MAX_LINKS).map(variable).collect();
    let few = &names[..2];
    let case = |what: String, entries: &[Entry], names: &[Name]| {
        settled_case(&format!("{what}, short stores"), names[0], &inputs::with_stored(entries, names), 1.1)
    };
    let most = Full::ONE_UNIT.entries(inputs::linked(&names, Lock::Now));
    let most = case(format!("{MAX_LINKS} links, {MAX_ENTRIES} entries"), &most, &names);
    [case("1 link, 2 entries".into(), &inputs::linked(few, Lock::Now), few), Case { bar: None, ..most }]
}

/// A dump to read: what it is, and its entries.
type Dump = (String, Vec<Entry>);

/// Dumps of `count` entries. With triggers of the second length fewer fit.
fn to_read(count: usize) -> Vec<Dump> {
    let named = UNITS.map(|units| (format!("names of {units} units"), inputs::numbered(count, units)));
    let by_chance = ("names by chance".into(), inputs::by_chance(count));
    let triggered = |(units, _)| (format!("triggers of {units} units"), inputs::with_triggers(count, units));
    let triggered = TRIGGERS.into_iter().filter(|(_, counts)| count <= counts[1]).map(triggered);
    named.into_iter().chain([by_chance]).chain(triggered).collect()
}

/// A dump in pieces of so many bytes.
fn in_pieces(piece: usize, what: String, entries: &[Entry]) -> Case {
    Case::new(what, Work::Reading(Reading::Pieces(piece)), inputs::with_entries(entries))
}

/// A dump read in the largest pieces, beside ordinary Rust and the check of a record with the same entries. The library is
/// held to bars where the entries are most. Where names have one slot there are none: its search is then quadratic.
pub fn reading() -> Group {
    let case = |count: usize, (what, entries): Dump| {
        let bar = (count == MAX_ENTRIES).then_some(Bar::AtMostEach([1.25, 1.5]));
        Case { bar, ..in_pieces(MAX_PIECE, format!("read, {count} entries, {what}"), &entries) }
    };
    let crafted = |count: usize| {
        let what = format!("read, {count} entries, names of one slot");
        in_pieces(MAX_PIECE, what, &inputs::entries_of_one_slot(count))
    };
    let of_count = |count: usize| to_read(count).into_iter().map(move |dump| (count, dump));
    let cases = COUNTS.into_iter().flat_map(of_count).map(|(count, dump)| case(count, dump));
    Group {
        title: "a dump read in the largest pieces",
        columns: &["library", "one pass", "ordinary", "check"],
        ratios: &["to ord.", "to check"],
        cases: cases.chain([COUNTS[1], COUNTS[3]].map(crafted)).collect(),
        growth: Vec::new(),
    }
}

/// The instructions of each byte of the longest dumps, read in small pieces.
pub fn small_pieces() -> Group {
    let case = |piece: usize, (what, entries): Dump| {
        let case = in_pieces(piece, format!("each byte, pieces of {piece}, {what}"), &entries);
        Case { each: case.lent.policy_end, ..case }
    };
    let of_piece = |piece: usize| to_read(MAX_ENTRIES).into_iter().map(move |dump| (piece, dump));
    let cases = [1, 16, 64].into_iter().flat_map(of_piece).map(|(piece, dump)| case(piece, dump)).collect();
    let title = "a dump read in small pieces";
    let columns = &["library", "one pass", "ordinary"];
    Group { title, columns, ratios: &["to ord."], cases, growth: Vec::new() }
}

/// The same byte by byte, and the instructions of the function of the library alone: without the loop that calls it, and
/// without the crate varpolicy between the two.
pub fn single_bytes() -> Group {
    let case = |(what, entries): Dump| {
        let case = in_pieces(1, format!("each byte, the calls alone, {what}"), &entries);
        let (counted, bar) = (Some("varpolicy_reader_feed"), Some(Bar::Number(40.0)));
        Case { counted, each: case.lent.policy_end, bar, ..case }
    };
    let cases = to_read(MAX_ENTRIES).into_iter().map(case).collect();
    let title = "a dump read byte by byte, the calls alone";
    Group { title, columns: &["library"], ratios: &[], cases, growth: Vec::new() }
}

/// The list of the entries of a dump that was read: the same with it, less the same without.
pub fn listing() -> Group {
    let case = |(what, entries): Dump| {
        let case = in_pieces(MAX_PIECE, format!("list, {} entries, {what}", entries.len()), &entries);
        Case { without: Some(case.work), work: Work::Reading(Reading::List), ..case }
    };
    let cases = [COUNTS[1], COUNTS[3]].into_iter().flat_map(to_read).map(case).collect();
    let title = "the list of a dump's entries";
    Group { title, columns: &["library", "ordinary"], ratios: &["to ord."], cases, growth: Vec::new() }
}

/// The choice and what the chosen entry says: a set, less the same set with the engine disabled.
pub fn choice_in_set() -> Group {
    let case = |count: usize, (what, entries, name): Policy| {
        let case_name = format!("choice in a set, {count} entries, {what}");
        let case = call(case_name, set_under(name, true), &inputs::with_short_stores(&entries), 1.0);
        Case { without: Some(Work::Call(set_under(name, false))), ..case }
    };
    let title = "the choice, with what the chosen entry says";
    Group { title, columns: VERSIONS, ratios: RATIOS, cases: over_policies(case), growth: Vec::new() }
}

/// A case for each policy of each count.
fn over_policies(case: impl Fn(usize, Policy) -> Case) -> Vec<Case> {
    let of_count = |count: usize| inputs::policies(count).into_iter().map(move |policy| (count, policy));
    COUNTS.into_iter().flat_map(of_count).map(|(count, policy)| case(count, policy)).collect()
}

// ---- parts

/// How far a move goes: a record of the stores here, or the least distance, since records have multiples of 4 bytes.
const RECORD: usize = 40;
const LEAST: usize = 4;

fn case(name: String, part: Part, lent: Lent, bar: Bar) -> Case {
    Case { bar: Some(bar), ..Case::new(name, Work::Part(part), lent) }
}

/// A part that only the archive shows, beside one ordinary version.
fn group(title: &'static str, cases: Vec<Case>) -> Group {
    Group { title, columns: &["part", "ordinary"], ratios: &["to ord."], cases, growth: Vec::new() }
}

/// The choice, without the check.
pub fn choice() -> Group {
    let cases = over_policies(|count, (what, entries, name)| {
        let name_of_case = format!("choice, {count} entries, {what}");
        let case = case(name_of_case, Part::Choose(name), inputs::with_entries(&entries), Bar::AtMost(1.0));
        Case { without: Some(Work::Part(Part::Choose(Name::EMPTY))), ..case }
    });
    group("the choice alone", cases)
}

/// The comparison of names of 64 units, without what a call costs: less that of two names of different lengths, which every
/// version tells apart at its first test.
pub fn comparison() -> Group {
    let letters = "Variable".repeat(8);
    let digits = "0123456789abcdef".repeat(4);
    let head = &letters[..60];
    let differing = |place: usize| format!("{}!{}", &letters[..place], &letters[place + 1..]);
    let pairs = [
        ("equal", letters.clone(), letters.clone()),
        ("the first unit differs", letters.clone(), differing(0)),
        ("the middle unit differs", letters.clone(), differing(32)),
        ("the last unit differs", letters.clone(), differing(63)),
        ("four '#' at the end", format!("{head}####"), format!("{head}0042")),
        ("all '#'", "#".repeat(64), digits),
    ];
    let cases = pairs.map(|(what, pattern, name)| {
        let part = Part::Match { pattern: inputs::text(&pattern), name: inputs::text(&name) };
        let case = case(format!("compare 64 units, {what}"), part, inputs::empty(), Bar::AtMost(1.25));
        Case { without: Some(Work::Part(Part::Match { pattern: Name::EMPTY, name: inputs::text("A") })), ..case }
    });
    group("one name against one pattern", cases.into())
}

/// The check of the policy record.
pub fn policy_check() -> Group {
    let case = |what: &str, units: usize, entries: Vec<Entry>| {
        let name = format!("check, {} entries, {what} of {units} units", entries.len());
        case(name, Part::CheckPolicy, inputs::with_entries(&entries), Bar::AtMost(1.25))
    };
    let named = |units: usize| COUNTS.map(|count| case("names", units, inputs::numbered(count, units)));
    let triggered = |(units, counts): (usize, [usize; 2])| {
        counts.map(|count| case("triggers", units, inputs::with_triggers(count, units)))
    };
    let growth = |(place, units): (usize, usize)| Growth {
        name: format!("check, {} entries of {units} units, times that of {}", COUNTS[3], COUNTS[1]),
        cases: [1, 3].map(|count| COUNTS.len() * place + count),
        most: 2.2,
    };
    Group {
        title: "the check of the policy record",
        columns: &["library", "part", "ordinary"],
        ratios: &["to ord."],
        cases: UNITS.into_iter().flat_map(named).chain(TRIGGERS.into_iter().flat_map(triggered)).collect(),
        growth: UNITS.into_iter().enumerate().map(growth).collect(),
    }
}

/// The same with names of one slot. No bar: the library's search is then quadratic.
pub fn policy_check_of_one_slot() -> Group {
    let cases = [COUNTS[1], COUNTS[3]].map(|count| {
        let lent = inputs::with_entries(&inputs::entries_of_one_slot(count));
        Case::new(format!("check, {count} entries, names of one slot"), Work::Part(Part::CheckPolicy), lent)
    });
    Group {
        columns: &["library", "part", "ordinary", "pairwise"],
        ratios: &["to ord.", "to pair."],
        ..group("the same, names crafted", cases.into())
    }
}

/// The check of the two stores, also with names of one slot: those of `inputs::of_one_slot`.
pub fn pair_check(one_slot: &[u32]) -> Group {
    const COUNTS: [usize; 4] = [20, 100, 300, 819];
    let case = |name: String, lent: Lent| case(name, Part::CheckStores, lent, Bar::UnderFirst);
    let numbered = COUNTS.map(|count| case(format!("check, {count} records each"), inputs::with_records(count)));
    let crafted = COUNTS.map(|count| {
        case(format!("check, {count} records each, names of one slot"), inputs::with_names(one_slot, count))
    });
    Group {
        title: "the check of the two stores",
        columns: &["library", "part", "pairwise", "small"],
        ratios: &["to pair.", "to small"],
        cases: numbered.into_iter().chain(crafted).collect(),
        growth: vec![Growth { name: "check, 819 records each, times that of 100".into(), cases: [1, 3], most: 6.0 }],
    }
}

/// The search, without the check.
pub fn search() -> Group {
    let names = [("the last", variable(VOLATILE + 818)), ("an absent one", variable(60000))];
    let cases = names.map(|(what, name)| {
        let name_of_case = format!("find {what}, 819 records each");
        let case = case(name_of_case, Part::Find(name), inputs::with_records(819), Bar::AtMost(1.0));
        Case { without: Some(Work::Part(Part::Find(Name::EMPTY))), ..case }
    });
    Group {
        columns: &["library", "part", "whole", "by unit"],
        ratios: &["to whole", "to unit"],
        ..group("the search alone", cases.into())
    }
}

/// Moves, fills and copies.
pub fn moves() -> Group {
    let bytes = |count: usize| -> Vec<u8> { (0..count).map(|place| (place % 251) as u8).collect() };
    let same = Lent { nv: bytes(MAX_STORE_BYTES), buffer: vec![0; MAX_STORE_BYTES], ..inputs::empty() };
    let longer = Lent { buffer: bytes(MAX_STORE_BYTES + RECORD), ..inputs::empty() };
    let case = |what: &str, part: Part, lent: &Lent| {
        case(format!("{what}, {MAX_STORE_BYTES} bytes"), part, lent.clone(), Bar::AtMost(2.0))
    };
    let cases = vec![
        case("fill", Part::Fill, &same),
        case("copy", Part::Copy, &same),
        case("move down by 40", Part::Move { from: RECORD, to: 0 }, &longer),
        case("move up by 40", Part::Move { from: 0, to: RECORD }, &longer),
        case("move down by 4", Part::Move { from: LEAST, to: 0 }, &longer),
        case("move up by 4", Part::Move { from: 0, to: LEAST }, &longer),
    ];
    group("moves, fills and copies", cases)
}

#[cfg(test)]
mod tests {
    use super::*;
    use crate::lent::{Answer, answer};

    #[test]
    fn each_refused_set_has_its_report() {
        let answer = |case: Case| match case.work {
            Work::Call(call) => call.run(0, &mut case.lent.clone()),
            _ => panic!("not a call"),
        };
        let answers: Vec<Answer> = refused(64).into_iter().map(answer).collect();
        assert_eq!(answers, [[2, 1, 63, 0, 0, 0, 0], [2, 2, 63, 0, 1, 1, 1], [8, 3, 63, 0, 0, 0, 0]]);
    }

    #[test]
    fn each_settled_case_has_its_answer() {
        let is_settled = |case: &Case| match &case.work {
            Work::Call(call) => call.run(0, &mut case.lent.clone()) == answer([0, 1]),
            _ => panic!("not a call"),
        };
        let not_settled: Vec<String> =
            settled().cases.into_iter().filter(|case| !is_settled(case)).map(|case| case.name).collect();
        assert_eq!(not_settled, ["settled, 17 links, lock now", "settled, a loop of two", "settled, no entry"]);
    }
}
