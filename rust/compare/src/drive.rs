//! Random histories, each call made by the library and by the reference, everything compared.
//!
//! A history that began with a power-on is also run by the library a second time without its
//! rebuilds: every answer and every byte of the stores and switches must be the same, and the policy
//! record, granted dumps and the places in reports may differ only in the order of the entries, and only
//! after a rebuild in another order (docs/RULES.md, 12.5). The dumps of rebuilds, and random ones beside
//! each history, are asked for quarrels (10.11) and read in pieces (10.12). In some histories entries hang on one
//! another, and what is settled is watched (12.9).

mod chains;

use crate::call::{Answer, Call, Ground, Values, by_library};
use crate::comparison::{Comparison, Sides, check};
use crate::coverage::Input;
use crate::inputs::reports::ground_place;
use crate::make::{Pool, packed};
use crate::quarrels::{OLD_NAME, share_a_target};
use crate::random::Random;
use crate::reader::READER_BYTES;
use crate::reading::{Fed, Watch};
use crate::state::State;
use crate::{FORMER_ENTRIES, damage, make, pieces};
use reference::{Entry, MAX_ENTRIES, POLICY_BYTES, Policy};
use varpolicy::{MAX_STORE_BYTES, Report, Status, SwitchBytes};

/// Adds at least `calls` calls to a comparison, or tells the first difference in words.
pub fn run(comparison: &mut Comparison, calls: u64, seed: u64) -> Result<(), String> {
    let enough = comparison.calls + calls;
    let (random, dumps, cuts) = (Random::new(seed), Random::new(!seed), Random::new(seed.rotate_left(32)));
    let mut run = Run { random, dumps, cuts, pool: Pool::default(), comparison };
    let mut number = 0;
    while run.comparison.calls < enough {
        number += 1;
        run.pool = Pool::new(&mut run.random);
        let outcome = match run.random.below(10) {
            0..=1 => run.unrelated_calls(),
            2..=3 => run.chain_history(),
            _ => run.history(),
        };
        let outcome = outcome.and_then(|()| run.random_dumps()).and_then(|()| run.dumps_in_pieces());
        outcome.map_err(|what| format!("seed {seed}, history {number}, {what}"))?;
    }
    Ok(())
}

struct Run<'a> {
    random: Random,
    /// For the dumps, so that they change no history.
    dumps: Random,
    /// For those that are read in pieces, and for the pieces.
    cuts: Random,
    /// The names that the history at hand uses most.
    pool: Pool,
    comparison: &'a mut Comparison,
}

/// A history after its power-on.
struct History {
    sides: Sides,
    /// The state of the same history without its rebuilds.
    straight: State,
    /// The entries of the policy record, in the order that stands.
    order: Vec<Vec<u8>>,
    /// The entries of the policy record without the rebuilds.
    straight_order: Vec<Vec<u8>>,
    /// The dumps that are still complete: the last of the history, and the last that was made for a rebuild.
    dumps: Vec<Dump>,
    /// Whether the history has exited before.
    has_exited: bool,
    /// Whether a rebuild was made since the last exit.
    rebuilt: bool,
}

/// A dump (docs/RULES.md, 12.2).
#[derive(Clone)]
struct Dump {
    /// Its entries.
    entries: Vec<Vec<u8>>,
    /// Whether it was made for a rebuild, and is no call of the history.
    own: bool,
    /// Whether an engine that had exited was rebuilt from it.
    served: bool,
}

impl History {
    /// A history that begins in this state.
    fn new(sides: Sides) -> History {
        let straight = sides.library.clone();
        let (order, straight_order, dumps) = (Vec::new(), Vec::new(), Vec::new());
        History { sides, straight, order, straight_order, dumps, has_exited: false, rebuilt: false }
    }

    /// Whether the engine has exited.
    fn exited(&self) -> bool {
        self.sides.library.read_switches().exited
    }

    /// Keeps a dump of the entries as they stand.
    fn keep_dump(&mut self, own: bool) {
        self.dumps.retain(|dump| dump.own != own);
        self.dumps.push(Dump { entries: self.order.clone(), own, served: false });
    }

    /// Notes a call that was granted.
    fn note(&mut self, call: &Call) {
        match call {
            Call::Register { entry } => {
                self.order.push(entry.clone());
                self.straight_order.push(entry.clone());
                self.dumps.clear();
            }
            Call::PowerOn { .. } | Call::Restart { .. } => {
                self.order.clear();
                self.straight_order.clear();
                self.dumps.clear();
            }
            Call::Dump { .. } => self.keep_dump(false),
            Call::Exit => (self.has_exited, self.rebuilt) = (true, false),
            _ => {}
        }
    }
}

impl Run<'_> {
    /// A history from power-on, with rebuilds, and with calls on damaged copies of its state.
    fn history(&mut self) -> Result<(), String> {
        let (nv, volatile) = self.lent_stores();
        let crowded = nv.len() == MAX_STORE_BYTES;
        let mut history = self.powered_on(&nv, volatile)?;
        if self.random.one_in(30) {
            self.fill_policy(&mut history)?;
        }
        let length = if crowded { 12 } else { 10 + self.random.below(120) };
        for _ in 0..length {
            match self.random.below(100) {
                0..=3 => self.rebuild(&mut history)?,
                4..=12 => self.damaged_call(&history.sides.library)?,
                13..=40 if crowded => self.damaged_call(&history.sides.library)?,
                _ => {
                    let call = self.call(&history.sides.library);
                    self.step(&mut history, &call)?;
                }
            }
        }
        Ok(())
    }

    /// A history that begins over this non-volatile store. The old bytes of the volatile one and of the policy record
    /// are of no account.
    fn powered_on(&mut self, nv: &[u8], volatile: Vec<u8>) -> Result<History, String> {
        let old_policy = vec![self.random.byte(); POLICY_BYTES];
        let old_volatile = if self.random.one_in(2) { volatile } else { self.random.bytes(volatile.len()) };
        let mut sides = Sides::new(State::new(nv, &old_volatile, &old_policy));
        let power_on = Call::PowerOn { disabling_allowed: (!self.random.one_in(4)).into() };
        let answer = self.comparison.exchange(&mut sides, &power_on)?;
        check(answer.status == Status::Success, "power-on over a sound store was refused")?;
        Ok(History::new(sides))
    }

    /// Calls over a state that no history made: any entries, any switches, often damaged.
    fn unrelated_calls(&mut self) -> Result<(), String> {
        let chained = self.random.one_in(4);
        let mut state = if chained { self.chain_state() } else { self.any_state()? };
        state.switches = self.switches();
        for _ in 0..1 + self.random.below(10) {
            if self.random.one_in(3) {
                self.damaged_call(&state)?;
            } else {
                let ask = chained && self.random.one_in(2);
                let call = if ask { self.pool.settled(&mut self.random) } else { self.call(&state) };
                let mut sides = Sides::new(state);
                self.comparison.exchange(&mut sides, &call)?;
                state = sides.library;
            }
        }
        Ok(())
    }

    /// Any entries over any stores.
    fn any_state(&mut self) -> Result<State, String> {
        let (nv, volatile) = self.lent_stores();
        Ok(State::new(&nv, &volatile, &packed(&self.any_entries()?)))
    }

    /// Random dumps, damaged or not, asked for quarrels.
    fn random_dumps(&mut self) -> Result<(), String> {
        for _ in 0..8 {
            let random = &mut self.dumps;
            let entries = make::quarrelsome(random);
            let (kind, dump) = damage::dump(random, &self.pool, entries);
            let old = random.bytes(OLD_NAME.len()).try_into().expect("as many");
            self.comparison.coverage.input(Input::Dump, kind);
            self.comparison.quarrels(&dump, &old)?;
        }
        Ok(())
    }

    /// Random dumps, damaged or not, and random bytes, read in pieces that are cut by chance; and a reader of any bytes.
    fn dumps_in_pieces(&mut self) -> Result<(), String> {
        let random = &mut self.cuts;
        for _ in 0..2 {
            let entries = make::quarrelsome(random);
            let (kind, mut dump) = damage::dump(random, &self.pool, entries);
            if random.one_in(4) {
                let count = random.pick(&[1, 5, 50, 5000]);
                dump.extend(random.bytes(count));
            } else {
                self.comparison.coverage.input(Input::ReadDamage, kind);
            }
            let mut fed = Fed::new(&dump);
            for _ in 0..2 {
                self.comparison.read(&mut fed, &pieces::by_chance(random, dump.len()), Watch::Last)?;
            }
        }
        let (content, piece) = (random.bytes(READER_BYTES), random.bytes(200));
        let end = random.below(piece.len());
        self.comparison.any_reader(&content, &[&piece[..end], &piece[end..]])
    }

    /// Distinct entries of the pool, sometimes behind so many others that they come to the limit or to the former one.
    fn any_entries(&mut self) -> Result<Vec<Vec<u8>>, String> {
        let others = self.random.pick(&[0, 0, 0, 0, 0, 0, FORMER_ENTRIES - 3, MAX_ENTRIES - 3]);
        let mut entries = make::entries_of_size(44, others);
        let mut policy = Policy::default();
        for _ in 0..self.random.pick(&[0, 1, 3, 10]) {
            let bytes = self.pool.entry_fields(&mut self.random).pack();
            let entry = Entry::decode(&bytes).ok_or("a made entry is malformed")?;
            if entries.len() < MAX_ENTRIES && !policy.holds(&entry) {
                policy.entries.push(entry);
                entries.push(bytes);
            }
        }
        Ok(entries)
    }

    /// Any switches, more often enabled, unlocked and not exited than otherwise; one in eight has any byte in one place.
    fn switches(&mut self) -> SwitchBytes {
        let bits = self.random.bits();
        let set = [bits & 3 != 0, bits & 12 == 0, bits & 16 != 0, bits & 96 == 0];
        let [enabled, locked, disabling_allowed, exited] = set.map(u8::from);
        let mut switches = SwitchBytes { enabled, locked, disabling_allowed, exited };
        if self.random.one_in(8) {
            let SwitchBytes { enabled, locked, disabling_allowed, exited } = &mut switches;
            *[enabled, locked, disabling_allowed, exited][self.random.below(4)] = self.random.byte();
        }
        switches
    }

    /// Two sound stores to begin with.
    fn lent_stores(&mut self) -> (Vec<u8>, Vec<u8>) {
        let random = &mut self.random;
        if random.one_in(20) {
            let count = random.pick(&[20, 100, 300, 819]);
            let (nv, volatile, pool) = make::crowded_stores(random, count);
            self.pool = pool;
            return (nv, volatile);
        }
        let (nv_len, volatile_len) = (make::store_len(random), make::store_len(random));
        self.pool.stores(random, nv_len, volatile_len)
    }

    /// Any call on an engine in this state.
    fn call(&mut self, state: &State) -> Call {
        let random = &mut self.random;
        match random.below(100) {
            0..=54 => self.pool.set(random, state.read_switches().exited),
            55 => Call::Exit,
            56..=65 => self.pool.read(random),
            66..=69 => self.pool.settled(random),
            70..=85 if random.one_in(4) => {
                let (kind, entry) = damage::entry(random, &self.pool);
                self.comparison.coverage.input(Input::Entry, kind);
                Call::Register { entry }
            }
            70..=85 => {
                let mut fields = self.pool.entry_fields(random);
                if fields.lock_type == 3 && random.one_in(6) {
                    fields.put_sign_in_trigger(random);
                }
                Call::Register { entry: fields.pack() }
            }
            86..=91 => make::dump(random, damage::entry_sizes(&state.policy).iter().sum()),
            92..=93 => Call::Lock,
            94..=95 => Call::Disable,
            96..=97 => Call::Query,
            98 => Call::PowerOn { disabling_allowed: random.one_in(2).into() },
            _ => Call::Restart { disabling_allowed: random.one_in(2).into() },
        }
    }

    /// A call on a copy of a state in which something is damaged. The copy is then dropped.
    fn damaged_call(&mut self, state: &State) -> Result<(), String> {
        let random = &mut self.random;
        let mut nv = state.nv.to_vec();
        let mut volatile = state.volatile.to_vec();
        let mut policy = state.policy.to_vec();
        if random.one_in(3) {
            let kind = damage::policy(random, &self.pool, &mut policy);
            self.comparison.coverage.input(Input::Policy, kind);
        } else {
            let kind = damage::stores(random, &mut nv, &mut volatile);
            self.comparison.coverage.input(Input::Stores, kind);
        }
        let mut damaged = State::new(&nv, &volatile, &policy);
        damaged.switches = state.switches;
        if self.random.one_in(4) {
            damaged.switches.exited = self.random.byte();
        }
        let call = match self.random.below(4) {
            0 => Call::PowerOn { disabling_allowed: 1 },
            1 => Call::Restart { disabling_allowed: 1 },
            _ => self.call(&damaged),
        };
        self.comparison.exchange(&mut Sides::new(damaged), &call).map(|_| ())
    }

    /// Registers entries until the engine holds no more, by number or by length, some of the pool's among them. Where
    /// the room that is left is the size of an entry, it is filled by one.
    fn fill_policy(&mut self, history: &mut History) -> Result<(), String> {
        let size = self.random.pick(&[44, 44, make::SHARE, 142, make::LONGEST]);
        let mut refused = 0;
        while refused < 2 {
            if self.random.one_in(8) {
                let entry = self.pool.entry_fields(&mut self.random).pack();
                self.step(history, &Call::Register { entry })?;
            }
            let registered = history.order.len();
            let left = POLICY_BYTES - history.order.iter().map(Vec::len).sum::<usize>();
            let size = if make::is_entry_size(left) { left } else { size };
            let entry = make::entry_of_size(size, registered);
            self.step(history, &Call::Register { entry })?;
            refused += usize::from(history.order.len() == registered);
        }
        if self.random.one_in(2) { self.rebuild(history) } else { Ok(()) }
    }

    /// A call of the history: on both sides, and on the state without rebuilds. Tells whether it was granted.
    fn step(&mut self, history: &mut History, call: &Call) -> Result<bool, String> {
        if history.order != history.straight_order {
            self.count_after_reorder(call);
        }
        let exited = history.exited();
        // After exit no dump is granted, so that one has to be complete before.
        if matches!(call, Call::Exit) && !exited && (history.dumps.is_empty() || self.random.one_in(2)) {
            self.dump_for_rebuild(history)?;
        }
        let answer = self.comparison.exchange(&mut history.sides, call)?;
        let straight_answer = by_library(&mut history.straight, call);
        let granted = answer.status == Status::Success;
        self.count_exits(history, exited, call, granted);
        if granted {
            history.note(call);
        }
        compare_answers(history, call, &answer, &straight_answer)?;
        if history.order != history.straight_order {
            self.count_moved(&answer, &straight_answer);
        }
        compare_states(history)?;
        Ok(granted)
    }

    /// A rebuild: a restart over the same stores, the entries of a complete dump registered again,
    /// then disable, lock and exit, each only if the old engine was or had. Every call of it must succeed.
    fn rebuild(&mut self, history: &mut History) -> Result<(), String> {
        let before = history.sides.library.clone();
        let is_older = history.exited() || !history.dumps.is_empty() && self.random.one_in(2);
        if !is_older {
            self.dump_for_rebuild(history)?;
        }
        let place = if is_older { self.random.below(history.dumps.len()) } else { history.dumps.len() - 1 };
        let mut entries = history.dumps[place].entries.clone();
        let quarrel = self.asked_for_quarrel(&entries)?;
        self.read_in_pieces(&entries)?;
        let reorder = entries.len() > 1 && self.random.one_in(2) && !quarrel;
        if reorder {
            self.random.shuffle(&mut entries);
        }
        let reference::Switches { enabled, locked, exited, .. } = before.read_switches();
        self.rebuild_call(history, &Call::Restart { disabling_allowed: before.switches.disabling_allowed })?;
        for entry in &entries {
            self.rebuild_call(history, &Call::Register { entry: entry.clone() })?;
        }
        for (_, call) in
            [(!enabled, Call::Disable), (locked, Call::Lock), (exited, Call::Exit)].iter().filter(|row| row.0)
        {
            self.rebuild_call(history, call)?;
        }
        if exited {
            self.count_rebuild_after_exit(history, place, reorder);
            history.dumps[place].served = true;
            history.rebuilt = true;
        }
        if entries == history.order {
            check(history.sides.library == before, "a rebuild in order has changed the state")?;
        }
        history.order = entries;
        self.count_rebuild(&history.order, is_older, reorder);
        compare_states(history)
    }

    /// Whether two of the entries quarrel, as both sides say of a dump of them.
    fn asked_for_quarrel(&mut self, entries: &[Vec<u8>]) -> Result<bool, String> {
        let found = self.comparison.quarrels(&entries.concat(), &OLD_NAME)?.answer.found;
        check(found == quarrel(entries)?, "entries are unambiguous, and their dump has a quarrel, or neither")?;
        self.comparison.coverage.input(Input::QuarrelRebuilt, found.into());
        Ok(found)
    }

    /// Reads a dump of the entries in pieces: each of them is good.
    fn read_in_pieces(&mut self, entries: &[Vec<u8>]) -> Result<(), String> {
        let dump = entries.concat();
        let mut fed = Fed::new(&dump);
        self.comparison.read(&mut fed, &pieces::by_chance(&mut self.cuts, dump.len()), Watch::Last)?;
        let reading = fed.reading(dump.len());
        let good = reading.fault.is_none() && reading.entries.len() == entries.len();
        check(good, "an engine's own dump has a bad entry")
    }

    /// A dump that is made for a rebuild, now or later, into a buffer that is long enough.
    fn dump_for_rebuild(&mut self, history: &mut History) -> Result<(), String> {
        let needed: usize = history.order.iter().map(Vec::len).sum();
        let buffer = vec![0x5A; needed + self.random.pick(&[0, 1, 300])];
        let answer = self.rebuild_call(history, &Call::Dump { buffer })?;
        let Values::Dumped { length, buffer } = answer.values else {
            return Err("a dump answered no length".to_string());
        };
        let mut rest = &buffer[..length];
        let mut entries = Vec::new();
        for size in damage::entry_sizes(rest) {
            let (entry, behind) = rest.split_at(size);
            entries.push(entry.to_vec());
            rest = behind;
        }
        check(entries == history.order && rest.is_empty(), "a dump does not hold the registered entries")?;
        history.keep_dump(true);
        Ok(())
    }

    fn rebuild_call(&mut self, history: &mut History, call: &Call) -> Result<Answer, String> {
        let answer = self.comparison.exchange(&mut history.sides, call)?;
        let refused = format_args!("{} of a rebuild answered {}", call.name(), answer.status);
        check(answer.status == Status::Success, refused)?;
        self.comparison.coverage.answer("rebuild", Status::Success, Ground::Status);
        Ok(answer)
    }

    fn count_rebuild(&mut self, entries: &[Vec<u8>], is_older: bool, reorder: bool) {
        let coverage = &mut self.comparison.coverage;
        coverage.input(Input::Rebuild, usize::from(is_older) + if reorder { 2 } else { 0 });
        if entries.len() == MAX_ENTRIES {
            coverage.input(Input::Rebuild, 4);
        }
        if entries.iter().map(Vec::len).sum::<usize>() == POLICY_BYTES {
            coverage.input(Input::Rebuild, 5);
        }
    }

    /// Counts a rebuild of an engine that has exited, from the dump at this place.
    fn count_rebuild_after_exit(&mut self, history: &History, place: usize, reorder: bool) {
        let reference::Switches { enabled, locked, .. } = history.sides.library.read_switches();
        let Dump { entries, own, served } = &history.dumps[place];
        let coverage = &mut self.comparison.coverage;
        coverage.input(Input::ExitRebuild, usize::from(!own) + if reorder { 2 } else { 0 });
        if entries.is_empty() {
            coverage.input(Input::ExitRebuild, 4);
        }
        if *served {
            coverage.input(Input::ExitRebuild, 5);
        }
        coverage.input(Input::ExitRebuild, 6 + usize::from(locked) + if enabled { 0 } else { 2 });
    }

    /// Counts a call of a history by what it has to do with exits; `exited` is of before the call.
    fn count_exits(&mut self, history: &History, exited: bool, call: &Call, granted: bool) {
        let label = match call {
            Call::Exit if granted => usize::from(history.has_exited) * 4,
            Call::Exit => 1,
            Call::PowerOn { .. } if exited => 2,
            Call::Restart { .. } if exited => 3,
            Call::Set { attributes, payload, .. } if exited && granted => {
                let deletion = attributes & 0x40 == 0 && (payload.is_empty() || attributes & 6 == 0);
                5 + usize::from(deletion)
            }
            _ if exited && history.rebuilt => 7,
            _ => return,
        };
        self.comparison.coverage.input(Input::ExitHistory, label);
    }

    fn count_after_reorder(&mut self, call: &Call) {
        let label = match call {
            Call::Set { .. } => 0,
            Call::Read { .. } => 1,
            Call::Dump { .. } => 2,
            Call::Register { .. } => 3,
            Call::Lock | Call::Disable | Call::Query => 4,
            Call::Exit => 5,
            Call::PowerOn { .. } | Call::Restart { .. } => 6,
            Call::Settled { .. } => 7,
        };
        self.comparison.coverage.input(Input::AfterReorder, label);
    }

    /// Counts a report by whether its entry stands elsewhere than without the rebuilds.
    fn count_moved(&mut self, answer: &Answer, straight: &Answer) {
        if let (Values::Written(report), Values::Written(straight)) = (&answer.values, &straight.values)
            && report.ground != varpolicy::Ground::None
        {
            let moved = usize::from(report.place != straight.place);
            self.comparison.coverage.input(Input::ReportReordered, 2 * ground_place(report) + moved);
        }
    }
}

/// Every answer is the one that the history without rebuilds got, but for the order of a granted dump and the place in
/// a report.
fn compare_answers(history: &History, call: &Call, answer: &Answer, straight: &Answer) -> Result<(), String> {
    match (call, &answer.values, &straight.values) {
        (Call::Dump { buffer }, ..) if answer.status == Status::Success => {
            compare_dumps(history, buffer, answer, straight)
        }
        (_, Values::Written(report), Values::Written(without)) if report.ground != varpolicy::Ground::None => {
            check(answer.status == straight.status, "a rebuild has changed a later status")?;
            compare_reports(history, report, without)
        }
        _ => check(answer == straight, "a rebuild has changed a later answer"),
    }
}

/// A report is the one that the history without rebuilds got, but that its place is that of the same entry in the order
/// that stands.
fn compare_reports(history: &History, report: &Report, straight: &Report) -> Result<(), String> {
    let in_place = Report { place: straight.place, ..*report };
    check(in_place == *straight, "a rebuild has changed more of a report than its place")?;
    let [entry, straight_entry] = [(&history.order, report), (&history.straight_order, straight)]
        .map(|(order, report)| order.get(report.place as usize));
    check(entry.is_some() && entry == straight_entry, "a report points to another entry than without the rebuilds")
}

/// A granted dump has the entries in the order that stands, and the bytes behind them as they were.
fn compare_dumps(history: &History, old: &[u8], answer: &Answer, straight: &Answer) -> Result<(), String> {
    for (answer, order) in [(answer, &history.order), (straight, &history.straight_order)] {
        let entries = order.concat();
        let buffer = [&entries[..], &old[entries.len()..]].concat();
        let expected = Answer { status: Status::Success, values: Values::Dumped { length: entries.len(), buffer } };
        check(*answer == expected, "a dump does not hold the entries in the order that stands")?;
    }
    Ok(())
}

/// Stores and switches are those of the history without rebuilds, and both policy records hold their entries.
fn compare_states(history: &History) -> Result<(), String> {
    let (state, straight) = (&history.sides.library, &history.straight);
    check(state.nv == straight.nv, "a rebuild has changed the non-volatile store")?;
    check(state.volatile == straight.volatile, "a rebuild has changed the volatile store")?;
    check(state.switches == straight.switches, "a rebuild has changed the switches")?;
    for (state, order) in [(state, &history.order), (straight, &history.straight_order)] {
        check(holds(&state.policy, order), "the policy record does not hold the entries in order")?;
    }
    Ok(())
}

/// Whether a policy record holds these entries and then zeros.
fn holds(record: &[u8], entries: &[Vec<u8>]) -> bool {
    const ZEROS: &[u8; POLICY_BYTES] = &[0; POLICY_BYTES];
    let rest = entries.iter().try_fold(record, |rest, entry| rest.strip_prefix(entry.as_slice()));
    rest.is_some_and(|rest| *rest == ZEROS[..rest.len()])
}

/// Whether two entries of equal rank target one variable, whether or not it exists.
fn quarrel(entries: &[Vec<u8>]) -> Result<bool, String> {
    let decoded: Option<Vec<Entry>> = entries.iter().map(|entry| Entry::decode(entry)).collect();
    let decoded = decoded.ok_or("a registered entry is malformed")?;
    let mut pairs = decoded.iter().enumerate().flat_map(|(place, entry)| {
        let later = &decoded[place + 1..];
        later.iter().map(move |other| (entry, other))
    });
    Ok(pairs.any(|(entry, other)| {
        entry.namespace == other.namespace && entry.rank() == other.rank() && share_a_target(&entry.name, &other.name)
    }))
}
