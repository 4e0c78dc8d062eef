//! The wrong programs: edits of the reference, each of which breaks one of the rules (docs/RULES.md) or of the
//! switches' bytes.
//!
//! No edit makes an equivalent program. The obvious ones that would, and are missing for that reason: step 1's
//! name after its payload, and step 8 after step 9 (one status each, no report, and nothing written); a deletion
//! asked for BS alone instead of BS and RT (step 3 has refused RT without BS); the volatile store searched before
//! the other (no variable stands twice); a limit on the sum of Sizes that is one byte higher (every Size is even);
//! 7 bits of an entry's place (no place has more); the length that an append makes in 16 bits (it is 2,048 at
//! most); MaxSize asked of an append's own length too (the sum is no shorter); MinSize less the stored length, 0 at
//! least, asked of it; a '#' in a trigger's name that a set takes for a pattern, or for no variable (no trigger has
//! one); a report that never counts BS as missing, or tells 5 bits of the number of missing bits (every set that
//! is asked for attributes has BS); a quarrel that is not looked for among names of one unit, names of '#' alone
//! or whole namespaces (none of them has any), and 16 bits of a dump's length (128 entries have fewer bytes);
//! after exit BS not asked for beside NV and RT (step 3 has refused RT without BS), NV and RT asked for before the rest
//! of step 3 (one status, and no report), and volatile records that need no room (nothing is written there); of settled
//! variables a loop that is left after 17 links instead of where it comes round (a no either way), and 7 bits of the number
//! of links (128 entries make no longer chain that ends with a lock).

mod calls;
mod entry;
mod exit;
mod former;
mod limits;
mod name;
mod policy;
mod quarrels;
mod reading;
mod reports;
mod set;
mod settled;
mod signs;
mod store;
mod sums;
mod switches;
mod triggers;

/// An edit of one file of the reference.
pub struct Edit {
    /// What the mutant is called.
    pub name: &'static str,
    /// The text to replace, which occurs once.
    pub old: &'static str,
    /// The text that replaces it.
    pub new: &'static str,
    /// The wrong rule in words.
    pub rule: &'static str,
}

const fn edit(name: &'static str, old: &'static str, new: &'static str, rule: &'static str) -> Edit {
    Edit { name, old, new, rule }
}

impl Edit {
    /// The edited text, if the text to replace occurs exactly once.
    pub fn applied_to(&self, text: &str) -> Result<String, String> {
        match text.matches(self.old).count() {
            1 => Ok(text.replacen(self.old, self.new, 1)),
            count => Err(format!("{}: its text occurs {count} times, not once", self.name)),
        }
    }
}

/// The edits of each file in `reference/src`.
const FILES: [(&str, &[Edit]); 31] = [
    ("lib.rs", limits::EDITS),
    ("lib.rs", former::LIMIT_EDITS),
    ("cursor.rs", limits::CURSOR_EDITS),
    ("name.rs", name::EDITS),
    ("name.rs", signs::NAME_EDITS),
    ("name.rs", reports::NAME_EDITS),
    ("entry.rs", entry::EDITS),
    ("entry.rs", signs::ENTRY_EDITS),
    ("entry.rs", triggers::ENTRY_EDITS),
    ("policy.rs", policy::EDITS),
    ("policy.rs", former::POLICY_EDITS),
    ("policy.rs", signs::POLICY_EDITS),
    ("policy.rs", triggers::POLICY_EDITS),
    ("store.rs", store::EDITS),
    ("store.rs", signs::STORE_EDITS),
    ("engine.rs", calls::EDITS),
    ("engine.rs", former::EDITS),
    ("engine.rs", set::EDITS),
    ("engine.rs", signs::EDITS),
    ("engine.rs", triggers::EDITS),
    ("engine.rs", sums::EDITS),
    ("engine.rs", reports::SET_EDITS),
    ("report.rs", reports::EDITS),
    ("switches.rs", switches::EDITS),
    ("quarrel.rs", quarrels::EDITS),
    ("reading.rs", reading::EDITS),
    ("engine.rs", exit::EDITS),
    ("switches.rs", exit::SWITCH_EDITS),
    ("report.rs", exit::REPORT_EDITS),
    ("lib.rs", settled::LIMIT_EDITS),
    ("settled.rs", settled::EDITS),
];

/// All edits, each with its file.
pub fn all() -> impl Iterator<Item = (&'static str, &'static Edit)> {
    FILES.into_iter().flat_map(|(file, edits)| edits.iter().map(move |edit| (file, edit)))
}

#[cfg(test)]
mod tests {
    use super::*;
    use std::collections::BTreeSet;
    use std::fs;
    use std::path::Path;

    #[test]
    fn every_edit_fits_the_reference() {
        let folder = Path::new(env!("CARGO_MANIFEST_DIR")).join("../reference/src");
        for (file, edit) in all() {
            let text = fs::read_to_string(folder.join(file)).unwrap();
            assert_ne!(edit.applied_to(&text).unwrap(), text, "{}", edit.name);
        }
    }

    #[test]
    fn names_and_programs_are_distinct() {
        let names: BTreeSet<&str> = all().map(|(_, edit)| edit.name).collect();
        let programs: BTreeSet<(&str, &str, &str)> = all().map(|(file, edit)| (file, edit.old, edit.new)).collect();
        assert_eq!((names.len(), programs.len()), (all().count(), all().count()));
        assert!(names.len() >= 60);
    }
}
