//! Which entry is chosen for a variable (docs/RULES.md, 4). Of a refused set the library reports it; of a chain of triggers
//! it does not.

use varpolicy::{Entry, Name, Namespace, WHOLE_NAMESPACE_RANK};

/// A variable.
#[derive(Clone, Copy, PartialEq)]
pub struct Variable {
    pub namespace: Namespace,
    pub name: Name,
}

/// The entry that is chosen for a variable, with its place: of those that target it the first of lowest rank.
pub fn chosen<'a>(entries: &'a [Entry], variable: &Variable) -> Option<(usize, &'a Entry)> {
    let targeting = entries.iter().enumerate().filter(|(_, entry)| targets(entry, variable));
    targeting.min_by_key(|(_, entry)| rank(entry))
}

fn targets(entry: &Entry, variable: &Variable) -> bool {
    let named = entry.name.is_empty() || matches(&entry.name, &variable.name);
    named && entry.namespace == variable.namespace
}

fn matches(pattern: &Name, name: &Name) -> bool {
    let mut pairs = units(pattern).zip(units(name));
    pattern.len() == name.len()
        && pairs.all(|(pattern, unit)| if is_sign(&pattern) { is_hex_digit(unit) } else { pattern == unit })
}

fn rank(entry: &Entry) -> u32 {
    match entry.name.is_empty() {
        true => WHOLE_NAMESPACE_RANK,
        false => units(&entry.name).filter(is_sign).count() as u32,
    }
}

/// The units of a name.
pub fn units(name: &[u8]) -> impl Iterator<Item = u16> {
    name.chunks_exact(2).map(|unit| u16::from_le_bytes([unit[0], unit[1]]))
}

fn is_sign(unit: &u16) -> bool {
    *unit == u16::from(b'#')
}

fn is_hex_digit(unit: u16) -> bool {
    u8::try_from(unit).is_ok_and(|byte| byte.is_ascii_hexdigit())
}

#[cfg(test)]
mod tests {
    use super::super::OPEN;
    use super::*;
    use varpolicy::calls::{self, Request};
    use varpolicy::{Attributes, Ground, Lock, POLICY_BYTES, Status};

    /// The place of the entry that the library reports of a refused set.
    fn reported(policy: &[u8], variable: &Variable) -> Option<usize> {
        let Variable { namespace, name } = variable;
        let request = Request { namespace, name, attributes: Attributes::BS, payload: &[1] };
        let report = calls::set(&mut [], &mut [0xFF; 256], policy, OPEN, request).report;
        (report.ground == Ground::Lock).then_some(report.place as usize)
    }

    const NAMES: &str =
        "A a F G g 0 9 : / @ ` # AA Aa aA A# ## GA GG A\u{141} \u{141}A \u{123}A AAA AA\u{141} AG\u{141}";

    fn assert_the_library_agrees(patterns: &[&str]) {
        let name = |text: &str| Name::new(text).expect("a name");
        let entry = |text: &&str| Entry { lock: Lock::Now, ..Entry::new([1; 16], name(text)) };
        let entries: Vec<Entry> = patterns.iter().map(entry).collect();
        let mut policy = vec![0; POLICY_BYTES];
        for entry in &entries {
            assert_eq!(calls::register(&mut policy, OPEN, &entry.pack()), Status::Success);
        }
        for namespace in [[1; 16], [2; 16]] {
            for text in NAMES.split(' ') {
                let variable = Variable { namespace, name: name(text) };
                let place = chosen(&entries, &variable).map(|(place, _)| place);
                assert_eq!(place, reported(&policy, &variable), "{text} of {patterns:?}");
            }
        }
    }

    #[test]
    fn the_choice_is_the_library_s() {
        let mut patterns = ["", "A#", "#A", "##", "AA", "A", "#", "###", "A#\u{141}", "G#", "\u{123}A"];
        assert_the_library_agrees(&patterns);
        assert_the_library_agrees(&patterns[1..]);
        patterns.reverse();
        assert_the_library_agrees(&patterns);
    }
}
