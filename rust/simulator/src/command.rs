//! One line of a history, understood.

use crate::text;
use std::collections::BTreeMap;
use varpolicy::{Attributes, Entry, Lock, MAX_PIECE, Name, Namespace};

/// Stores larger than this are not made.
const MAX_STORE: usize = 1 << 20;

/// What a line asks for.
#[derive(Clone, Debug)]
pub enum Command {
    Alias,
    Note(String),
    Stores { nv: usize, volatile: usize },
    PowerOn { disabling_allowed: bool },
    Restart { disabling_allowed: bool },
    Register { entry: Vec<u8> },
    Set { namespace: Namespace, name: Vec<u8>, attributes: Attributes, payload: Vec<u8> },
    Delete { namespace: Namespace, name: Vec<u8> },
    Read { namespace: Namespace, name: Vec<u8> },
    Settled { namespace: Namespace, name: Vec<u8> },
    Dump { buffer: usize },
    Quarrels(DumpOf),
    StartReader,
    Feed { piece: Vec<u8> },
    FeedDump { piece: usize },
    List,
    Lock,
    Disable,
    Exit,
    State,
    Rebuild(Order),
    Poke { part: Part, at: usize, bytes: Vec<u8> },
}

/// The bytes in which quarrels are looked for.
#[derive(Clone, Debug)]
pub enum DumpOf {
    Engine,
    Given(Vec<u8>),
}

/// The order of a rebuild.
#[derive(Clone, Debug)]
pub enum Order {
    Kept,
    Reversed,
    Places(Vec<usize>),
}

/// What is lent.
#[derive(Clone, Copy, Debug)]
pub enum Part {
    Nv,
    Volatile,
    Policy,
}

/// A failed parse: what was expected.
pub type Expected = String;

fn expected<T>(what: &str, found: Option<&str>) -> Result<T, Expected> {
    match found {
        Some(word) => Err(format!("expected {what}, found {word}")),
        None => Err(format!("expected {what} at the end of the line")),
    }
}

/// The words of a line that are still to be read.
struct Words<'a> {
    words: std::vec::IntoIter<&'a str>,
}

impl<'a> Words<'a> {
    fn next(&mut self) -> Option<&'a str> {
        self.words.next()
    }

    /// The next word, read by `read`.
    fn read<T>(&mut self, what: &str, read: impl FnOnce(&str) -> Option<T>) -> Result<T, Expected> {
        let word = self.next();
        match word.and_then(read) {
            Some(value) => Ok(value),
            None => expected(what, word),
        }
    }

    fn end(&mut self) -> Result<(), Expected> {
        match self.next() {
            None => Ok(()),
            found => expected("the end of the line", found),
        }
    }
}

const COMMANDS: &str = "namespace, stores, power-on, restart, register, set, append, delete, read, settled, dump, \
                        quarrels, start-reader, feed, feed-dump, list, lock, disable, exit, state, rebuild, poke or \
                        note";
const NAMESPACE: &str = "a namespace (an alias, a GUID or 32 hex digits)";
const NAME: &str = "a name in quotes (or hex:DIGITS)";
const ENTRY_NAME: &str = "a name of at most 64 units in quotes";
const ATTRIBUTES: &str = "attributes, as NV|BS, 0x8 or 0";
const PIECE: &str = "a number of bytes from 1 to 4096";

/// Understands lines, and keeps the aliases that they define.
#[derive(Default)]
pub struct Parser {
    namespaces: BTreeMap<String, Namespace>,
}

impl Parser {
    /// The aliases defined so far.
    pub fn namespaces(&self) -> &BTreeMap<String, Namespace> {
        &self.namespaces
    }

    /// Understands a line that is not empty.
    pub fn parse(&mut self, line: &str) -> Result<Command, Expected> {
        let mut words = Words { words: text::words(line).into_iter() };
        let verb = words.next();
        let command = match verb.unwrap_or_default() {
            "namespace" => self.alias(&mut words)?,
            "note" => return Ok(Command::Note(line["note".len()..].trim().to_string())),
            "stores" => Command::Stores { nv: store_len(&mut words)?, volatile: store_len(&mut words)? },
            "power-on" => Command::PowerOn { disabling_allowed: allow_disable(&mut words)? },
            "restart" => Command::Restart { disabling_allowed: allow_disable(&mut words)? },
            "register" => Command::Register { entry: self.entry(&mut words)? },
            "set" => self.set(&mut words, Attributes::NONE)?,
            "append" => self.set(&mut words, Attributes::APPEND)?,
            "delete" => self.named(&mut words, |namespace, name| Command::Delete { namespace, name })?,
            "read" => self.named(&mut words, |namespace, name| Command::Read { namespace, name })?,
            "settled" => self.named(&mut words, |namespace, name| Command::Settled { namespace, name })?,
            "dump" => Command::Dump { buffer: buffer_len(&mut words)? },
            "quarrels" => Command::Quarrels(dump_of(&mut words)?),
            "start-reader" => Command::StartReader,
            "feed" => Command::Feed { piece: payload(&mut words)? },
            "feed-dump" => Command::FeedDump { piece: piece_len(&mut words)? },
            "list" => Command::List,
            "lock" => Command::Lock,
            "disable" => Command::Disable,
            "exit" => Command::Exit,
            "state" => Command::State,
            "rebuild" => Command::Rebuild(order(&mut words)?),
            "poke" => poke(&mut words)?,
            _ => return expected(COMMANDS, verb),
        };
        words.end()?;
        Ok(command)
    }

    fn alias(&mut self, words: &mut Words) -> Result<Command, Expected> {
        let alias = words.read("an alias of letters and digits", |word| {
            let sound = word.chars().all(|character| character.is_alphanumeric() || "-_".contains(character));
            sound.then(|| word.to_string())
        })?;
        let namespace = words.read("a GUID or 32 hex digits", text::namespace)?;
        self.namespaces.insert(alias, namespace);
        Ok(Command::Alias)
    }

    fn namespace(&self, word: &str) -> Option<Namespace> {
        self.namespaces.get(word).copied().or_else(|| text::namespace(word))
    }

    fn variable(&self, words: &mut Words) -> Result<(Namespace, Vec<u8>), Expected> {
        let namespace = words.read(NAMESPACE, |word| self.namespace(word))?;
        Ok((namespace, words.read(NAME, name)?))
    }

    /// A command of which a variable is all that is given.
    fn named(&self, words: &mut Words, command: fn(Namespace, Vec<u8>) -> Command) -> Result<Command, Expected> {
        let (namespace, name) = self.variable(words)?;
        Ok(command(namespace, name))
    }

    fn set(&self, words: &mut Words, append: Attributes) -> Result<Command, Expected> {
        let (namespace, name) = self.variable(words)?;
        let attributes = words.read(ATTRIBUTES, attributes)? | append;
        let payload = payload(words)?;
        Ok(Command::Set { namespace, name, attributes, payload })
    }

    fn entry(&self, words: &mut Words) -> Result<Vec<u8>, Expected> {
        let first = words.next();
        if first == Some("raw") {
            return payload(words);
        }
        let Some(namespace) = first.and_then(|word| self.namespace(word)) else {
            return expected(&format!("{NAMESPACE}, or raw"), first);
        };
        let what = format!("{ENTRY_NAME}, or * for the whole namespace");
        let name = words.read(&what, |word| if word == "*" { Some(Name::EMPTY) } else { entry_name(word) })?;
        let mut entry = Entry::new(namespace, name);
        let mut lock = LockWords::default();
        while let Some(word) = words.next() {
            self.field(&mut entry, &mut lock, word)?;
        }
        entry.lock = lock.rule()?;
        Ok(entry.pack().to_vec())
    }

    fn field<'a>(&self, entry: &mut Entry, lock: &mut LockWords<'a>, word: &'a str) -> Result<(), Expected> {
        let (key, value) = word.split_once('=').unwrap_or((word, ""));
        match key {
            "min" => entry.min_size = field_value(word, "a number", text::number(value))?,
            "max" => entry.max_size = field_value(word, "a number", text::number(value))?,
            "must" => entry.must_have = field_value(word, ATTRIBUTES, attributes(value))?,
            "cant" => entry.cant_have = field_value(word, ATTRIBUTES, attributes(value))?,
            "lock" => {
                let known = ["no", "now", "on-create", "on-state"].contains(&value).then_some(value);
                lock.kind = field_value(word, "no, now, on-create or on-state", known)?;
            }
            "trigger" => {
                let parts = value.split_once(':');
                let trigger = parts.and_then(|(space, name)| Some((self.namespace(space)?, entry_name(name)?)));
                lock.trigger = Some(field_value(word, "NAMESPACE:\"NAME\"", trigger)?);
            }
            "value" => {
                let byte = text::hex(value).filter(|bytes| bytes.len() == 1);
                lock.value = Some(field_value(word, "two hex digits", byte)?[0]);
            }
            _ => return expected("min=, max=, must=, cant=, lock=, trigger= or value=", Some(word)),
        }
        Ok(())
    }
}

fn field_value<T>(word: &str, what: &str, value: Option<T>) -> Result<T, Expected> {
    match value {
        Some(value) => Ok(value),
        None => expected(&format!("{what} after the ="), Some(word)),
    }
}

/// The words of a line that tell the lock rule.
#[derive(Default)]
struct LockWords<'a> {
    kind: &'a str,
    trigger: Option<(Namespace, Name)>,
    value: Option<u8>,
}

impl LockWords<'_> {
    fn rule(self) -> Result<Lock, Expected> {
        match (self.kind, self.trigger, self.value) {
            ("on-state", Some((namespace, name)), Some(value)) => Ok(Lock::OnVarState { namespace, name, value }),
            ("on-state", _, _) => expected("trigger= and value= beside lock=on-state", None),
            ("now", None, None) => Ok(Lock::Now),
            ("on-create", None, None) => Ok(Lock::OnCreate),
            (_, None, None) => Ok(Lock::No),
            _ => expected("lock=on-state beside trigger= and value=", None),
        }
    }
}

/// The name of an entry or a trigger.
fn entry_name(word: &str) -> Option<Name> {
    Name::from_units(text::quoted(word)?)
}

/// The bytes of a name.
fn name(word: &str) -> Option<Vec<u8>> {
    match word.strip_prefix("hex:") {
        Some(digits) => text::hex(digits),
        None => Some(text::quoted(word)?.into_iter().flat_map(u16::to_le_bytes).collect()),
    }
}

fn attributes(word: &str) -> Option<Attributes> {
    if word.is_empty() {
        return None;
    }
    word.split('|').try_fold(Attributes::NONE, |sum, part| {
        let named = Attributes::NAMED.into_iter().find(|(_, name)| *name == part);
        let attribute = named.map(|(attribute, _)| attribute).or_else(|| text::number(part).map(Attributes))?;
        Some(sum | attribute)
    })
}

/// All words that are left, as bytes.
fn payload(words: &mut Words) -> Result<Vec<u8>, Expected> {
    let mut bytes = Vec::new();
    while let Some(word) = words.next() {
        match payload_part(word) {
            Some(part) => bytes.extend(part),
            None => return expected("hex digits in pairs, ASCII text in quotes, or COUNT*HH", Some(word)),
        }
    }
    Ok(bytes)
}

fn payload_part(word: &str) -> Option<Vec<u8>> {
    if word.starts_with('"') {
        let units = text::quoted(word)?;
        return units.into_iter().map(|unit| u8::try_from(unit).ok().filter(u8::is_ascii)).collect();
    }
    match word.split_once('*') {
        None => text::hex(word),
        Some((count, digits)) => {
            let count = count.parse().ok().filter(|count| *count <= MAX_STORE)?;
            Some(text::hex(digits)?.repeat(count))
        }
    }
}

fn store_len(words: &mut Words) -> Result<usize, Expected> {
    words.read("a number of bytes up to 1048576", |word| {
        text::number(word).map(|number| number as usize).filter(|number| *number <= MAX_STORE)
    })
}

fn buffer_len(words: &mut Words) -> Result<usize, Expected> {
    if words.words.len() == 0 { Ok(varpolicy::POLICY_BYTES) } else { store_len(words) }
}

fn piece_len(words: &mut Words) -> Result<usize, Expected> {
    if words.words.len() == 0 { Ok(MAX_PIECE) } else { words.read(PIECE, text::piece) }
}

fn dump_of(words: &mut Words) -> Result<DumpOf, Expected> {
    match words.next() {
        None => Ok(DumpOf::Engine),
        Some("raw") => Ok(DumpOf::Given(payload(words)?)),
        found => expected("raw or the end of the line", found),
    }
}

fn allow_disable(words: &mut Words) -> Result<bool, Expected> {
    match words.next() {
        None => Ok(false),
        Some("allow-disable") => Ok(true),
        found => expected("allow-disable or the end of the line", found),
    }
}

fn order(words: &mut Words) -> Result<Order, Expected> {
    match words.words.as_slice() {
        [] => Ok(Order::Kept),
        ["reverse"] => {
            words.next();
            Ok(Order::Reversed)
        }
        _ => {
            let mut places = Vec::new();
            while let Some(word) = words.next() {
                match word.parse() {
                    Ok(place) => places.push(place),
                    Err(_) => return expected("reverse, or the places of the entries counted from 0", Some(word)),
                }
            }
            Ok(Order::Places(places))
        }
    }
}

fn poke(words: &mut Words) -> Result<Command, Expected> {
    let part = words.read("nv, volatile or policy", |word| match word {
        "nv" => Some(Part::Nv),
        "volatile" => Some(Part::Volatile),
        "policy" => Some(Part::Policy),
        _ => None,
    })?;
    let at = words.read("the number of a byte", text::number)? as usize;
    Ok(Command::Poke { part, at, bytes: payload(words)? })
}
