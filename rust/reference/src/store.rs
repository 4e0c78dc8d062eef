//! The two lent stores, decoded into lists of variables.

use crate::cursor::Cursor;
use crate::name;
use crate::{BS, MAX_PAYLOAD, MAX_STORE, NV, Namespace, RT};
use std::collections::BTreeSet;

const START: u16 = 0x55AA;
const ADDED: u8 = 0x3F;
const HEADER: usize = 32;

/// Which of the two stores.
#[derive(Clone, Copy, PartialEq, Eq, Debug)]
pub enum Kind {
    /// Its variables have NV.
    NonVolatile,
    /// Its variables do not have NV.
    Volatile,
}

/// A stored variable.
#[derive(Clone, PartialEq, Eq, Debug)]
pub struct Variable {
    /// Its namespace.
    pub namespace: Namespace,
    /// Its name.
    pub name: Vec<u16>,
    /// NV, BS and RT, as stored.
    pub attributes: u32,
    /// 1 to 1,024 bytes.
    pub payload: Vec<u8>,
}

impl Variable {
    /// Whether this is the variable of that namespace and name.
    pub fn is(&self, namespace: &Namespace, name: &[u16]) -> bool {
        self.namespace == *namespace && self.name == name
    }

    /// Whether it is visible at run time.
    pub fn is_runtime(&self) -> bool {
        self.attributes & RT != 0
    }

    /// Where the payload begins in the record.
    pub fn payload_at(&self) -> usize {
        HEADER + 2 * self.name.len() + 2
    }

    /// Length of the record with its padding.
    pub fn record_len(&self) -> usize {
        (self.payload_at() + self.payload.len()).next_multiple_of(4)
    }

    fn decode(cursor: &mut Cursor, kind: Kind) -> Option<Variable> {
        let start = cursor.u16()?;
        let state = cursor.u8()?;
        let zero = cursor.u8()?;
        let attributes = cursor.u32()?;
        let name_size = cursor.u32()?;
        let data_size = cursor.u32()?;
        let namespace = cursor.array()?;
        let name = name::decode_closed(cursor.take(name_size as usize)?)?;
        let payload = cursor.take(data_size as usize)?.to_vec();
        let non_volatile = attributes & NV != 0;
        let sound = start == START
            && state == ADDED
            && zero == 0
            && attributes & !(NV | BS | RT) == 0
            && attributes & BS != 0
            && non_volatile == (kind == Kind::NonVolatile)
            && (1..=MAX_PAYLOAD).contains(&payload.len());
        let variable = Variable { namespace, name, attributes, payload };
        let used = variable.payload_at() + variable.payload.len();
        let padding = cursor.take(variable.record_len() - used)?;
        (sound && is_erased(padding)).then_some(variable)
    }

    fn encode(&self, bytes: &mut Vec<u8>) {
        let end = bytes.len() + self.record_len();
        let name = name::encode_closed(&self.name);
        bytes.extend(START.to_le_bytes());
        bytes.extend([ADDED, 0]);
        bytes.extend(self.attributes.to_le_bytes());
        bytes.extend((name.len() as u32).to_le_bytes());
        bytes.extend((self.payload.len() as u32).to_le_bytes());
        bytes.extend(self.namespace);
        bytes.extend(name);
        bytes.extend(&self.payload);
        bytes.resize(end, 0xFF);
    }
}

/// Whether bytes are all 0xFF.
fn is_erased(bytes: &[u8]) -> bool {
    bytes.iter().all(|byte| *byte == 0xFF)
}

/// The variables of one store, or nothing if the store by itself is unsound.
pub(crate) fn decode(bytes: &[u8], kind: Kind) -> Option<Vec<Variable>> {
    if bytes.len() > MAX_STORE {
        return None;
    }
    let mut variables = Vec::new();
    let mut cursor = Cursor::new(bytes);
    while !is_erased(cursor.rest()) {
        variables.push(Variable::decode(&mut cursor, kind)?);
    }
    are_distinct(variables.iter()).then_some(variables)
}

/// The bytes of the records, end to end.
pub(crate) fn encode(variables: &[Variable]) -> Vec<u8> {
    let mut bytes = Vec::new();
    for variable in variables {
        variable.encode(&mut bytes);
    }
    bytes
}

fn are_distinct<'a>(mut variables: impl Iterator<Item = &'a Variable>) -> bool {
    let mut seen = BTreeSet::new();
    variables.all(|variable| seen.insert((&variable.namespace, &variable.name)))
}

/// The variables of both stores.
#[derive(Clone, PartialEq, Eq, Debug)]
pub struct Pair {
    /// Those with NV.
    pub non_volatile: Vec<Variable>,
    /// Those without.
    pub volatile: Vec<Variable>,
}

impl Pair {
    /// The variables of two lent stores, or nothing if they are unsound.
    pub fn decode(non_volatile: &[u8], volatile: &[u8]) -> Option<Pair> {
        let pair = Pair {
            non_volatile: decode(non_volatile, Kind::NonVolatile)?,
            volatile: decode(volatile, Kind::Volatile)?,
        };
        are_distinct(pair.non_volatile.iter().chain(&pair.volatile)).then_some(pair)
    }

    /// The variable of this namespace and name, with its store and its place there.
    pub fn find(&self, namespace: &Namespace, name: &[u16]) -> Option<(Kind, usize, &Variable)> {
        [Kind::NonVolatile, Kind::Volatile].into_iter().find_map(|kind| {
            let variables = self.of(kind);
            let place = variables.iter().position(|variable| variable.is(namespace, name))?;
            Some((kind, place, &variables[place]))
        })
    }

    /// The variables of one store.
    pub fn of(&self, kind: Kind) -> &Vec<Variable> {
        match kind {
            Kind::NonVolatile => &self.non_volatile,
            Kind::Volatile => &self.volatile,
        }
    }

    pub(crate) fn of_mut(&mut self, kind: Kind) -> &mut Vec<Variable> {
        match kind {
            Kind::NonVolatile => &mut self.non_volatile,
            Kind::Volatile => &mut self.volatile,
        }
    }
}
