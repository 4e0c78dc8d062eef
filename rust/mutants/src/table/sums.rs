//! What step 4 of a set measures, and step 8, whose limit is on the same length.

use super::set::{CHOSEN, MAX, MIN, MUST, POLICY};
use super::{Edit, edit};

const LENGTH: &str = "let length = payload_afterwards(pair, request, name).len() as u32;";

pub(super) const EDITS: &[Edit] = &[
    // The length that is measured.
    edit(
        "step4-own-length",
        LENGTH,
        "let length = request.payload.len() as u32;",
        "an append is measured by the request's length",
    ),
    edit(
        "step4-sum-max-only",
        MIN,
        "if (request.payload.len() as u32) < entry.min_size {",
        "MinSize measures the request's length, MaxSize the sum",
    ),
    edit(
        "step4-sum-min-only",
        MAX,
        "if request.payload.len() as u32 > entry.max_size {",
        "MaxSize measures the request's length, MinSize the sum",
    ),
    edit(
        "step4-stored-length",
        LENGTH,
        "let length = match pair.find(request.namespace, name) { Some((_, _, variable)) if request.has(APPEND) => \
         variable.payload.len(), _ => request.payload.len() } as u32;",
        "an append is measured by the stored length alone",
    ),
    edit(
        "step4-longer-length",
        LENGTH,
        "let length = match pair.find(request.namespace, name) { Some((_, _, variable)) if request.has(APPEND) => \
         variable.payload.len().max(request.payload.len()), _ => request.payload.len() } as u32;",
        "an append is measured by the longer of the two",
    ),
    edit(
        "step4-sum-8-bits",
        LENGTH,
        "let length = match pair.find(request.namespace, name) { Some((_, _, variable)) if request.has(APPEND) => \
         (variable.payload.len() + request.payload.len()) & 0xFF, _ => request.payload.len() } as u32;",
        "8 bits of the sum count",
    ),
    edit(
        "step4-stored-8-bits",
        LENGTH,
        "let length = match pair.find(request.namespace, name) { Some((_, _, variable)) if request.has(APPEND) => \
         (variable.payload.len() & 0xFF) + request.payload.len(), _ => request.payload.len() } as u32;",
        "8 bits of the stored length count",
    ),
    edit(
        "step4-sum-padded",
        LENGTH,
        "let length = match pair.find(request.namespace, name) { Some((_, _, variable)) if request.has(APPEND) => \
         variable.payload.len().next_multiple_of(4) + request.payload.len(), _ => request.payload.len() } as u32;",
        "the padding of the stored record counts",
    ),
    edit(
        "step4-sum-at-most-1024",
        LENGTH,
        "let length = match pair.find(request.namespace, name) { Some((_, _, variable)) if request.has(APPEND) => \
         MAX_PAYLOAD.min(variable.payload.len() + request.payload.len()), _ => request.payload.len() } as u32;",
        "a sum over 1,024 is measured as 1,024",
    ),
    edit(
        "step4-rewrite-sum",
        LENGTH,
        "let stored = pair.find(request.namespace, name).map_or(0, |found| found.2.payload.len()); let length = \
         (stored + request.payload.len()) as u32;",
        "a rewrite is measured by the sum too",
    ),
    // What counts as stored.
    edit(
        "step4-sum-nv",
        LENGTH,
        "let stored = pair.find(request.namespace, name).filter(|found| request.has(APPEND) && found.0 == \
         Kind::NonVolatile).map_or(0, |found| found.2.payload.len()); let length = (stored + request.payload.len()) \
         as u32;",
        "only what stands in the non-volatile store counts",
    ),
    edit(
        "step4-sum-volatile",
        LENGTH,
        "let stored = pair.find(request.namespace, name).filter(|found| request.has(APPEND) && found.0 == \
         Kind::Volatile).map_or(0, |found| found.2.payload.len()); let length = (stored + request.payload.len()) as \
         u32;",
        "only what stands in the volatile store counts",
    ),
    edit(
        "step4-sum-store-of-request",
        LENGTH,
        "let stored = pair.find(request.namespace, name).filter(|found| request.has(APPEND) && request.has(NV) == \
         (found.0 == Kind::NonVolatile)).map_or(0, |found| found.2.payload.len()); let length = (stored + \
         request.payload.len()) as u32;",
        "only what stands in the store that the append's NV bit names counts",
    ),
    edit(
        "step4-sum-same-attributes",
        LENGTH,
        "let stored = pair.find(request.namespace, name).filter(|found| request.has(APPEND) && found.2.attributes \
         == request.attributes & !APPEND).map_or(0, |found| found.2.payload.len()); let length = (stored + \
         request.payload.len()) as u32;",
        "only what is stored with the append's attributes counts",
    ),
    edit(
        "step4-sum-same-rt",
        LENGTH,
        "let stored = pair.find(request.namespace, name).filter(|found| request.has(APPEND) && (found.2.attributes \
         ^ request.attributes) & RT == 0).map_or(0, |found| found.2.payload.len()); let length = (stored + \
         request.payload.len()) as u32;",
        "only what is stored with the append's RT counts",
    ),
    edit(
        "step4-sum-any-namespace",
        LENGTH,
        "let mut variables = pair.non_volatile.iter().chain(&pair.volatile); let stored = variables.find(|other| \
         request.has(APPEND) && other.name == name).map_or(0, |other| other.payload.len()); let length = (stored + \
         request.payload.len()) as u32;",
        "a variable of the name in any namespace counts",
    ),
    edit(
        "step4-sum-any-target",
        LENGTH,
        "let mut variables = pair.non_volatile.iter().chain(&pair.volatile); let stored = variables.find(|other| \
         request.has(APPEND) && entry.targets(&other.namespace, &other.name)).map_or(0, |other| \
         other.payload.len()); let length = (stored + request.payload.len()) as u32;",
        "the first variable that the entry targets counts",
    ),
    edit(
        "step4-sum-all-targets",
        LENGTH,
        "let variables = pair.non_volatile.iter().chain(&pair.volatile); let stored: usize = \
         variables.filter(|other| request.has(APPEND) && entry.targets(&other.namespace, &other.name)).map(|other| \
         other.payload.len()).sum(); let length = (stored + request.payload.len()) as u32;",
        "all variables that the entry targets count",
    ),
    // Which requests are measured.
    edit(
        "step4-empty-append-0",
        MIN,
        "let length = if request.payload.is_empty() { 0 } else { length }; if length < entry.min_size {",
        "an empty append is measured by 0",
    ),
    edit(
        "step4-empty-append-not",
        MIN,
        "let length = if request.payload.is_empty() { entry.min_size } else { length }; if length < entry.min_size \
         {",
        "an empty append is not measured",
    ),
    edit(
        "step4-empty-append-not-absent",
        MIN,
        "let length = if request.payload.is_empty() && pair.find(request.namespace, name).is_none() { \
         entry.min_size } else { length }; if length < entry.min_size {",
        "an empty append to nothing is not measured",
    ),
    edit(
        "step4-empty-append-not-there",
        MIN,
        "let length = if request.payload.is_empty() && pair.find(request.namespace, name).is_some() { \
         entry.min_size } else { length }; if length < entry.min_size {",
        "an empty append to what exists is not measured",
    ),
    edit(
        "step4-append-not-absent",
        MIN,
        "let length = if request.has(APPEND) && pair.find(request.namespace, name).is_none() { entry.min_size } \
         else { length }; if length < entry.min_size {",
        "an append that creates is not measured",
    ),
    edit(
        "step4-append-not-there",
        MIN,
        "let length = if request.has(APPEND) && pair.find(request.namespace, name).is_some() { entry.min_size } \
         else { length }; if length < entry.min_size {",
        "an append to what exists is not measured",
    ),
    edit(
        "step4-append-not-long",
        MIN,
        "let length = if length as usize > MAX_PAYLOAD { entry.min_size } else { length }; if length < \
         entry.min_size {",
        "a sum over 1,024 is not measured but left to step 8",
    ),
    edit(
        "step4-append-long-by-own",
        MIN,
        "let length = if length as usize > MAX_PAYLOAD { request.payload.len() as u32 } else { length }; if length \
         < entry.min_size {",
        "where the sum is over 1,024 the request's length is measured",
    ),
    edit(
        "step4-append-no-min",
        MIN,
        "if length < entry.min_size && !request.has(APPEND) {",
        "MinSize is not asked of an append",
    ),
    edit(
        "step4-append-no-min-there",
        MIN,
        "if length < entry.min_size && !(request.has(APPEND) && pair.find(request.namespace, name).is_some()) {",
        "MinSize is not asked of an append to what exists",
    ),
    edit(
        "step4-append-no-max",
        MAX,
        "if length > entry.max_size && !request.has(APPEND) {",
        "MaxSize is not asked of an append",
    ),
    edit(
        "step4-append-max-equal",
        MAX,
        "if length > entry.max_size || length == entry.max_size && request.has(APPEND) {",
        "an append to MaxSize itself is too long",
    ),
    edit(
        "step4-append-disabled",
        POLICY,
        "if (switches.enabled || request.has(APPEND)) && let Some(ground)",
        "a disabled engine holds an append to its entry",
    ),
    edit(
        "step4-deletion-0",
        CHOSEN,
        "let entry = policy.choose(request.namespace, name)?; if request.is_deletion() && entry.min_size > 0 { \
         return Some(SetGround::TooShort); }",
        "a deletion is measured by 0",
    ),
    edit(
        "step4-deletion-stored",
        CHOSEN,
        "let entry = policy.choose(request.namespace, name)?; if request.is_deletion() && \
         pair.find(request.namespace, name).is_some_and(|found| found.2.payload.len() as u32 > entry.max_size) { \
         return Some(SetGround::TooLong); }",
        "a variable over MaxSize is not deleted",
    ),
    // The stored length taken off the bounds.
    edit(
        "step4-left-to-max-0",
        MAX,
        "let stored = pair.find(request.namespace, name).filter(|_| request.has(APPEND)).map_or(0, |found| \
         found.2.payload.len()) as u32; if request.payload.len() as u32 > entry.max_size.saturating_sub(stored) {",
        "a variable over MaxSize takes an empty append",
    ),
    edit(
        "step4-left-to-max-wraps",
        MAX,
        "let stored = pair.find(request.namespace, name).filter(|_| request.has(APPEND)).map_or(0, |found| \
         found.2.payload.len()) as u32; if request.payload.len() as u32 > entry.max_size.wrapping_sub(stored) {",
        "a variable over MaxSize takes every append",
    ),
    edit(
        "step4-left-to-min-wraps",
        MIN,
        "let stored = pair.find(request.namespace, name).filter(|_| request.has(APPEND)).map_or(0, |found| \
         found.2.payload.len()) as u32; if (request.payload.len() as u32) < entry.min_size.wrapping_sub(stored) {",
        "a variable over MinSize takes no append",
    ),
    // The order of the steps.
    edit(
        "step4-lock-before-sum",
        MAX,
        "if length > entry.max_size && (entry.lock != LockRule::LockNow || request.payload.len() as u32 > \
         entry.max_size) {",
        "step 4: a lock of type 1 before the sum",
    ),
    edit(
        "step4-create-lock-before-sum",
        MAX,
        "if length > entry.max_size && (entry.lock != LockRule::LockOnCreate || request.payload.len() as u32 > \
         entry.max_size) {",
        "step 4: a lock of type 2 before the sum",
    ),
    edit(
        "step4-limit-1024",
        MAX,
        "if length > entry.max_size.min(MAX_PAYLOAD as u32) {",
        "step 4 answers for the limit of step 8: a sum over 1,024 is 2",
    ),
    edit(
        "step8-before-4",
        POLICY,
        "if request.has(APPEND) && payload_afterwards(&pair, &request, &name).len() > MAX_PAYLOAD { return \
         SetGround::AppendTooLong; } if switches.enabled && let Some(ground)",
        "step 8 before step 4",
    ),
    edit(
        "step8-before-attributes",
        MUST,
        "if request.has(APPEND) && length as usize > MAX_PAYLOAD { return Some(SetGround::AppendTooLong); } if \
         entry.must_have & !request.attributes != 0 {",
        "step 8 before the attributes of step 4",
    ),
    edit(
        "step8-before-lock",
        "    match &entry.lock {",
        "if request.has(APPEND) && payload_afterwards(pair, request, name).len() > MAX_PAYLOAD { return \
         Some(SetGround::AppendTooLong); } match &entry.lock {",
        "step 8 before the lock of step 4",
    ),
];
