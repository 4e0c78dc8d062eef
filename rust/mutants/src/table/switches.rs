//! The bytes of the switches.

use super::{Edit, edit};

pub(super) const EDITS: &[Edit] = &[
    edit("switch-byte-leave-by-any", "byte == 1", "byte != 0", "any byte but 0 gives leave to disable"),
    edit("switch-byte-locked-by-1", "locked: self.locked > 0,", "locked: self.locked == 1,", "only 1 locks"),
    edit(
        "switch-byte-locked-by-low-bit",
        "locked: self.locked > 0,",
        "locked: self.locked & 1 == 1,",
        "the low bit alone locks",
    ),
    edit("switch-byte-enabled-by-1", "enabled: self.enabled > 0,", "enabled: self.enabled == 1,", "only 1 enables"),
    edit(
        "switch-byte-enabled-written",
        "enabled: if left.enabled == before.enabled { self.enabled } else { written.enabled },",
        "enabled: written.enabled,",
        "a lock makes a byte of enabled 1",
    ),
];
