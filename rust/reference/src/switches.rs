//! The switches, and the bytes in which they are lent.

/// The switches of an engine.
#[derive(Clone, Copy, PartialEq, Eq, Debug)]
pub struct Switches {
    /// Whether entries are enforced.
    pub enabled: bool,
    /// Whether registration is closed.
    pub locked: bool,
    /// Whether the engine may be disabled.
    pub disabling_allowed: bool,
    /// Whether the operating system has started.
    pub exited: bool,
}

/// The switches as they are lent, a byte each.
#[derive(Clone, Copy, PartialEq, Eq, Debug)]
#[allow(missing_docs)]
pub struct SwitchBytes {
    pub enabled: u8,
    pub locked: u8,
    pub disabling_allowed: u8,
    pub exited: u8,
}

/// Whether a byte gives leave to disable: only 1 does, so that no stray byte opens the engine.
pub fn gives_leave(byte: u8) -> bool {
    byte == 1
}

impl SwitchBytes {
    /// What the bytes mean. An engine is enabled, is locked, and has exited, unless the byte is 0: a stray byte
    /// closes it.
    pub fn read(self) -> Switches {
        Switches {
            enabled: self.enabled > 0,
            locked: self.locked > 0,
            disabling_allowed: gives_leave(self.disabling_allowed),
            exited: self.exited > 0,
        }
    }

    /// The bytes of switches that are handed back.
    pub fn of(switches: Switches) -> SwitchBytes {
        SwitchBytes {
            enabled: switches.enabled.into(),
            locked: switches.locked.into(),
            disabling_allowed: switches.disabling_allowed.into(),
            exited: switches.exited.into(),
        }
    }

    /// The bytes after a call that left these switches: only a byte whose switch was moved is written.
    pub fn moved_to(self, left: Switches) -> SwitchBytes {
        let (before, written) = (self.read(), SwitchBytes::of(left));
        SwitchBytes {
            enabled: if left.enabled == before.enabled { self.enabled } else { written.enabled },
            locked: if left.locked == before.locked { self.locked } else { written.locked },
            disabling_allowed: if left.disabling_allowed == before.disabling_allowed {
                self.disabling_allowed
            } else {
                written.disabling_allowed
            },
            exited: if left.exited == before.exited { self.exited } else { written.exited },
        }
    }
}

#[cfg(test)]
mod tests {
    use super::*;

    #[test]
    fn a_call_writes_the_byte_of_the_switch_that_it_moved() {
        let lent = SwitchBytes { enabled: 0x80, locked: 0, disabling_allowed: 3, exited: 0 };
        let read = lent.read();
        assert_eq!(read, Switches { enabled: true, locked: false, disabling_allowed: false, exited: false });
        assert_eq!(lent.moved_to(Switches { exited: true, ..read }), SwitchBytes { exited: 1, ..lent });
        assert_eq!(lent.moved_to(Switches { locked: true, ..read }), SwitchBytes { locked: 1, ..lent });
        assert_eq!(lent.moved_to(Switches { enabled: false, ..read }), SwitchBytes { enabled: 0, ..lent });
        for exited in 1..=u8::MAX {
            let lent = SwitchBytes { exited, ..lent };
            assert!(lent.read().exited);
            assert_eq!(lent.moved_to(lent.read()), lent);
        }
    }
}
