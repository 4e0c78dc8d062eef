/// The switches of an engine, as they are meant.
#[derive(Clone, Copy, PartialEq, Eq, Hash, Debug)]
pub struct Switches {
    /// Whether entries are enforced.
    pub enabled: bool,
    /// Whether registration is closed.
    pub locked: bool,
    /// Whether the engine may be disabled.
    pub disabling_allowed: bool,
    /// Whether the operating system has started.
    pub exited: bool,
}

/// The switches of an engine, as the library is lent them: a small record of four bytes that the caller
/// keeps. Every value of every byte has a meaning, so bytes from anywhere may be lent.
///
/// ```
/// use varpolicy::{SwitchBytes, Switches};
///
/// let bytes = SwitchBytes { enabled: 0x80, locked: 0, disabling_allowed: 2, exited: 0xFF };
/// let meant = Switches { enabled: true, locked: false, disabling_allowed: false, exited: true };
/// assert_eq!(Switches::from(bytes), meant);
/// ```
#[derive(Clone, Copy, PartialEq, Eq, Hash, Debug)]
#[repr(C)]
pub struct SwitchBytes {
    /// Entries are enforced: any value but 0.
    pub enabled: u8,
    /// Registration is closed: any value but 0.
    pub locked: u8,
    /// The engine may be disabled: 1, and no other value.
    pub disabling_allowed: u8,
    /// The operating system has started: any value but 0.
    pub exited: u8,
}

impl From<Switches> for SwitchBytes {
    /// Each byte 1 or 0.
    fn from(switches: Switches) -> SwitchBytes {
        let Switches { enabled, locked, disabling_allowed, exited } = switches;
        SwitchBytes {
            enabled: enabled.into(),
            locked: locked.into(),
            disabling_allowed: disabling_allowed.into(),
            exited: exited.into(),
        }
    }
}

impl From<SwitchBytes> for Switches {
    /// What the library takes the bytes for.
    fn from(bytes: SwitchBytes) -> Switches {
        let SwitchBytes { enabled, locked, disabling_allowed, exited } = bytes;
        Switches {
            enabled: enabled != 0,
            locked: locked != 0,
            disabling_allowed: disabling_allowed == 1,
            exited: exited != 0,
        }
    }
}
