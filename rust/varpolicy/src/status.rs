use core::fmt;

/// What a call answers: the low part of an EFI status, without its high bit.
#[derive(Clone, Copy, PartialEq, Eq, Hash, Debug)]
#[repr(u32)]
pub enum Status {
    /// Done.
    Success = 0,
    /// A malformed entry, name, size or attributes.
    InvalidParameter = 2,
    /// An attribute bit outside 0x47, or a call that is not to be had after exit.
    Unsupported = 3,
    /// The buffer of a dump is too short; how long it must be is told too.
    BufferTooSmall = 5,
    /// The engine or the variable is locked, or disabling is not allowed; after exit also: the variable to delete is
    /// volatile.
    WriteProtected = 8,
    /// No room in the store, the policy record or the variable.
    OutOfResources = 9,
    /// A lent store is unsound, or the lent policy record is not one.
    VolumeCorrupted = 10,
    /// No such variable, or after exit one without RT.
    NotFound = 14,
    /// The entry is registered already, or the engine is disabled already.
    AlreadyStarted = 20,
}

impl Status {
    /// Every status, by number.
    pub const ALL: [Status; 9] = [
        Status::Success,
        Status::InvalidParameter,
        Status::Unsupported,
        Status::BufferTooSmall,
        Status::WriteProtected,
        Status::OutOfResources,
        Status::VolumeCorrupted,
        Status::NotFound,
        Status::AlreadyStarted,
    ];

    /// The status of this number, if there is one.
    pub fn from_number(number: u32) -> Option<Status> {
        Status::ALL.into_iter().find(|status| status.number() == number)
    }

    /// The number.
    pub const fn number(self) -> u32 {
        self as u32
    }

    /// The name that the UEFI Specification gives it, without "EFI_".
    pub const fn name(self) -> &'static str {
        match self {
            Status::Success => "SUCCESS",
            Status::InvalidParameter => "INVALID_PARAMETER",
            Status::Unsupported => "UNSUPPORTED",
            Status::BufferTooSmall => "BUFFER_TOO_SMALL",
            Status::WriteProtected => "WRITE_PROTECTED",
            Status::OutOfResources => "OUT_OF_RESOURCES",
            Status::VolumeCorrupted => "VOLUME_CORRUPTED",
            Status::NotFound => "NOT_FOUND",
            Status::AlreadyStarted => "ALREADY_STARTED",
        }
    }

    /// `Ok` for SUCCESS, and any other status as the error.
    #[inline]
    pub fn ok(self) -> Result<(), Status> {
        match self {
            Status::Success => Ok(()),
            refused => Err(refused),
        }
    }

    /// The status that the library answered.
    #[inline]
    pub(crate) fn answered(number: u32) -> Status {
        if number == Status::Success.number() {
            return Status::Success;
        }
        Status::from_number(number).expect("libvarpolicy.a answers no other number")
    }
}

impl fmt::Display for Status {
    fn fmt(&self, out: &mut fmt::Formatter) -> fmt::Result {
        out.pad(self.name())
    }
}

impl core::error::Error for Status {}
