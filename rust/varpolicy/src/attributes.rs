use core::fmt;
use core::ops::BitOr;

/// The attributes of a variable or of a request: any 32-bit word, so that bad ones can be asked too.
#[derive(Clone, Copy, PartialEq, Eq, Hash, Debug, Default)]
pub struct Attributes(pub u32);

impl Attributes {
    /// No attribute.
    pub const NONE: Attributes = Attributes(0);
    /// Non-volatile.
    pub const NV: Attributes = Attributes(0x01);
    /// Visible to boot services. Every stored variable has it.
    pub const BS: Attributes = Attributes(0x02);
    /// Visible at run time: after exit a variable without it is not read.
    pub const RT: Attributes = Attributes(0x04);
    /// Of a request only: the payload is joined to what is stored.
    pub const APPEND: Attributes = Attributes(0x40);

    /// The attributes that have a name.
    pub const NAMED: [(Attributes, &'static str); 4] =
        [(Attributes::NV, "NV"), (Attributes::BS, "BS"), (Attributes::RT, "RT"), (Attributes::APPEND, "APPEND")];

    /// Whether all of `others` are among these.
    pub const fn contains(self, others: Attributes) -> bool {
        self.0 & others.0 == others.0
    }
}

impl BitOr for Attributes {
    type Output = Attributes;

    fn bitor(self, others: Attributes) -> Attributes {
        Attributes(self.0 | others.0)
    }
}

/// Writes the names joined by `|`, other bits as one hexadecimal number, and `0` for none.
impl fmt::Display for Attributes {
    fn fmt(&self, out: &mut fmt::Formatter) -> fmt::Result {
        if self.0 == 0 {
            return out.write_str("0");
        }
        let mut rest = self.0;
        let mut separator = "";
        for (attribute, name) in Attributes::NAMED {
            if self.contains(attribute) {
                write!(out, "{separator}{name}")?;
                separator = "|";
                rest &= !attribute.0;
            }
        }
        if rest != 0 {
            write!(out, "{separator}0x{rest:X}")?;
        }
        Ok(())
    }
}
