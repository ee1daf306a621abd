use std::fmt;

/// What is wrong with a packet's header; at most one of these is.
///
/// ```
/// # fn main() -> Result<(), itzahuemo::Refusal> {
/// use itzahuemo::{read_header, unwrap, Damage, Front, Refusal};
///
/// // A header of two octets that states a length of one.
/// let octets = [0xE9, 0x01];
/// assert_eq!(read_header(1024, &octets)?, Front::Damaged(Damage::BelowHeader));
/// assert_eq!(unwrap(1024, &octets), Err(Refusal::Packet(Some(Damage::BelowHeader))));
/// # Ok(())
/// # }
/// ```
#[derive(Clone, Copy, Debug, PartialEq, Eq, Hash)]
pub enum Damage {
    /// The version is neither 000 nor 111.
    Version = 1,
    /// A packet of one octet is not idle: its protocol is not 0.
    NotIdle = 2,
    /// The stated length is below that of the header itself.
    BelowHeader = 3,
    /// The total length is over the limit.
    OverLimit = 4,
}

impl Damage {
    const ALL: [Damage; 4] =
        [Damage::Version, Damage::NotIdle, Damage::BelowHeader, Damage::OverLimit];

    /// Its number, 1 to 4.
    pub fn number(self) -> u64 {
        self as u64
    }

    /// What a call answered: nothing for 0, and else the damage of that number.
    pub(crate) fn told(number: u64) -> Option<Damage> {
        let damage = Damage::ALL.into_iter().find(|damage| damage.number() == number);
        assert!(number == 0 || damage.is_some(), "the library knows no damage {number}");
        damage
    }

    /// The same where a call found something damaged.
    pub(crate) fn of(number: u64) -> Damage {
        Damage::told(number).expect("what is found damaged has its damage named")
    }
}

impl fmt::Display for Damage {
    fn fmt(&self, f: &mut fmt::Formatter<'_>) -> fmt::Result {
        let what = match self {
            Damage::Version => "the packet's version is neither 000 nor 111",
            Damage::NotIdle => "a packet of one octet is not idle",
            Damage::BelowHeader => "the packet's length is below that of its header",
            Damage::OverLimit => "the packet's length is over the limit",
        };
        write!(f, "damaged {}: {what}", self.number())
    }
}
