//! Findings: what each accepted event gets.

use crate::trace::RECORD;

/// The kind of a finding; the order is that of its numbers, 0 to 8.
#[derive(Clone, Copy, Debug, PartialEq, Eq, PartialOrd, Ord, Hash)]
pub enum Kind {
    None,
    Holds,
    Lost,
    OutOfOrder,
    Unlogged,
    Clean,
    WrittenTwice,
    LoggedTwice,
    Empty,
}

impl Kind {
    pub const ALL: [Kind; 9] = [
        Kind::None,
        Kind::Holds,
        Kind::Lost,
        Kind::OutOfOrder,
        Kind::Unlogged,
        Kind::Clean,
        Kind::WrittenTwice,
        Kind::LoggedTwice,
        Kind::Empty,
    ];

    pub fn number(self) -> u8 {
        self as u8
    }

    pub fn name(self) -> &'static str {
        match self {
            Kind::None => "none",
            Kind::Holds => "holds",
            Kind::Lost => "lost",
            Kind::OutOfOrder => "out-of-order",
            Kind::Unlogged => "unlogged",
            Kind::Clean => "clean",
            Kind::WrittenTwice => "written-twice",
            Kind::LoggedTwice => "logged-twice",
            Kind::Empty => "empty",
        }
    }

    pub fn from_name(name: &str) -> Option<Kind> {
        Kind::ALL.into_iter().find(|kind| kind.name() == name)
    }

    pub fn from_number(number: u8) -> Option<Kind> {
        Kind::ALL.get(usize::from(number)).copied()
    }
}

#[derive(Clone, Copy, Debug, PartialEq, Eq, Hash)]
pub struct Finding {
    pub kind: Kind,
    pub lost: u16,
    pub kept: u16,
    pub moment: u16,
    pub store: u16,
    pub site: u16,
}

impl Finding {
    /// A finding of this kind with every field 0.
    pub fn of(kind: Kind) -> Finding {
        Finding {
            kind,
            lost: 0,
            kept: 0,
            moment: 0,
            store: 0,
            site: 0,
        }
    }

    /// A finding that names a byte, or the start of a line, and nothing else.
    pub fn naming(kind: Kind, address: usize) -> Finding {
        Finding {
            lost: field(address),
            ..Finding::of(kind)
        }
    }

    pub fn lost(lost: usize, moment: usize, store: usize) -> Finding {
        Finding {
            lost: field(lost),
            moment: field(moment),
            store: field(store),
            ..Finding::of(Kind::Lost)
        }
    }

    pub fn out_of_order(lost: usize, kept: usize, moment: usize, store: usize) -> Finding {
        Finding {
            lost: field(lost),
            kept: field(kept),
            moment: field(moment),
            store: field(store),
            ..Finding::of(Kind::OutOfOrder)
        }
    }

    pub fn at(self, site: u16) -> Finding {
        Finding { site, ..self }
    }

    /// The twelve bytes of the findings area.
    pub fn to_bytes(self) -> [u8; RECORD] {
        let mut bytes = [0; RECORD];
        bytes[0] = self.kind.number();
        let fields = [self.lost, self.kept, self.moment, self.store, self.site];
        for (place, field) in bytes[2..].chunks_exact_mut(2).zip(fields) {
            place.copy_from_slice(&field.to_le_bytes());
        }
        bytes
    }

    /// The finding of these bytes. Refusals 6 (kind) and 7 (zero byte), in this order.
    pub fn from_bytes(bytes: &[u8; RECORD]) -> Result<Finding, u8> {
        let kind = Kind::from_number(bytes[0]).ok_or(6)?;
        if bytes[1] != 0 {
            return Err(7);
        }
        let field = |at: usize| u16::from_le_bytes([bytes[at], bytes[at + 1]]);
        let [lost, kept, moment, store, site] = [2, 4, 6, 8, 10].map(field);
        Ok(Finding {
            kind,
            lost,
            kept,
            moment,
            store,
            site,
        })
    }
}

/// Addresses and event numbers all fit a field of 16 bits.
fn field(value: usize) -> u16 {
    u16::try_from(value).expect("a field of a finding has 16 bits")
}
