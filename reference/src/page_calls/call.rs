//! A call of the pages: its 24 bytes, and what it does to the findings area.

use crate::trace::RECORD;

/// The bytes of a call.
pub const CALL: usize = 24;
/// The most bytes of the findings area: those of 65,537 findings.
pub const MOST_FINDINGS: usize = 786_444;
/// The most bytes of the page area: a line more than the longest pages.
pub const MOST_ROOM: usize = 4_203_352;

#[derive(Clone, Copy, Debug, PartialEq, Eq, Hash)]
pub enum Call {
    /// So many findings are put behind the findings area: number i from 0 is the finding of these
    /// bytes with i times the step added to each of its five fields of 16 bits.
    Put {
        finding: [u8; RECORD],
        count: u32,
        step: u16,
    },
    /// The findings area gets so many bytes: it is cut, or zero bytes are put behind it.
    Length(u32),
    /// The byte at a place of the findings area becomes another.
    Set { place: u32, byte: u8 },
    /// Pages are laid out in a page area of so many bytes.
    Pages(u32),
    /// The same, and the text of the pages is printed.
    Text(u32),
}

impl Call {
    const PUT: u8 = 1;
    const LENGTH: u8 = 2;
    const SET: u8 = 3;
    const PAGES: u8 = 4;
    const TEXT: u8 = 5;

    pub fn to_bytes(self) -> [u8; CALL] {
        let none = [0; RECORD];
        match self {
            Call::Put {
                finding,
                count,
                step,
            } => laid([Call::PUT, 0], step, count, finding),
            Call::Length(length) => laid([Call::LENGTH, 0], 0, length, none),
            Call::Set { place, byte } => laid([Call::SET, byte], 0, place, none),
            Call::Pages(room) => laid([Call::PAGES, 0], 0, room, none),
            Call::Text(room) => laid([Call::TEXT, 0], 0, room, none),
        }
    }

    /// The call of these bytes; `None` for another kind, or if a lacking byte is set.
    pub fn from_bytes(bytes: &[u8; CALL]) -> Option<Call> {
        let step = u16::from_le_bytes([bytes[2], bytes[3]]);
        let number = u32::from_le_bytes(bytes[4..8].try_into().expect("four bytes"));
        let call = match bytes[0] {
            Call::PUT => Call::Put {
                finding: bytes[12..].try_into().expect("twelve bytes"),
                count: number,
                step,
            },
            Call::LENGTH => Call::Length(number),
            Call::SET => Call::Set {
                place: number,
                byte: bytes[1],
            },
            Call::PAGES => Call::Pages(number),
            Call::TEXT => Call::Text(number),
            _ => return None,
        };
        (call.to_bytes() == *bytes).then_some(call)
    }

    /// The page area that the call asks for.
    pub fn room(self) -> Option<usize> {
        match self {
            Call::Pages(room) | Call::Text(room) => Some(room as usize),
            _ => None,
        }
    }

    /// Does what the call does to the findings area; an error if a bound is passed.
    pub fn change(self, findings: &mut Vec<u8>) -> Result<(), String> {
        match self {
            Call::Put {
                finding,
                count,
                step,
            } => {
                bounded(findings.len() + RECORD * count as usize, MOST_FINDINGS)?;
                findings.extend((0..count).flat_map(|number| stepped(finding, number, step)));
            }
            Call::Length(length) => {
                bounded(length as usize, MOST_FINDINGS)?;
                findings.resize(length as usize, 0);
            }
            Call::Set { place, byte } => {
                bounded(place as usize + 1, findings.len())?;
                findings[place as usize] = byte;
            }
            Call::Pages(room) | Call::Text(room) => bounded(room as usize, MOST_ROOM)?,
        }
        Ok(())
    }
}

fn laid(head: [u8; 2], step: u16, number: u32, finding: [u8; RECORD]) -> [u8; CALL] {
    let mut bytes = [0; CALL];
    bytes[..2].copy_from_slice(&head);
    bytes[2..4].copy_from_slice(&step.to_le_bytes());
    bytes[4..8].copy_from_slice(&number.to_le_bytes());
    bytes[12..].copy_from_slice(&finding);
    bytes
}

/// The finding with a number of steps added to each of its five fields, in 16 bits.
fn stepped(mut finding: [u8; RECORD], number: u32, step: u16) -> [u8; RECORD] {
    let added = (number as u16).wrapping_mul(step);
    for field in finding[2..].chunks_exact_mut(2) {
        let value = u16::from_le_bytes([field[0], field[1]]).wrapping_add(added);
        field.copy_from_slice(&value.to_le_bytes());
    }
    finding
}

fn bounded(length: usize, most: usize) -> Result<(), String> {
    if length > most {
        return Err(format!("{length} is over {most}"));
    }
    Ok(())
}
