//! The numbers of the refusals, with a name for each.

/// Set-up numbers or lent lengths are wrong.
pub const SET_UP: u8 = 1;
/// A state that can't be.
pub const STATE: u8 = 2;
/// The arena or the map has the wrong length.
pub const LENT_LENGTH: u8 = 3;
/// The peer is not below n.
pub const PEER: u8 = 4;
/// The reply buffer is below 24 bytes.
pub const REPLY_BUFFER: u8 = 5;
/// The packet is above the limit.
pub const PACKET_TOO_LONG: u8 = 6;
/// The packet ends inside a header.
pub const HEADER_CUT: u8 = 7;
/// The version is not 4.
pub const VERSION: u8 = 8;
/// The type is not in the table; in the engine, CTS too.
pub const TYPE: u8 = 9;
/// The flags break the rule; for the writer, an optional header the type can't have.
pub const FLAGS: u8 = 10;
/// A length rule is broken; a post reaches past the area.
pub const LENGTH: u8 = 11;
/// The id is ahead of next.
pub const EARLY: u8 = 12;
/// The id is next and no posted receive fits.
pub const NO_RECEIVE: u8 = 13;
/// The id is open, but the packet can't be a further segment of that message.
pub const NOT_THIS_MESSAGE: u8 = 14;
/// The id is behind next and not open; CTSDATA for no open long message.
pub const LATE: u8 = 15;
/// The segment shares a byte with one already accepted.
pub const SEGMENT_OVERLAP: u8 = 16;
/// CTSDATA reaches beyond the granted end.
pub const BEYOND_GRANT: u8 = 17;
/// No free slot.
pub const NO_FREE_SLOT: u8 = 18;
/// The post overlaps a used range.
pub const POST_OVERLAP: u8 = 19;
/// The slot is not below 8, or free; for the report, not open.
pub const SLOT: u8 = 20;
/// The writer's buffer is too short.
pub const OUT_TOO_SHORT: u8 = 21;
