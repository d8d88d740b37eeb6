//! The eight packet types: their values, a reader and a writer.

use crate::refusal;

/// The longest packet of the reader and the writer alone; the engine has a limit of its own.
pub const MAX_PACKET: usize = 8_192;
/// Type, version and flags, which every packet starts with.
pub const BASE_HEADER: usize = 4;
/// The protocol version, the only one that is taken.
pub const VERSION: u8 = 4;
/// Connid and its padding, which follow CTSDATA's mandatory header where flagged.
const CTSDATA_CONNID: usize = 8;

pub const CTS: u8 = 3;
pub const CTSDATA: u8 = 4;
pub const EAGER_MSGRTM: u8 = 64;
pub const EAGER_TAGRTM: u8 = 65;
pub const MEDIUM_MSGRTM: u8 = 66;
pub const MEDIUM_TAGRTM: u8 = 67;
pub const LONGCTS_MSGRTM: u8 = 68;
pub const LONGCTS_TAGRTM: u8 = 69;

pub const FLAG_RAW_ADDRESS: u16 = 0x1;
pub const FLAG_CQ_DATA: u16 = 0x2;
pub const FLAG_MESSAGE: u16 = 0x4;
pub const FLAG_TAGGED: u16 = 0x8;
pub const FLAG_CONNID: u16 = 0x8000;

/// What a plain type and its tagged twin have in common.
#[derive(Clone, Copy, PartialEq, Eq, Debug)]
pub enum Shape {
    Cts,
    CtsData,
    Eager,
    Medium,
    Long,
}

/// A row of the table of types.
#[derive(Clone, Copy, PartialEq, Eq, Debug)]
pub struct Row {
    pub kind: u8,
    pub shape: Shape,
    /// Length of the mandatory header, the base header included.
    pub header: usize,
    pub tagged: bool,
    /// Whether a receive engine takes packets of this type.
    pub served: bool,
}

const fn row_of(kind: u8, shape: Shape, header: usize, tagged: bool, served: bool) -> Row {
    Row {
        kind,
        shape,
        header,
        tagged,
        served,
    }
}

pub const TABLE: [Row; 8] = [
    row_of(CTS, Shape::Cts, 24, false, false),
    row_of(CTSDATA, Shape::CtsData, 24, false, true),
    row_of(EAGER_MSGRTM, Shape::Eager, 8, false, true),
    row_of(EAGER_TAGRTM, Shape::Eager, 16, true, true),
    row_of(MEDIUM_MSGRTM, Shape::Medium, 24, false, true),
    row_of(MEDIUM_TAGRTM, Shape::Medium, 32, true, true),
    row_of(LONGCTS_MSGRTM, Shape::Long, 24, false, true),
    row_of(LONGCTS_TAGRTM, Shape::Long, 32, true, true),
];

/// The row of a type, none if the type is not in the table.
pub fn row(kind: u8) -> Option<&'static Row> {
    TABLE.iter().find(|row| row.kind == kind)
}

impl Row {
    /// Whether the type is an RTM, that is one of those that begin a message.
    pub fn is_rtm(&self) -> bool {
        !matches!(self.shape, Shape::Cts | Shape::CtsData)
    }

    /// The bytes that a connid takes behind the mandatory header.
    fn connid_length(&self) -> usize {
        match self.shape {
            Shape::Cts => 0,
            Shape::CtsData => CTSDATA_CONNID,
            _ => 4,
        }
    }

    fn allows_flags(&self, flags: u16) -> bool {
        if !self.is_rtm() {
            return flags & !FLAG_CONNID == 0;
        }
        let optional = FLAG_RAW_ADDRESS | FLAG_CQ_DATA | FLAG_CONNID;
        flags & !optional == self.required_flags()
    }

    fn required_flags(&self) -> u16 {
        match (self.is_rtm(), self.tagged) {
            (false, _) => 0,
            (true, false) => FLAG_MESSAGE,
            (true, true) => FLAG_MESSAGE | FLAG_TAGGED,
        }
    }
}

/// The values of a packet. A field that its type doesn't have is zero when read and ignored when
/// written.
#[derive(Clone, Copy, PartialEq, Eq, Debug, Default)]
pub struct Packet<'a> {
    /// The type on the wire.
    pub kind: u8,
    /// All RTMs.
    pub msg_id: u32,
    /// Tagged RTMs.
    pub tag: u64,
    /// MEDIUM and LONGCTS: the length of the whole message.
    pub msg_length: u64,
    /// MEDIUM and CTSDATA: where in the message the data belongs.
    pub seg_offset: u64,
    /// CTSDATA.
    pub seg_length: u64,
    /// LONGCTS and CTS.
    pub send_id: u32,
    /// LONGCTS.
    pub credit_request: u32,
    /// CTS and CTSDATA.
    pub recv_id: u32,
    /// CTS.
    pub recv_length: u64,
    /// RTMs; an address of no bytes is not the same as none.
    pub raw_address: Option<&'a [u8]>,
    /// RTMs.
    pub cq_data: Option<u64>,
    /// All types.
    pub connid: Option<u32>,
    pub data: &'a [u8],
}

impl Packet<'_> {
    /// The length rule of the packet's type. Sums are of whole numbers: one that doesn't fit in
    /// 64 bits is above every length.
    fn keeps_length_rule(&self, shape: Shape) -> bool {
        let data = self.data.len() as u64;
        match shape {
            Shape::Cts => data == 0 && self.recv_length >= 1,
            Shape::CtsData => data >= 1 && data == self.seg_length,
            Shape::Eager => true,
            Shape::Medium => {
                let end = self.seg_offset.checked_add(data);
                data >= 1 && end.is_some_and(|end| end <= self.msg_length)
            }
            // An RTM sent after a read refusal carries no data, but the message has some.
            Shape::Long => self.msg_length >= 1 && data <= self.msg_length,
        }
    }

    /// The packet's flags, which follow from its type and the optional headers it has.
    fn flags(&self, row: &Row) -> u16 {
        let optional = |present: bool, flag: u16| if present { flag } else { 0 };
        row.required_flags()
            | optional(self.raw_address.is_some(), FLAG_RAW_ADDRESS)
            | optional(self.cq_data.is_some(), FLAG_CQ_DATA)
            | optional(self.connid.is_some(), FLAG_CONNID)
    }

    /// The packet's length on the wire. It saturates, which is as far above every limit as the
    /// true sum.
    fn wire_length(&self, row: &Row) -> usize {
        let raw_address = self
            .raw_address
            .map_or(0, |addr| addr.len().saturating_add(4));
        let cq_data = self.cq_data.map_or(0, |_| 8);
        let connid = self.connid.map_or(0, |_| row.connid_length());
        (row.header + cq_data + connid)
            .saturating_add(raw_address)
            .saturating_add(self.data.len())
    }
}

/// Reads a packet of any type of the table.
pub fn read(bytes: &[u8]) -> Result<Packet<'_>, u8> {
    read_within(bytes, MAX_PACKET, |_| true).map(|(_, packet)| packet)
}

/// Reads a packet of a type that a receive engine takes, with the engine's limit.
pub fn read_served(bytes: &[u8], limit: usize) -> Result<(&'static Row, Packet<'_>), u8> {
    read_within(bytes, limit, |row| row.served)
}

/// The steps of the reader are parts of one pass over the headers. They are inlined, so that no
/// packet goes from one to the next through memory.
fn read_within<'a>(
    bytes: &'a [u8],
    limit: usize,
    takes: impl Fn(&Row) -> bool,
) -> Result<(&'static Row, Packet<'a>), u8> {
    let (row, flags) = read_base(bytes, limit, takes)?;
    let mut packet = Packet {
        kind: row.kind,
        ..Packet::default()
    };
    let mut rest = bytes;
    let header = take(&mut rest, row.header)?;
    packet.read_own_fields(row, header);
    packet.read_optional_headers(row, flags, header, &mut rest)?;
    packet.data = rest;
    if !packet.keeps_length_rule(row.shape) {
        return Err(refusal::LENGTH);
    }
    Ok((row, packet))
}

/// Judges a packet's length and its first four bytes, and gives its type's row and its flags.
#[inline(always)]
fn read_base(
    bytes: &[u8],
    limit: usize,
    takes: impl Fn(&Row) -> bool,
) -> Result<(&'static Row, u16), u8> {
    if bytes.len() > limit {
        return Err(refusal::PACKET_TOO_LONG);
    }
    if bytes.len() < BASE_HEADER {
        return Err(refusal::HEADER_CUT);
    }
    if bytes[1] != VERSION {
        return Err(refusal::VERSION);
    }
    let row = row(bytes[0])
        .filter(|row| takes(row))
        .ok_or(refusal::TYPE)?;
    let flags = u16::from_le_bytes([bytes[2], bytes[3]]);
    if !row.allows_flags(flags) {
        return Err(refusal::FLAGS);
    }
    Ok((row, flags))
}

impl<'a> Packet<'a> {
    /// Reads the fields that the mandatory header has for this type.
    #[inline(always)]
    fn read_own_fields(&mut self, row: &Row, header: &[u8]) {
        match row.shape {
            Shape::Cts => {
                self.send_id = u32_at(header, 8);
                self.recv_id = u32_at(header, 12);
                self.recv_length = u64_at(header, 16);
            }
            Shape::CtsData => {
                self.recv_id = u32_at(header, 4);
                self.seg_length = u64_at(header, 8);
                self.seg_offset = u64_at(header, 16);
            }
            Shape::Eager => {}
            Shape::Medium => {
                self.msg_length = u64_at(header, 8);
                self.seg_offset = u64_at(header, 16);
            }
            Shape::Long => {
                self.msg_length = u64_at(header, 8);
                self.send_id = u32_at(header, 16);
                self.credit_request = u32_at(header, 20);
            }
        }
        if row.is_rtm() {
            self.msg_id = u32_at(header, 4);
        }
        if row.tagged {
            // The tag ends the mandatory header of every tagged type.
            self.tag = u64_at(header, row.header - 8);
        }
    }

    /// Reads the optional headers that are flagged, and takes them off `rest`.
    #[inline(always)]
    fn read_optional_headers(
        &mut self,
        row: &Row,
        flags: u16,
        header: &[u8],
        rest: &mut &'a [u8],
    ) -> Result<(), u8> {
        if flags & FLAG_RAW_ADDRESS != 0 {
            let size = u32_at(take(rest, 4)?, 0);
            self.raw_address = Some(take(rest, size as usize)?);
        }
        if flags & FLAG_CQ_DATA != 0 {
            self.cq_data = Some(u64_at(take(rest, 8)?, 0));
        }
        if flags & FLAG_CONNID != 0 {
            self.connid = Some(match row.shape {
                // CTS keeps its connid in multiuse, inside the mandatory header.
                Shape::Cts => u32_at(header, 4),
                _ => u32_at(take(rest, row.connid_length())?, 0),
            });
        }
        Ok(())
    }
}

/// Writes a packet to the front of `out` and gives its length. The bytes of `out` past it stay.
pub fn write(packet: &Packet, out: &mut [u8]) -> Result<usize, u8> {
    let row = row(packet.kind).ok_or(refusal::TYPE)?;
    let flags = packet.flags(row);
    if !row.allows_flags(flags) {
        return Err(refusal::FLAGS);
    }
    if !packet.keeps_length_rule(row.shape) {
        return Err(refusal::LENGTH);
    }
    let length = packet.wire_length(row);
    if length > MAX_PACKET {
        return Err(refusal::PACKET_TOO_LONG);
    }
    if length > out.len() {
        return Err(refusal::OUT_TOO_SHORT);
    }

    let mut place = Place { out, at: 0 };
    place.put(&[packet.kind, VERSION]);
    place.put(&flags.to_le_bytes());
    place.put_own_fields(row, packet);
    place.put_optional_headers(row, packet);
    place.put(packet.data);
    debug_assert_eq!(place.at, length);
    Ok(length)
}

/// Where the writer is in its buffer.
struct Place<'a> {
    out: &'a mut [u8],
    at: usize,
}

impl Place<'_> {
    fn put(&mut self, bytes: &[u8]) {
        self.out[self.at..self.at + bytes.len()].copy_from_slice(bytes);
        self.at += bytes.len();
    }

    /// Puts the rest of the mandatory header.
    fn put_own_fields(&mut self, row: &Row, packet: &Packet) {
        if row.is_rtm() {
            self.put(&packet.msg_id.to_le_bytes());
        }
        match row.shape {
            Shape::Cts => {
                self.put(&packet.connid.unwrap_or(0).to_le_bytes());
                self.put(&packet.send_id.to_le_bytes());
                self.put(&packet.recv_id.to_le_bytes());
                self.put(&packet.recv_length.to_le_bytes());
            }
            Shape::CtsData => {
                self.put(&packet.recv_id.to_le_bytes());
                self.put(&packet.seg_length.to_le_bytes());
                self.put(&packet.seg_offset.to_le_bytes());
            }
            Shape::Eager => {}
            Shape::Medium => {
                self.put(&packet.msg_length.to_le_bytes());
                self.put(&packet.seg_offset.to_le_bytes());
            }
            Shape::Long => {
                self.put(&packet.msg_length.to_le_bytes());
                self.put(&packet.send_id.to_le_bytes());
                self.put(&packet.credit_request.to_le_bytes());
            }
        }
        if row.tagged {
            self.put(&packet.tag.to_le_bytes());
        }
    }

    fn put_optional_headers(&mut self, row: &Row, packet: &Packet) {
        if let Some(address) = packet.raw_address {
            // The whole packet is within the limit, so the address' length fits in its field.
            self.put(&(address.len() as u32).to_le_bytes());
            self.put(address);
        }
        if let Some(cq_data) = packet.cq_data {
            self.put(&cq_data.to_le_bytes());
        }
        if let Some(connid) = packet.connid {
            // Behind a CTSDATA's connid comes padding, and a CTS has its connid already.
            let mut header = [0; CTSDATA_CONNID];
            header[..4].copy_from_slice(&connid.to_le_bytes());
            self.put(&header[..row.connid_length()]);
        }
    }
}

/// Takes `count` header bytes off the front of `rest`. The comparison is with what is left, so
/// that no sum with a size off the wire can wrap.
fn take<'a>(rest: &mut &'a [u8], count: usize) -> Result<&'a [u8], u8> {
    if count > rest.len() {
        return Err(refusal::HEADER_CUT);
    }
    let (front, back) = rest.split_at(count);
    *rest = back;
    Ok(front)
}

fn u32_at(bytes: &[u8], at: usize) -> u32 {
    let mut number = [0; 4];
    number.copy_from_slice(&bytes[at..at + 4]);
    u32::from_le_bytes(number)
}

fn u64_at(bytes: &[u8], at: usize) -> u64 {
    let mut number = [0; 8];
    number.copy_from_slice(&bytes[at..at + 8]);
    u64::from_le_bytes(number)
}
