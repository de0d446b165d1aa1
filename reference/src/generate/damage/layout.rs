//! Where the records of an image stand, for damage that follows its layout.

use std::ops::Range;

/// The places of the sections among those of [`sections`].
pub const USERS: usize = 0;
pub const ROLES: usize = 1;
pub const CAPABILITIES: usize = 2;
pub const SESSIONS: usize = 3;

/// The widths of a capability's fields, by their bits.
pub const WIDTHS: [usize; 14] = [4, 4, 8, 4, 4, 2, 2, 2, 2, 2, 2, 3, 2, 2];
/// Kind, number, creator and the map of fields.
pub const CAPABILITY_HEAD: usize = 5;

/// Users, roles, capabilities or sessions: what says which are there, and a
/// record of each.
#[derive(Clone, Debug, PartialEq, Eq)]
pub struct Section {
    /// The map; of the capabilities, their count.
    pub head: Range<usize>,
    pub records: Vec<Range<usize>>,
}

/// The four sections, if the bytes are long enough for them. Nothing else is
/// asked of the bytes.
pub fn sections(image: &[u8]) -> Option<[Section; 4]> {
    let mut cursor = Cursor { image, at: 0 };
    cursor.take(4)?;
    Some([cursor.mapped(8, 1)?, cursor.mapped(4, 20)?, cursor.counted()?, cursor.mapped(8, 6)?])
}

/// A place in an image.
struct Cursor<'a> {
    image: &'a [u8],
    at: usize,
}

impl Cursor<'_> {
    /// The next bytes, if as many are left.
    fn take(&mut self, length: usize) -> Option<Range<usize>> {
        let part = self.at..self.at + length;
        self.image.get(part.clone())?;
        self.at = part.end;
        Some(part)
    }

    /// A map, and a record of one width for each of its bits that is set.
    fn mapped(&mut self, map: usize, width: usize) -> Option<Section> {
        let head = self.take(map)?;
        let items: u32 = self.image[head.clone()].iter().map(|byte| byte.count_ones()).sum();
        let records = (0..items).map(|_| self.take(width)).collect::<Option<_>>()?;
        Some(Section { head, records })
    }

    /// The count of capabilities, and their records.
    fn counted(&mut self) -> Option<Section> {
        let head = self.take(2)?;
        let count = u16::from_be_bytes([self.image[head.start], self.image[head.start + 1]]);
        let records = (0..count).map(|_| self.capability()).collect::<Option<_>>()?;
        Some(Section { head, records })
    }

    fn capability(&mut self) -> Option<Range<usize>> {
        let head = self.take(CAPABILITY_HEAD)?;
        let fields = field_at(&self.image[head.clone()], WIDTHS.len()) - CAPABILITY_HEAD;
        self.take(fields).map(|fields| head.start..fields.end)
    }
}

/// The map of fields of a capability's record.
pub fn field_map(record: &[u8]) -> u16 {
    u16::from_be_bytes([record[3], record[4]])
}

/// Where in a capability's record the field of this bit stands, or would stand.
pub fn field_at(record: &[u8], bit: usize) -> usize {
    let map = field_map(record);
    let present = |lower: &usize| map >> lower & 1 == 1;
    CAPABILITY_HEAD + (0..bit).filter(present).map(|lower| WIDTHS[lower]).sum::<usize>()
}
