//! Header, records and sub-records: a dump as places in its bytes, or the first fault of its form.

/// The code and the place of a refusal.
#[derive(Clone, Copy, Debug, PartialEq, Eq)]
pub struct Fault {
    pub code: u8,
    pub at: u64,
}

pub fn fault<T>(code: u8, at: usize) -> Result<T, Fault> {
    Err(Fault { code, at: at as u64 })
}

pub const LIMIT: usize = 1 << 30;
const HEADER: usize = 31;
const TEXT: &[u8; 19] = b"JAVA PROFILE 1.0.2\0";

/// The bytes of a dump whose identifiers have `ID` bytes. Its readers panic if what they read is missing.
#[derive(Clone, Copy)]
pub struct Text<'a, const ID: usize> {
    pub bytes: &'a [u8],
}

impl<const ID: usize> Text<'_, ID> {
    pub fn u2(&self, at: usize) -> usize {
        u16::from_be_bytes(self.bytes[at..at + 2].try_into().unwrap()).into()
    }

    pub fn u4(&self, at: usize) -> usize {
        u32::from_be_bytes(self.bytes[at..at + 4].try_into().unwrap()) as usize
    }

    pub fn id(&self, at: usize) -> u64 {
        match ID {
            4 => self.u4(at) as u64,
            _ => u64::from_be_bytes(self.bytes[at..at + 8].try_into().unwrap()),
        }
    }

    /// The size of a value of the type `code`, if that is a type.
    pub fn size_of_type(&self, code: u8) -> Option<usize> {
        match code {
            2 => Some(ID),
            4 | 8 => Some(1),
            5 | 9 => Some(2),
            6 | 10 => Some(4),
            7 | 11 => Some(8),
            _ => None,
        }
    }
}

/// Where the records of strings and loaded classes, and the sub-records of roots and objects, begin, in file order.
#[derive(Default)]
pub struct Dump {
    pub strings: Vec<u32>,
    pub loaded: Vec<u32>,
    pub roots: Vec<u32>,
    pub objects: Vec<u32>,
}

/// The size of identifiers, if the header is good.
pub fn identifier_size(bytes: &[u8]) -> Result<usize, Fault> {
    if bytes.len() > LIMIT {
        return fault(14, LIMIT);
    }
    if !bytes.starts_with(TEXT) {
        return fault(1, 0);
    }
    if bytes.len() < HEADER {
        return fault(3, 0);
    }
    match bytes[19..23] {
        [0, 0, 0, 4] => Ok(4),
        [0, 0, 0, 8] => Ok(8),
        _ => fault(2, 19),
    }
}

/// How much of the file's one snapshot has been read.
#[derive(Clone, Copy, PartialEq)]
enum Snapshot {
    Missing,
    Whole,
    Segments,
    Ended,
}

impl Snapshot {
    fn after(self, tag: u8) -> Option<Snapshot> {
        match (tag, self) {
            (0x0C, Snapshot::Missing) => Some(Snapshot::Whole),
            (0x1C, Snapshot::Missing | Snapshot::Segments) => Some(Snapshot::Segments),
            (0x2C, Snapshot::Segments) => Some(Snapshot::Ended),
            (0x0C | 0x1C | 0x2C, _) => None,
            _ => Some(self),
        }
    }
}

impl<const ID: usize> Text<'_, ID> {
    pub fn parse(&self) -> Result<Dump, Fault> {
        let mut dump = Dump::default();
        let mut snapshot = Snapshot::Missing;
        let mut at = HEADER;
        while at < self.bytes.len() {
            let end = self.record_end(at)?;
            let tag = self.bytes[at];
            match snapshot.after(tag) {
                Some(next) => snapshot = next,
                None => return fault(8, at),
            }
            match tag {
                0x01 => dump.strings.push(at as u32),
                0x02 => dump.loaded.push(at as u32),
                0x0C | 0x1C => self.parse_heap(at + 9, end, &mut dump)?,
                _ => {}
            }
            at = end;
        }
        match snapshot {
            Snapshot::Whole | Snapshot::Ended => Ok(dump),
            _ => fault(8, at),
        }
    }

    fn record_end(&self, at: usize) -> Result<usize, Fault> {
        let left = self.bytes.len() - at;
        if left < 9 || left - 9 < self.u4(at + 5) {
            return fault(3, at);
        }
        let length = self.u4(at + 5);
        let allowed = match self.bytes[at] {
            0x01 => length >= ID,
            0x02 => length == 8 + 2 * ID,
            0x2C => length == 0,
            _ => true,
        };
        if allowed { Ok(at + 9 + length) } else { fault(4, at) }
    }

    fn parse_heap(&self, mut at: usize, end: usize, dump: &mut Dump) -> Result<(), Fault> {
        while at < end {
            let next = self.sub_record_end(at, end)?;
            match self.bytes[at] {
                0x20..=0x23 => dump.objects.push(at as u32),
                _ => dump.roots.push(at as u32),
            }
            at = next;
        }
        Ok(())
    }

    fn sub_record_end(&self, at: usize, end: usize) -> Result<usize, Fault> {
        let next = match self.bytes[at] {
            0xFF | 0x05 | 0x07 => at + 1 + ID,
            0x04 | 0x06 => at + 5 + ID,
            0x02 | 0x03 | 0x08 => at + 9 + ID,
            0x01 => at + 1 + 2 * ID,
            0x20 => self.class_end(at, end)?,
            0x21 => self.within(at, at + 9 + 2 * ID, end)? + self.u4(at + 5 + 2 * ID),
            0x22 => self.within(at, at + 9 + 2 * ID, end)? + self.u4(at + 5 + ID) * ID,
            0x23 => {
                let elements = self.within(at, at + 10 + ID, end)?;
                match self.bytes[elements - 1] {
                    code @ 4..=11 => elements + self.u4(at + 5 + ID) * self.size_of_type(code).unwrap(),
                    _ => return fault(7, at),
                }
            }
            _ => return fault(5, at),
        };
        self.within(at, next, end)
    }

    fn within(&self, at: usize, next: usize, end: usize) -> Result<usize, Fault> {
        if next <= end { Ok(next) } else { fault(6, at) }
    }

    fn class_end(&self, at: usize, end: usize) -> Result<usize, Fault> {
        let mut next = self.within(at, at + 9 + 7 * ID, end)?;
        for (name, valued) in [(2, true), (ID, true), (ID, false)] {
            let count = self.u2(self.within(at, next + 2, end)? - 2);
            next += 2;
            for _ in 0..count {
                next = self.within(at, next + name + 1, end)?;
                let Some(size) = self.size_of_type(self.bytes[next - 1]) else {
                    return fault(7, at);
                };
                if valued {
                    next = self.within(at, next + size, end)?;
                }
            }
        }
        Ok(next)
    }
}
