//! Files put together from their parts.

/// A file as it is put together: records, or the sub-records of one heap record.
#[derive(Clone)]
pub struct File {
    pub id: usize,
    pub bytes: Vec<u8>,
}

const U4: usize = 4;

impl File {
    pub fn header(id: usize) -> File {
        let mut bytes = b"JAVA PROFILE 1.0.2\0\0\0\0".to_vec();
        bytes.push(id as u8);
        bytes.extend([0; 8]);
        File { id, bytes }
    }

    /// Empty contents of a record, with identifiers of the same size.
    pub fn subs(&self) -> File {
        File { id: self.id, bytes: vec![] }
    }

    pub fn number(mut self, size: usize, value: u64) -> File {
        self.bytes.extend(&value.to_be_bytes()[8 - size..]);
        self
    }

    pub fn ids(mut self, ids: &[u64]) -> File {
        for id in ids {
            let size = self.id;
            self = self.number(size, *id);
        }
        self
    }

    pub fn raw(mut self, bytes: &[u8]) -> File {
        self.bytes.extend(bytes);
        self
    }

    pub fn record(self, tag: u8, body: &[u8]) -> File {
        self.raw(&[tag]).number(U4, 0).number(U4, body.len() as u64).raw(body)
    }

    pub fn string(self, id: u64, text: &[u8]) -> File {
        let body = self.subs().ids(&[id]).raw(text).bytes;
        self.record(0x01, &body)
    }

    pub fn load(self, class: u64, string: u64) -> File {
        let body = self.subs().number(U4, 1).ids(&[class]).number(U4, 0).ids(&[string]).bytes;
        self.record(0x02, &body)
    }

    pub fn heap(self, build: impl FnOnce(File) -> File) -> File {
        let body = build(self.subs()).bytes;
        self.record(0x0C, &body)
    }

    /// A class with fields of these types, and statics of these types with these values' bytes.
    pub fn class_with(self, class: u64, ids: [u64; 4], fields: &[u8], statics: &[(u8, &[u8])]) -> File {
        let mut file = self.raw(&[0x20]).ids(&[class]).number(U4, 0).ids(&ids).ids(&[0, 0]).number(U4, 0).number(2, 0);
        file = file.number(2, statics.len() as u64);
        for (code, value) in statics {
            file = file.ids(&[2]).raw(&[*code]).raw(value);
        }
        file = file.number(2, fields.len() as u64);
        fields.iter().fold(file, |file, code| file.ids(&[2]).raw(&[*code]))
    }

    pub fn class(self, class: u64, superclass: u64, fields: &[u8]) -> File {
        self.class_with(class, [superclass, 0, 0, 0], fields, &[])
    }

    pub fn instance(self, object: u64, class: u64, values: &[u8]) -> File {
        let file = self.raw(&[0x21]).ids(&[object]).number(U4, 0).ids(&[class]);
        file.number(U4, values.len() as u64).raw(values)
    }

    pub fn objects(self, object: u64, class: u64, elements: &[u64]) -> File {
        let file = self.raw(&[0x22]).ids(&[object]).number(U4, 0).number(U4, elements.len() as u64);
        file.ids(&[class]).ids(elements)
    }

    pub fn primitives(self, object: u64, code: u8, count: u64, elements: &[u8]) -> File {
        self.raw(&[0x23]).ids(&[object]).number(U4, 0).number(U4, count).raw(&[code]).raw(elements)
    }

    pub fn root(self, object: u64) -> File {
        self.raw(&[0xFF]).ids(&[object])
    }
}
