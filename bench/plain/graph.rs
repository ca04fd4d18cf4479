//! What the parts of a dump mean to one another: its classes, their layouts, references, and the faults of its links.

mod numbered;

use crate::by_id::ById;
use crate::dump::{Dump, Fault, Text, fault};
use crate::index::Index;
use crate::names::Names;
use crate::objects::Objects;
use crate::skip::Skip;
use crate::tally::{Rows, Visit};

const OBJECTS: usize = 16_777_216;

/// How a class's chain of superclasses ends, if that is known.
#[derive(Clone, Copy, PartialEq)]
enum Chain {
    Unknown,
    OnPath,
    Whole,
    Broken,
    Endless,
}

pub struct Class {
    pub object: u32,
    /// The class above, by number.
    superclass: Option<u32>,
    superclass_missing: bool,
    chain: Chain,
    /// The sum of the sizes of its own fields and of those of all classes above.
    size: u64,
    own_size: u64,
    /// Its own fields of type 2 that are followed: places in `Graph::fields`.
    fields: std::ops::Range<u32>,
    /// The next class above with such fields.
    next: Option<u32>,
}

pub struct Graph<'a, const ID: usize> {
    pub text: Text<'a, ID>,
    pub dump: Dump,
    index: Index,
    pub classes: Vec<Class>,
    class_numbers: ById<u32>,
    /// The places of followed fields of type 2 within the values of their class.
    fields: Vec<u32>,
}

impl<'a, const ID: usize> Graph<'a, ID> {
    pub fn new(text: Text<'a, ID>, dump: Dump, objects: Objects, skip: &Skip) -> Result<Self, Fault> {
        let (classes, class_numbers, fields) = (vec![], ById::default(), vec![]);
        let mut graph = Graph { text, dump, index: objects.index, classes, class_numbers, fields };
        graph.take_classes(&objects.classes, skip);
        graph.link_superclasses();
        let mut path = vec![];
        for number in 0..graph.classes.len() {
            graph.settle(number, &mut path);
        }
        graph.check()?;
        Ok(graph)
    }

    pub fn len(&self) -> usize {
        self.dump.objects.len()
    }

    pub fn at(&self, object: u32) -> usize {
        self.dump.objects[object as usize] as usize
    }

    pub fn find(&self, id: u64) -> Option<u32> {
        self.index.find(id)
    }

    /// Takes the class of each of these class dumps, except those with ID 0 or with the ID of an earlier object.
    fn take_classes(&mut self, dumps: &[u32], skip: &Skip) {
        let names = if skip.is_empty() { Names::default() } else { Names::of(self.text, &self.dump) };
        for object in dumps.iter().copied() {
            let at = self.at(object);
            let id = self.text.id(at + 1);
            if id == 0 || self.find(id) != Some(object) {
                continue;
            }
            let first = self.fields.len() as u32;
            let class = names.class(id);
            let own_size = self.take_fields(at, |field| skip.has(class, names.string(field)));
            self.class_numbers.insert(id, self.classes.len() as u32);
            self.classes.push(Class {
                object,
                superclass: None,
                superclass_missing: false,
                chain: Chain::Unknown,
                size: 0,
                own_size,
                fields: first..self.fields.len() as u32,
                next: None,
            });
        }
    }

    /// Notes the fields of type 2 of the class at `at`, except those that are skipped, and returns the size of all
    /// fields that it declares.
    fn take_fields(&mut self, at: usize, skips: impl Fn(u64) -> bool) -> u64 {
        let mut place = self.text.values_of(at, |_, _, _| {});
        let mut size = 0;
        for _ in 0..self.text.u2(place) {
            let code = self.text.bytes[place + 2 + ID];
            if code == 2 && !skips(self.text.id(place + 2)) {
                self.fields.push(size as u32);
            }
            size += self.text.size_of_type(code).unwrap() as u64;
            place += ID + 1;
        }
        size
    }

    fn link_superclasses(&mut self) {
        for number in 0..self.classes.len() {
            let id = self.text.id(self.at(self.classes[number].object) + 5 + ID);
            if id == 0 {
                continue;
            }
            let class = &mut self.classes[number];
            class.superclass = self.class_numbers.get(&id).copied();
            class.superclass_missing = class.superclass.is_none();
        }
    }

    /// Follows superclasses as long as they are not settled, and then settles the classes met, from the top down.
    fn settle(&mut self, first: usize, path: &mut Vec<usize>) {
        let mut next = Some(first);
        let mut chain = Chain::Whole;
        while let Some(number) = next {
            let class = &mut self.classes[number];
            chain = match class.chain {
                Chain::Unknown if class.superclass_missing => Chain::Broken,
                Chain::Unknown => Chain::Whole,
                Chain::OnPath => Chain::Endless,
                settled => settled,
            };
            if class.chain != Chain::Unknown {
                break;
            }
            class.chain = Chain::OnPath;
            next = class.superclass.map(|number| number as usize);
            path.push(number);
        }
        while let Some(number) = path.pop() {
            let superclass = self.classes[number].superclass;
            let (mut size, mut next) = (0, None);
            if let Some(above) = superclass.map(|above| &self.classes[above as usize]) {
                size = above.size;
                next = if above.fields.is_empty() { above.next } else { superclass };
            }
            let class = &mut self.classes[number];
            class.chain = chain;
            class.size = size + class.own_size;
            class.next = next;
        }
    }

    fn check(&self) -> Result<(), Fault> {
        let repeat = self.index.first_repeat();
        for object in 0..self.len() as u32 {
            let at = self.at(object);
            if self.text.id(at + 1) == 0 {
                return fault(9, at);
            }
            if repeat == Some(object) {
                return fault(10, at);
            }
            if let Some(code) = self.broken_rule(at) {
                return fault(code, at);
            }
            if object as usize >= OBJECTS {
                return fault(14, at);
            }
        }
        Ok(())
    }

    fn broken_rule(&self, at: usize) -> Option<u8> {
        if self.text.bytes[at] == 0x23 {
            return None;
        }
        if self.text.bytes[at] == 0x20 {
            let class = &self.classes[self.class_numbers[&self.text.id(at + 1)] as usize];
            return (class.superclass_missing || class.chain == Chain::Endless).then_some(12);
        }
        let Some(number) = self.class_numbers.get(&self.text.class_id(at)) else {
            return Some(11);
        };
        let class = &self.classes[*number as usize];
        let wrong = class.chain == Chain::Whole && class.size != self.text.u4(at + 5 + 2 * ID) as u64;
        (self.text.bytes[at] == 0x21 && wrong).then_some(13)
    }

    /// The number of the class of the instance or object array at `at`.
    fn class_of(&self, at: usize) -> u32 {
        self.class_numbers[&self.text.class_id(at)]
    }

    pub fn rows(&self) -> Rows {
        Rows { classes: self.classes.len() as u32 }
    }

    /// Passes to `take` each object that `object` refers to, and returns what else its bytes say. They are read once,
    /// and each ID in them is looked up once.
    pub fn visit(&self, object: u32, mut take: impl FnMut(u32)) -> Visit {
        let at = self.at(object);
        let mut unresolved = 0;
        let take_id = |id| {
            if id != 0 {
                match self.find(id) {
                    Some(target) => take(target),
                    None => unresolved += 1,
                }
            }
        };
        let (row, bytes) = match self.text.bytes[at] {
            0x20 => (self.rows().of_class_objects(), self.visit_class(at, take_id)),
            0x21 => {
                let row = self.class_of(at);
                let class = &self.classes[row as usize];
                self.each_field(at, class, take_id);
                take(class.object);
                (row, self.text.u4(at + 5 + 2 * ID))
            }
            0x22 => {
                let row = self.class_of(at);
                let elements = &self.text.bytes[at + 9 + 2 * ID..][..self.text.u4(at + 5 + ID) * ID];
                elements.chunks_exact(ID).map(|element| Text::<ID> { bytes: element }.id(0)).for_each(take_id);
                take(self.classes[row as usize].object);
                (row, elements.len())
            }
            _ => {
                let code = self.text.bytes[at + 9 + ID];
                let bytes = self.text.u4(at + 5 + ID) * self.text.size_of_type(code).unwrap();
                (self.rows().of_primitives(code), bytes)
            }
        };
        Visit { row, bytes: bytes as u32, unresolved }
    }

    /// Passes to `take` each ID in the class at `at`, and returns the number of bytes of its static values.
    fn visit_class(&self, at: usize, mut take: impl FnMut(u64)) -> usize {
        (0..4).for_each(|place| take(self.text.id(at + 5 + ID + place * ID)));
        let mut bytes = 0;
        self.text.values_of(at, |value, place, code| {
            if code == 2 {
                take(self.text.id(place));
            }
            if value == Value::Static {
                bytes += self.text.size_of_type(code).unwrap();
            }
        });
        bytes
    }

    fn each_field(&self, at: usize, lowest: &Class, mut take: impl FnMut(u64)) {
        let values = at + 9 + 2 * ID;
        let mut next = Some(lowest);
        while let Some(class) = next {
            let base = values + (lowest.size - class.size) as usize;
            for field in &self.fields[class.fields.start as usize..class.fields.end as usize] {
                take(self.text.id(base + *field as usize));
            }
            next = class.next.map(|number| &self.classes[number as usize]);
        }
    }

    /// The objects that root sub-records name, and how many of their IDs name no object.
    pub fn roots(&self) -> (Vec<u32>, u64) {
        let ids = self.dump.roots.iter().map(|at| self.text.id(*at as usize + 1)).filter(|id| *id != 0);
        let found: Vec<_> = ids.map(|id| self.find(id)).collect();
        let unresolved = found.iter().filter(|object| object.is_none()).count() as u64;
        (found.into_iter().flatten().collect(), unresolved)
    }
}

/// The kinds of values in a class dump.
#[derive(Clone, Copy, PartialEq)]
enum Value {
    Constant,
    Static,
}

impl<const ID: usize> Text<'_, ID> {
    /// The class ID of the instance or object array at `at`.
    fn class_id(&self, at: usize) -> u64 {
        match self.bytes[at] {
            0x21 => self.id(at + 5 + ID),
            _ => self.id(at + 9 + ID),
        }
    }

    /// Passes to `take` each constant and static value of the class at `at`, with place and type. Returns where its
    /// fields begin.
    fn values_of(&self, at: usize, mut take: impl FnMut(Value, usize, u8)) -> usize {
        let mut place = at + 9 + 7 * ID;
        for (value, name) in [(Value::Constant, 2), (Value::Static, ID)] {
            let count = self.u2(place);
            place += 2;
            for _ in 0..count {
                let code = self.bytes[place + name];
                take(value, place + name + 1, code);
                place += name + 1 + self.size_of_type(code).unwrap();
            }
        }
        place
    }
}
