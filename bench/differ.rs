//! Looks for a dump on which two markers differ: `differ ONE OTHER SEED COUNT`.
//!
//! Makes `COUNT` small dumps at random from `SEED`, about half of them damaged. IDs follow one another in a quarter of
//! the dumps; in the other quarters they rise in steps of eight, fall, or come in no order. Runs both programs on each
//! dump, and compares status, report and refusal. Keeps the first dump on which they differ, and prints where. Build it
//! by `rustc --edition 2024 -O`.

#[path = "plain/rows/file.rs"]
#[allow(dead_code)]
mod file;

use file::File;
use std::process::{Command, ExitCode};

/// Xorshift.
struct Chance(u64);

impl Chance {
    fn below(&mut self, limit: u64) -> u64 {
        self.0 ^= self.0 << 13;
        self.0 ^= self.0 >> 7;
        self.0 ^= self.0 << 17;
        (self.0 >> 11) % limit
    }

    fn one_in(&mut self, limit: u64) -> bool {
        self.below(limit) == 0
    }

    fn of<T: Copy>(&mut self, choices: &[T]) -> T {
        choices[self.below(choices.len() as u64) as usize]
    }
}

/// Four ways to give each number below 0x1000 an ID: the number itself, or a multiple of eight, in rising, falling or
/// no order. The ID of 0 is 0.
const ORDERS: [fn(u64) -> u64; 4] = [
    |number| number,
    |number| 8 * number,
    |number| if number == 0 { 0 } else { 8 * (0x1000 - number) },
    |number| 8 * (number * 0x9E5 % 0x1000),
];

/// A dump that grows. Classes usually have IDs of another range than other objects.
struct Maker {
    chance: Chance,
    id: usize,
    /// The ID of each number.
    order: fn(u64) -> u64,
    /// For each class so far, the types of its fields, and its superclass.
    classes: Vec<(Vec<u8>, u64)>,
    objects: u64,
}

const CODES: [u8; 10] = [2, 2, 2, 4, 5, 6, 8, 9, 10, 11];

impl Maker {
    fn size(&self, code: u8) -> usize {
        match code {
            2 => self.id,
            4 | 8 => 1,
            5 | 9 => 2,
            6 | 10 => 4,
            _ => 8,
        }
    }

    /// Returns a number whose ID most likely names an object, or 0 for null.
    fn reference(&mut self) -> u64 {
        match self.chance.below(20) {
            0 => 0,
            1 => 0x999,
            2..=4 => self.class_id(),
            _ => 0x200 + self.chance.below(self.objects + 3),
        }
    }

    fn class_id(&mut self) -> u64 {
        let classes = self.classes.len() as u64;
        match self.chance.below(300) {
            0 => 0x200,
            1 => 0,
            2 => 0x100 + classes,
            _ => 0x100 + self.chance.below(classes.max(1)),
        }
    }

    fn new_object(&mut self) -> u64 {
        self.objects += 1;
        if self.chance.one_in(150) { self.reference() } else { 0x200 + self.objects }
    }

    fn values(&mut self, codes: &[u8]) -> Vec<u8> {
        let mut values = File { id: self.id, bytes: vec![] };
        for code in codes {
            values = match code {
                2 => values.ids(&[(self.order)(self.reference())]),
                code => values.number(self.size(*code), self.chance.0),
            };
        }
        values.bytes
    }

    fn codes(&mut self, limit: u64) -> Vec<u8> {
        (0..self.chance.below(limit)).map(|_| self.chance.of(&CODES)).collect()
    }

    fn class(&mut self, heap: File) -> File {
        let superclass = match self.chance.below(120) {
            0 => 0x100 + self.classes.len() as u64,
            1 => self.reference(),
            2..=70 if !self.classes.is_empty() => 0x100 + self.chance.below(self.classes.len() as u64),
            _ => 0,
        };
        let class = if self.chance.one_in(100) { self.reference() } else { 0x100 + self.classes.len() as u64 };
        let mut heap = heap.raw(&[0x20]).ids(&[(self.order)(class)]).number(4, 0).ids(&[(self.order)(superclass)]);
        for _ in 0..5 {
            let above = if self.chance.one_in(3) { self.reference() } else { 0 };
            heap = heap.ids(&[(self.order)(above)]);
        }
        heap = heap.number(4, self.chance.0);
        for name in [2, self.id] {
            let codes = self.codes(4);
            heap = heap.number(2, codes.len() as u64);
            for code in codes {
                heap = heap.number(name, 2).raw(&[code]).raw(&self.values(&[code]));
            }
        }
        let fields = self.codes(5);
        heap = heap.number(2, fields.len() as u64);
        heap = fields.iter().fold(heap, |heap, code| heap.ids(&[2]).raw(&[*code]));
        self.classes.push((fields, superclass));
        heap
    }

    fn layout(&self, mut class: u64) -> Vec<u8> {
        let mut codes = vec![];
        for _ in 0..20 {
            let Some((fields, superclass)) =
                class.checked_sub(0x100).and_then(|number| self.classes.get(number as usize))
            else {
                break;
            };
            codes.extend(fields);
            class = *superclass;
        }
        codes
    }

    fn sub_record(&mut self, heap: File) -> File {
        match self.chance.below(30) {
            0..=4 => self.class(heap),
            5..=14 if !self.classes.is_empty() => {
                let (object, class) = (self.new_object(), self.class_id());
                let mut values = self.values(&self.layout(class));
                if self.chance.one_in(100) {
                    values.pop();
                }
                heap.instance((self.order)(object), (self.order)(class), &values)
            }
            15..=18 if !self.classes.is_empty() => {
                let elements: Vec<u64> = (0..self.chance.below(6)).map(|_| (self.order)(self.reference())).collect();
                heap.objects((self.order)(self.new_object()), (self.order)(self.class_id()), &elements)
            }
            19..=21 => {
                let (code, count) = (self.chance.of(&CODES[3..]), self.chance.below(5));
                let elements = vec![7; count as usize * self.size(code)];
                heap.primitives((self.order)(self.new_object()), code, count, &elements)
            }
            _ => {
                let (tag, rest) = self.chance.of(&[
                    (0xFF, 0),
                    (0x01, self.id),
                    (0x02, 8),
                    (0x03, 8),
                    (0x04, 4),
                    (0x05, 0),
                    (0x06, 4),
                    (0x07, 0),
                    (0x08, 8),
                ]);
                heap.raw(&[tag]).ids(&[(self.order)(self.reference())]).raw(&vec![1; rest])
            }
        }
    }

    fn name(&mut self, file: File) -> File {
        if self.chance.one_in(2) {
            let text = self.chance.of(&["A", "B", "[LA;", "a\\b", "x\u{e9} y", "", "java/lang/Object"]);
            file.string(1 + self.chance.below(5), text.as_bytes())
        } else {
            let class = self.class_id();
            file.load((self.order)(class), 1 + self.chance.below(5))
        }
    }

    fn dump(&mut self) -> File {
        let mut file = File::header(self.id);
        let segments = if self.chance.one_in(3) { 0 } else { 1 + self.chance.below(3) };
        for segment in 0..segments.max(1) {
            for _ in 0..self.chance.below(8) {
                file = self.name(file);
            }
            let mut heap = File { id: self.id, bytes: vec![] };
            for _ in 0..self.chance.below(25) + 5 * (1 - segment.min(1)) {
                heap = self.sub_record(heap);
            }
            file = file.record(if segments == 0 { 0x0C } else { 0x1C }, &heap.bytes);
        }
        if segments > 0 && !self.chance.one_in(50) {
            file = file.record(0x2C, &[]);
        }
        for _ in 0..self.chance.below(4) {
            file = self.name(file);
        }
        file
    }

    /// Changes a byte, cuts bytes out, repeats them or drops the end.
    fn damage(&mut self, bytes: &mut Vec<u8>) {
        let at = self.chance.below(bytes.len() as u64) as usize;
        let end = (at + 1 + self.chance.below(30) as usize).min(bytes.len());
        match self.chance.below(8) {
            0 => bytes.truncate(at),
            1 => drop(bytes.drain(at..end)),
            2 => bytes.extend_from_within(at..end),
            3 => {
                let again = bytes[at..end].to_vec();
                bytes.splice(at..at, again);
            }
            4 => bytes[at] = self.chance.of(&[0, 1, 2, 4, 0x0C, 0x1C, 0x20, 0x21, 0x22, 0x23, 0x2C, 0x7F, 0x80, 0xFF]),
            _ => bytes[at] = self.chance.below(256) as u8,
        }
    }
}

/// How a program ended: its status, its report, and its refusal without the program's name.
#[derive(Debug, PartialEq)]
struct Ended {
    status: Option<i32>,
    report: Vec<u8>,
    refusal: String,
}

impl Ended {
    /// Runs `program` on `dump`.
    fn of(program: &str, dump: &str) -> Ended {
        let output = Command::new(program).arg(dump).output().expect("the program runs");
        let told = String::from_utf8_lossy(&output.stderr);
        let refusal = told.lines().find_map(|line| line.split_once(": refused ")).map_or("", |(_, refusal)| refusal);
        Ended { status: output.status.code(), report: output.stdout, refusal: refusal.to_string() }
    }

    /// Tests whether it is a report or a refusal, and not a signal or a status without either.
    fn is_an_answer(&self) -> bool {
        match self.status {
            Some(0) => self.report.ends_with(b"  (unresolved)\n") && self.refusal.is_empty(),
            Some(1) => self.report.is_empty() && !self.refusal.is_empty(),
            _ => false,
        }
    }
}

fn main() -> ExitCode {
    let words: Vec<String> = std::env::args().skip(1).collect();
    let [one, other, seed, count] = &words[..] else {
        eprintln!("usage: differ ONE OTHER SEED COUNT");
        return ExitCode::from(2);
    };
    let (seed, count): (u64, u64) = (seed.parse().expect("a number"), count.parse().expect("a number"));
    let path = std::env::temp_dir().join(format!("differ-{}.hprof", std::process::id()));
    let dump = path.to_str().expect("a path of text");
    let mut seen = std::collections::BTreeMap::<String, u64>::new();
    for number in 0..count {
        let chance = Chance((seed * 1_000_000_007 + number + 1).wrapping_mul(0x9E37_79B9_7F4A_7C15));
        let (id, order) = ([4, 8][number as usize % 2], ORDERS[number as usize / 2 % 4]);
        let mut maker = Maker { chance, id, order, classes: vec![], objects: 0 };
        let mut bytes = maker.dump().bytes;
        while !bytes.is_empty() && maker.chance.one_in(2) {
            maker.damage(&mut bytes);
        }
        std::fs::write(&path, &bytes).expect("a file");
        let (first, second) = (Ended::of(one, dump), Ended::of(other, dump));
        if first != second || !first.is_an_answer() {
            println!("dump {number} differs: {dump}\n{first:?}\n{second:?}");
            return ExitCode::FAILURE;
        }
        *seen.entry(first.refusal.split(" at ").next().unwrap_or_default().to_string()).or_default() += 1;
    }
    std::fs::remove_file(&path).expect("the file is there");
    seen.iter()
        .for_each(|(refusal, times)| println!("{times:8}  {}", if refusal.is_empty() { "report" } else { refusal }));
    ExitCode::SUCCESS
}
