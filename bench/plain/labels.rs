//! The text that says which references have which labels.

/// The least numbers that are too large: of an identifier, of a reference or a root, and of a label.
const IDS: u128 = 1 << 64;
const INDICES: u128 = 1 << 32;
const LABELS: u128 = 1 << 20;

const MOST_DIGITS: usize = 20;

/// Where identifiers are. Identifiers that an object holds, and roots, are numbered from 0.
#[derive(Clone, Copy, Debug, PartialEq)]
pub enum Place {
    /// In each object of the class with an ID: the identifier with a number.
    Class(u64, u32),
    /// In the object with an ID: the identifier with a number.
    Object(u64, u32),
    /// In the root with a number.
    Root(u32),
}

/// A line of the text.
#[derive(Clone, Copy, Debug, PartialEq)]
pub enum Entry {
    /// A label, and a place that has it.
    Label(u32, Place),
    /// A place that is not followed.
    Cut(Place),
    /// The ID of an object that is a root, too.
    Root(u64),
}

/// Returns the entries that `text` spells: lines, each ended by a newline. None if a line is no entry.
pub fn entries(text: &[u8]) -> Option<Vec<Entry>> {
    let Some((last, lines)) = text.split_last() else { return Some(vec![]) };
    if *last != b'\n' {
        return None;
    }
    lines.split(|byte| *byte == b'\n').map(entry).collect()
}

/// Returns the number of labels: one more than the highest label of `entries`, or 0 if there is none.
pub fn label_count(entries: &[Entry]) -> u32 {
    let counts = entries.iter().map(|entry| match entry {
        Entry::Label(label, _) => label + 1,
        _ => 0,
    });
    counts.max().unwrap_or(0)
}

fn entry(line: &[u8]) -> Option<Entry> {
    let mut words = line.split(|byte| *byte == b' ');
    let entry = match (words.next()?, words.next()?) {
        (b"label", label) => Entry::Label(number(label, LABELS)? as u32, place(words.next()?, &mut words)?),
        (b"cut", kind) => Entry::Cut(place(kind, &mut words)?),
        (b"root", id) => Entry::Root(number(id, IDS)? as u64),
        _ => return None,
    };
    words.next().is_none().then_some(entry)
}

fn place<'a>(kind: &[u8], words: &mut impl Iterator<Item = &'a [u8]>) -> Option<Place> {
    let mut next = |limit| number(words.next()?, limit);
    Some(match kind {
        b"class" => Place::Class(next(IDS)? as u64, next(INDICES)? as u32),
        b"object" => Place::Object(next(IDS)? as u64, next(INDICES)? as u32),
        b"root" => Place::Root(next(INDICES)? as u32),
        _ => return None,
    })
}

fn number(digits: &[u8], limit: u128) -> Option<u128> {
    if !(1..=MOST_DIGITS).contains(&digits.len()) || !digits.iter().all(u8::is_ascii_digit) {
        return None;
    }
    let value = digits.iter().fold(0, |value, digit| 10 * value + u128::from(digit - b'0'));
    (value < limit).then_some(value)
}

#[cfg(test)]
mod tests {
    use super::*;

    #[test]
    fn texts() {
        assert_eq!(entries(b""), Some(vec![]));
        let text = b"label 1048575 class 18446744073709551615 4294967295\ncut object 0 007\nlabel 0 root 3\nroot 5\n";
        let wanted = [
            Entry::Label(1_048_575, Place::Class(u64::MAX, u32::MAX)),
            Entry::Cut(Place::Object(0, 7)),
            Entry::Label(0, Place::Root(3)),
            Entry::Root(5),
        ];
        assert_eq!(entries(text), Some(wanted.to_vec()));
        assert_eq!((label_count(&wanted), label_count(&wanted[1..2])), (1 << 20, 0));
        assert_eq!(entries(b"root 00000000000000000001\n"), Some(vec![Entry::Root(1)]));
    }

    #[test]
    fn texts_that_are_refused() {
        let lines = [
            "",
            " ",
            "label 1",
            "label 1 root",
            "label 1 root ",
            "label 1 root 2 ",
            "label 1 root 2 3",
            "label  1 root 2",
            " label 1 root 2",
            "label 1 root 2\r",
            "label 1\troot 2",
            "label +1 root 2",
            "label -1 root 2",
            "label 0x1 root 2",
            "label 1048576 root 2",
            "label 1 root 4294967296",
            "label 1 class 2",
            "label 1 class 18446744073709551616 2",
            "label 1 object 1 4294967296",
            "label 1 thread 1 2",
            "Label 1 root 2",
            "cut",
            "cut 1 root 2",
            "cut root",
            "root",
            "root class 1 2",
            "root 000000000000000000001",
            "root 99999999999999999999",
            "roots 1",
            "# label 1 root 2",
        ];
        for line in lines {
            assert_eq!(entries(format!("{line}\n").as_bytes()), None, "{line}");
            assert_eq!(entries(format!("root 1\n{line}\nroot 1\n").as_bytes()), None, "{line}");
        }
        assert_eq!(entries(b"root 1"), None);
        assert_eq!(entries(b"root 1\n\n"), None);
        assert_eq!(entries(b"\n"), None);
    }
}
