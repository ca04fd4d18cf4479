//! Tests whether two tables of labels say the same, whatever numbers their sets have: `same_tables TABLE OTHER`.
//!
//! Each set counts as the sum of a number for each of its labels: the two parts of a set have no label in common. Prints
//! how many lines only one table has; exit status 1 if there are any, 2 if a file is no table. Build it by
//! `rustc --edition 2024 -O`.

use std::collections::HashMap;
use std::process::ExitCode;

/// A line: what its set counts as, the name of the class, the remainder of an object's bytes by 16, and the numbers of
/// objects and bytes.
type Line<'a> = (u128, &'a str, u64, u64, u64);

/// Returns the number for a label: two steps of SplitMix64.
fn weight(label: u64) -> u128 {
    let mixed = |number: u64| {
        let number = number.wrapping_mul(0x9E37_79B9_7F4A_7C15);
        let number = (number ^ number >> 30).wrapping_mul(0xBF58_476D_1CE4_E5B9);
        let number = (number ^ number >> 27).wrapping_mul(0x94D0_49BB_1331_11EB);
        number ^ number >> 31
    };
    u128::from(mixed(2 * label + 1)) << 64 | u128::from(mixed(2 * label + 2))
}

/// Returns the lines of a table in order. None if it is no table.
fn lines(table: &str) -> Option<Vec<Line<'_>>> {
    let mut joint = HashMap::<u64, u128>::new();
    let mut lines = vec![];
    for line in table.lines() {
        let of = |set: &str| match set {
            "-" => Some(0),
            set => set.parse().ok().map(|set: u64| joint.get(&set).copied().unwrap_or_else(|| weight(set))),
        };
        match line.split_whitespace().collect::<Vec<_>>()[..] {
            ["set", set, "=", one, "+", other] => {
                let both = of(one)?.wrapping_add(of(other)?);
                joint.insert(set.parse().ok()?, both);
            }
            [count, bytes, remainder, set, name] => {
                let number = |digits: &str| digits.parse().ok();
                lines.push((of(set)?, name, number(remainder)?, number(count)?, number(bytes)?));
            }
            _ => return None,
        }
    }
    lines.sort_unstable();
    Some(lines)
}

fn main() -> ExitCode {
    let words: Vec<String> = std::env::args().skip(1).collect();
    let [one, other] = &words[..] else {
        eprintln!("usage: same_tables TABLE OTHER");
        return ExitCode::from(2);
    };
    let texts = [one, other].map(|name| std::fs::read_to_string(name).expect("a file of text"));
    let [Some(one), Some(other)] = texts.each_ref().map(|text| lines(text)) else {
        eprintln!("same_tables: no table");
        return ExitCode::from(2);
    };
    if one == other {
        println!("same");
        return ExitCode::SUCCESS;
    }
    let lacks = |lines: &[Line], line: &Line| lines.binary_search(line).is_err();
    let only = |lines: &[Line], others: &[Line]| lines.iter().filter(|line| lacks(others, line)).count();
    println!("{} lines are only in the first, {} only in the other", only(&one, &other), only(&other, &one));
    ExitCode::FAILURE
}
