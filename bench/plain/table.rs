//! How many objects have which set of labels, by class and by the remainder of their bytes, and the text that says so.

use crate::by_id::ById;
use crate::flow::UNREACHED;
use crate::graph::Graph;
use crate::names::Names;
use crate::report::row_name;
use crate::sets::{EMPTY, Set, Sets};
use crate::tally::Sum;
use std::cmp::Reverse;
use std::collections::BTreeMap;
use std::fmt::Write as _;

/// What the bytes of an object are divided by: the remainder says how an array is padded in the heap.
const DIVISOR: u64 = 16;

/// A line of the table.
struct Line {
    set: Set,
    row: u32,
    remainder: u64,
    sum: Sum,
}

/// Returns the sum of the objects of each set, row and remainder, in no order. There are fewer than 2^28 rows.
fn lines<const ID: usize>(graph: &Graph<ID>, set_of: &[Set]) -> Vec<Line> {
    let mut sums = ById::<Sum>::default();
    for (object, set) in (0..).zip(set_of).filter(|(_, set)| **set != UNREACHED) {
        let bytes = graph.bytes_of(object);
        let key = (u64::from(*set) << 28 | u64::from(graph.row_of(object))) * DIVISOR + bytes % DIVISOR;
        sums.entry(key).or_default().add(Sum { count: 1, bytes });
    }
    let line = |(key, sum): (u64, _)| {
        let (set, row) = ((key >> 32) as Set, (key / DIVISOR) as u32 % (1 << 28));
        Line { set, row, remainder: key % DIVISOR, sum }
    };
    sums.into_iter().map(line).collect()
}

/// Sets of several labels by rising number, each with the number that the table has for it. In the table these numbers
/// follow those of the labels.
type Shown = BTreeMap<Set, u32>;

/// Returns the sets of several labels that `lines` have, and all that these are made of.
fn joint_sets(sets: &Sets, lines: &[Line]) -> Shown {
    let mut shown = Shown::new();
    let mut left: Vec<_> = lines.iter().map(|line| line.set).collect();
    while let Some(set) = left.pop() {
        if let Some((low, high)) = sets.parts(set)
            && shown.insert(set, 0).is_none()
        {
            left.extend([low, high]);
        }
    }
    (sets.labels()..).zip(shown.values_mut()).for_each(|(number, shown)| *shown = number);
    shown
}

fn shown_set(set: Set, shown: &Shown) -> String {
    match shown.get(&set) {
        _ if set == EMPTY => "-".to_string(),
        Some(number) => number.to_string(),
        None => (set - 1).to_string(),
    }
}

/// Returns the text of the table: the sets of several labels, then the lines. `set_of` has the set of each object.
pub fn table<const ID: usize>(graph: &Graph<ID>, sets: &Sets, set_of: &[Set]) -> String {
    let mut lines = lines(graph, set_of);
    // the rows are numbered from the arrays of primitives on, then the class objects, then the classes
    let (classes, rows) = (graph.rows().classes, graph.rows().count() as u32);
    lines.sort_unstable_by_key(|line| {
        let row = (line.row + rows - classes) % rows;
        (Reverse(line.sum.bytes), Reverse(line.sum.count), line.set, row, line.remainder)
    });
    let shown = joint_sets(sets, &lines);
    let mut text = String::new();
    for (set, number) in &shown {
        let (low, high) = sets.parts(*set).expect("a set of several labels");
        writeln!(text, "set {number} = {} + {}", shown_set(low, &shown), shown_set(high, &shown)).unwrap();
    }
    let names = Names::of(graph.text, &graph.dump);
    for Line { set, row, remainder, sum: Sum { count, bytes } } in lines {
        let (set, name) = (shown_set(set, &shown), row_name(graph, &names, row));
        writeln!(text, "{count:10}  {bytes:14}  {remainder:2}  {set}  {name}").unwrap();
    }
    text
}
