//! Small files with labels, and the table that each has to give.

use super::{Clock, File, Task, id, named, narrow, printed};
use crate::labels::entries;
use std::time::Instant;

fn table(file: &File, labels: &str) -> String {
    let task = Task::Table(entries(labels.as_bytes()).expect("labels"));
    printed(&file.bytes, &task, &mut Clock(Instant::now())).expect("a table")
}

/// Checks that the table of `file` has these lines: `set 2 = 0 + 1`, or objects, bytes, remainder, set and class.
fn gives(file: &File, labels: &str, wanted: &[&str]) {
    let line = |line: &&str| match line.split(' ').collect::<Vec<_>>()[..] {
        [count, bytes, remainder, set, name] => format!("{count:>10}  {bytes:>14}  {remainder:>2}  {set}  {name}\n"),
        _ => format!("{line}\n"),
    };
    assert_eq!(table(file, labels), wanted.iter().map(line).collect::<String>(), "{labels}");
}

/// 0x201 refers to 0x202 and 0x203, both of these to 0x204, and 0x204 to 0x205. 0x206 is not reachable.
fn diamond() -> File {
    named().string(3, b"[LA;").load(0x110, 3).heap(|heap| {
        let two = |one, other| [id(one), id(other)].concat();
        let start = heap.class(0x100, 0, &[2, 2]).class(0x110, 0, &[]).instance(0x201, 0x100, &two(0x202, 0x203));
        let sides = start.instance(0x202, 0x100, &two(0, 0x204)).instance(0x203, 0x100, &two(0x204, 0));
        let below = sides.objects(0x204, 0x110, &[0, 0x205]).primitives(0x205, 8, 3, &[1, 2, 3]);
        below.instance(0x206, 0x100, &two(0x205, 0x201)).root(0x201)
    })
}

#[test]
fn labels_of_objects() {
    let file = diamond();
    let bare = ["3 24 8 - A", "1 8 8 - [LA;", "1 3 3 - byte[]", "2 0 0 - <class>"];
    gives(&file, "", &bare);
    gives(
        &file,
        "label 3 object 513 1\n",
        &["2 16 8 - A", "1 8 8 - [LA;", "1 8 8 3 A", "1 3 3 - byte[]", "2 0 0 - <class>"],
    );
    let missing = "label 7 object 518 1\nlabel 0 object 9 1\nlabel 0 object 513 3\nlabel 0 object 517 0\nroot 9\n";
    gives(&file, missing, &bare);
    let two_of_one_place = "label 1 object 516 2\nlabel 1 object 516 1\nlabel 0 object 516 2\n";
    gives(
        &file,
        two_of_one_place,
        &["set 2 = 0 + 1", "3 24 8 - A", "1 8 8 - [LA;", "1 3 3 2 byte[]", "2 0 0 - <class>"],
    );
    // each path to the array has label 0, only one has label 1
    let paths = "label 0 object 513 1\nlabel 1 object 514 2\nlabel 0 object 515 1\nlabel 2 object 516 2\n";
    let sums = ["2 16 8 - A", "1 8 8 0 A", "1 8 8 0 [LA;", "1 3 3 3 byte[]", "1 0 0 - <class>", "1 0 0 0 <class>"];
    gives(&file, paths, &[&["set 3 = 0 + 2"], &sums[..]].concat());
    gives(
        &file,
        "label 0 object 272 0\nlabel 1 object 516 0\n",
        &[&bare[..3], &["1 0 0 - <class>", "1 0 0 1 <class>"]].concat(),
    );
}

#[test]
fn labels_of_classes() {
    let file = diamond();
    let sums =
        ["1 8 8 - A", "1 8 8 0 A", "1 8 8 1 A", "1 8 8 2 [LA;", "1 3 3 2 byte[]", "1 0 0 - <class>", "1 0 0 2 <class>"];
    gives(&file, "label 0 class 256 1\nlabel 1 class 256 2\n", &[&["set 2 = 0 + 1"], &sums[..]].concat());
    let elements = "label 1 class 272 2\nlabel 0 object 516 2\nlabel 0 class 516 2\nlabel 0 class 999 2\n";
    gives(&file, elements, &["set 2 = 0 + 1", "3 24 8 - A", "1 8 8 - [LA;", "1 3 3 2 byte[]", "2 0 0 - <class>"]);
    let heap = |heap: File| {
        let classes = heap.class(0x100, 0, &[2]).class(0x110, 0x100, &[10, 2]);
        let low = classes.instance(0x201, 0x110, &[id(7), id(0x202), id(0x203)].concat());
        low.instance(0x202, 0x100, &id(0x204)).instance(0x203, 0x100, &id(0)).instance(0x204, 0x100, &id(0)).root(0x201)
    };
    // the layout has a class's own fields first, and a class has no labels of its superclass
    let file = named().string(3, b"B").load(0x110, 3).heap(heap);
    let sums = ["1 12 12 - B", "1 4 4 0 A", "1 4 4 1 A", "1 4 4 3 A", "2 0 0 - <class>"];
    gives(
        &file,
        "label 0 class 272 1\nlabel 1 class 272 2\nlabel 2 class 256 1\n",
        &[&["set 3 = 0 + 2"], &sums[..]].concat(),
    );
}

/// Arrays of one class and set have a line for each remainder of their bytes by 16.
#[test]
fn remainders() {
    let lengths = [20, 12, 4, 12, 0, 16, 160, 31, 15, 15];
    let bytes = |heap: File, (id, length): (u64, u64)| heap.primitives(id, 8, length, &vec![1; length as usize]);
    let roots = |heap: File, id: u64| heap.root(id);
    let file = narrow().heap(|heap| (0x201..0x20b).fold((0x201..).zip(lengths).fold(heap, bytes), roots));
    let lines = ["3 176 0 - byte[]", "3 61 15 - byte[]", "2 24 4 - byte[]", "2 24 12 - byte[]"];
    gives(&file, "", &lines);
    gives(&file, "label 0 root 9\n", &[lines[0], "2 46 15 - byte[]", lines[2], lines[3], "1 15 15 0 byte[]"]);
}

#[test]
fn roots_and_cuts() {
    let file = diamond();
    let held = ["3 24 8 0 A", "1 8 8 0 [LA;", "1 3 3 0 byte[]", "2 0 0 0 <class>"];
    gives(&file, "label 0 root 0\nlabel 0 root 1\n", &held);
    gives(&file, "label 0 root 0\nroot 517\n", &[held[0], held[1], "1 3 3 - byte[]", held[3]]);
    gives(&file, "label 0 root 0\ncut root 0\nroot 516\n", &["1 8 8 - [LA;", "1 3 3 - byte[]", "1 0 0 - <class>"]);
    gives(&file, "cut root 0\n", &[]);
    gives(&file, "cut class 256 1\nlabel 0 class 256 1\n", &["2 16 8 - A", "1 0 0 - <class>"]);
    gives(
        &file,
        "cut object 513 2\nlabel 0 class 256 1\n",
        &["1 8 8 - A", "1 8 8 0 A", "1 8 8 0 [LA;", "1 3 3 0 byte[]", "1 0 0 - <class>", "1 0 0 0 <class>"],
    );
}

/// A list with references to the next and the previous object. Its first and last objects are roots, so the objects
/// lose their labels from the last to the first.
#[test]
fn late_paths() {
    let count = 200;
    let object = |number: u32| if (1..=count).contains(&number) { 0x200 + number } else { 0 };
    let heap = |heap: File| {
        let fields = |number: u32| [id(object(number + 1)), id(object(number - 1))].concat();
        let instance = |heap: File, number: u32| heap.instance(object(number).into(), 0x100, &fields(number));
        (1..=count).fold(heap.class(0x100, 0, &[2, 2]), instance).root(0x201).root(object(count).into())
    };
    let file = named().heap(heap);
    let label = |number: u32| format!("label {number} object {} 1\n", object(number));
    let labels: String = (1..count).map(label).collect();
    gives(&file, &labels, &["200 1600 8 - A", "1 0 0 - <class>"]);
    // without the second root each object has the labels of all objects before it
    let text = table(&file, &format!("{labels}cut root 1\n"));
    assert_eq!(text.lines().filter(|line| line.ends_with("  A")).count(), 200);
    assert!(text.contains("\n         1               8   8  -  A\n"));
}
