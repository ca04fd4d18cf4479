//! Small files, and the report or refusal that each has to give, with `--references table` and with `bytes`, each
//! without `--threads` and with 1, 2 and 64 threads. No test marks with `--atomic`.

mod file;
mod tables;

use crate::{Clock, Options, Skip, Task, printed};
use file::File;
use std::time::Instant;

fn narrow() -> File {
    File::header(4)
}

fn id(value: u32) -> [u8; 4] {
    value.to_be_bytes()
}

/// A report or a refusal in one line: `2 8 A, 1 0 <class>, R 3 8, U 0 0, X 0` or `8 at 31`.
fn short(file: &File, skip: &Skip, options: Options) -> String {
    let task = Task::Report(options, skip.clone());
    let text = match printed(&file.bytes, &task, &mut Clock(Instant::now())) {
        Ok(text) => text,
        Err(fault) => return format!("{} at {}", fault.code, fault.at),
    };
    let lines = text.lines().map(|line| match line.split_whitespace().collect::<Vec<_>>()[..] {
        [count, bytes, "(reachable)"] => format!("R {count} {bytes}"),
        [count, bytes, "(unreachable)"] => format!("U {count} {bytes}"),
        [count, "0", "(unresolved)"] => format!("X {count}"),
        [count, bytes, name] => format!("{count} {bytes} {name}"),
        _ => panic!("not a line of a report: {line}"),
    });
    lines.collect::<Vec<_>>().join(", ")
}

fn gives(file: File, wanted: &str) {
    gives_without(&file, &Skip::default(), wanted);
}

fn gives_without(file: &File, skip: &Skip, wanted: &str) {
    for table in [true, false] {
        for threads in [None, Some(1), Some(2), Some(64)] {
            assert_eq!(short(file, skip, Options { threads, atomic: false, table, all: false }), wanted);
        }
    }
}

fn named() -> File {
    narrow().string(1, b"A").load(0x100, 1)
}

fn two(file: File) -> File {
    file.class(0x100, 0, &[2]).instance(0x201, 0x100, &id(0x202)).instance(0x202, 0x100, &id(0x201))
}

#[test]
fn headers_and_order() {
    gives(narrow().heap(|heap| heap), "R 0 0, U 0 0, X 0");
    gives(narrow(), "8 at 31");
    gives(File::header(2).heap(|heap| heap), "2 at 19");
    gives(File { id: 4, bytes: vec![] }, "1 at 0");
    gives(File { id: 4, bytes: narrow().bytes[..30].to_vec() }, "3 at 0");
    gives(narrow().record(0x1C, &[]).record(0x1C, &[]), "8 at 49");
    gives(narrow().record(0x1C, &[]).record(0x1C, &[]).record(0x2C, &[]), "R 0 0, U 0 0, X 0");
    gives(narrow().record(0x1C, &[]).record(0x2C, &[]).record(0x1C, &[]), "8 at 49");
    gives(narrow().record(0x02, &[0; 15]), "4 at 31");
    gives(narrow().record(0x03, &[0; 15]).heap(|heap| heap), "R 0 0, U 0 0, X 0");
}

#[test]
fn two_objects() {
    let whole = named().heap(|heap| two(heap).root(0x201));
    assert_eq!(whole.bytes.len(), 174);
    gives(whole.clone(), "2 8 A, 1 0 <class>, R 3 8, U 0 0, X 0");
    let ring = |heap: File| heap.instance(0x203, 0x100, &id(0x204)).instance(0x204, 0x100, &id(0x203));
    gives(named().heap(|heap| ring(two(heap)).root(0x201)), "2 8 A, 1 0 <class>, R 3 8, U 2 8, X 0");
    let roots = |heap: File| two(heap).root(0x201).root(0).root(0x999).root(0x201).root(0x201);
    gives(named().heap(roots), "2 8 A, 1 0 <class>, R 3 8, U 0 0, X 1");
    let again = named().string(1, b"Z").string(3, b"Q").load(0x100, 3);
    gives(again.heap(|heap| two(heap).root(0x201)), "2 8 A, 1 0 <class>, R 3 8, U 0 0, X 0");
    let mut cut = whole.bytes[..160].to_vec();
    gives(File { id: 4, bytes: cut.clone() }, "3 at 70");
    cut[78] = 81;
    gives(File { id: 4, bytes: cut }, "6 at 148");
}

#[test]
fn layouts() {
    let file = named().string(3, b"B").load(0x110, 3);
    let values = [id(5), id(0x202)].concat();
    let heap = |heap: File| {
        let classes = heap.class(0x110, 0x100, &[10]).class(0x100, 0, &[2]);
        classes.instance(0x301, 0x110, &values).instance(0x202, 0x100, &id(0)).root(0x301)
    };
    gives(file.heap(heap), "1 8 B, 1 4 A, 2 0 <class>, R 4 12, U 0 0, X 0");
    gives(narrow().heap(|heap| heap.class(0x100, 0, &[2]).instance(0x201, 0x100, &[0, 0, 2])), "13 at 88");
    gives(narrow().heap(|heap| heap.class(0x100, 0x110, &[]).class(0x110, 0x100, &[])), "12 at 40");
    gives(narrow().heap(|heap| heap.class(0x100, 0x100, &[])), "12 at 40");
    let tail = |heap: File| {
        heap.class(0x100, 0, &[]).class(0x110, 0x120, &[]).class(0x120, 0x130, &[]).class(0x130, 0x120, &[])
    };
    gives(narrow().heap(tail), "12 at 83");
    let missing = |heap: File| heap.instance(0x201, 0x110, &[7]).class(0x110, 0x100, &[]).class(0x100, 0x99, &[]);
    gives(narrow().heap(missing), "12 at 101");
    let instance_above = |heap: File| heap.class(0x100, 0, &[]).instance(0x201, 0x100, &[]).class(0x110, 0x201, &[]);
    gives(narrow().heap(instance_above), "12 at 100");
    let below = |heap: File| heap.instance(0x201, 0x110, &[0]).class(0x110, 0x100, &[]).class(0x100, 0, &[]);
    gives(narrow().heap(below), "13 at 40");
}

#[test]
fn wide_and_arrays() {
    let file = File::header(8).string(1, b"[Ljava/lang/Object;").load(0x100, 1);
    let heap = |heap: File| {
        let array = heap.class(0x100, 0, &[]).objects(0x201, 0x100, &[0, 0x201, 0x999]);
        array.primitives(0x202, 11, 0, &[]).root(0x201).root(0x202)
    };
    gives(file.heap(heap), "1 24 [Ljava/lang/Object;, 1 0 <class>, 1 0 long[], R 3 24, U 0 0, X 1");
    gives(narrow().heap(|heap| heap.primitives(0x201, 11, 4_294_967_295, &[])), "6 at 40");
    gives(narrow().heap(|heap| heap.primitives(0x201, 2, 0, &[])), "7 at 40");
    gives(narrow().heap(|heap| heap.raw(&[1]).ids(&[0, 0]).raw(&[0x7A])), "5 at 49");
    let many: Vec<u64> = (0x301..=0x340).collect();
    let file = narrow().string(1, b"L").string(3, b"[LL;").load(0x100, 1).load(0x110, 3);
    let heap = |heap: File| {
        let array = heap.class(0x100, 0, &[]).class(0x110, 0, &[]).objects(0x200, 0x110, &many);
        many.iter().fold(array, |heap, object| heap.instance(*object, 0x100, &[])).root(0x200)
    };
    gives(file.heap(heap), "1 256 [LL;, 64 0 L, 2 0 <class>, R 67 256, U 0 0, X 0");
}

#[test]
fn names_and_rows() {
    let file = named().string(3, b"A \xc3").load(0x110, 1).load(0x120, 3);
    let heap = |heap: File| {
        let classes = heap.class(0x100, 0, &[]).class(0x110, 0, &[]).class(0x120, 0, &[]);
        let objects = classes.instance(0x201, 0x100, &[]).instance(0x202, 0x110, &[]).instance(0x203, 0x120, &[]);
        objects.root(0x201).root(0x202).root(0x203)
    };
    gives(file.heap(heap), "3 0 <class>, 1 0 A, 1 0 A, 1 0 A\\x20\\xc3, R 6 0, U 0 0, X 0");
    let heap = |heap: File| {
        let class = heap.class_with(0xab0, [0; 4], &[], &[(10, &id(7))]);
        class.instance(0x201, 0xab0, &[]).raw(&[8]).ids(&[0x201]).number(8, 0)
    };
    gives(narrow().heap(heap), "1 4 <class>, 1 0 ?0xab0, R 2 4, U 0 0, X 0");
}

#[test]
fn faults_of_links() {
    gives(narrow().heap(|heap| heap.class(0, 0, &[])), "9 at 40");
    gives(narrow().heap(|heap| heap.class(0x100, 0, &[]).class(0x100, 0, &[])), "10 at 83");
    gives(narrow().heap(|heap| heap.instance(0x201, 0x100, &[])), "11 at 40");
    gives(narrow().heap(|heap| heap.instance(0x100, 0x100, &[]).class(0x100, 0, &[])), "11 at 40");
    gives(narrow().heap(|heap| heap.instance(0x201, 0, &[]).class(0, 0, &[])), "11 at 40");
    let repeated = |heap: File| heap.instance(0x201, 0x100, &[]).class(0x100, 0, &[2]).class(0x100, 0, &[]);
    gives(narrow().heap(repeated), "13 at 40");
    let far = |heap: File| heap.class(0x200, 0, &[]).class(0x100, 0, &[]).class(0x300, 0, &[]).class(0x200, 0, &[]);
    gives(narrow().heap(far), "10 at 169");
}

#[test]
fn ids_that_name_nothing() {
    let file = named().heap(|heap| {
        let classes = heap.class(0x100, 0, &[2]).class_with(0x110, [0; 4], &[], &[(2, &id(0x901))]);
        let instances = classes.instance(0x201, 0x100, &id(0x902)).instance(0x202, 0x100, &id(0x903));
        instances.objects(0x203, 0x100, &[0x904, 0, 0x201, 0x905]).root(0x201).root(0x906)
    });
    gives(file.clone(), "1 4 A, 1 0 <class>, R 2 4, U 3 24, X 6");
    for table in [true, false] {
        let all = short(&file, &Skip::default(), Options { threads: None, atomic: false, table, all: true });
        assert_eq!(all, "3 24 A, 2 4 <class>, R 5 28, U 0 0, X 6");
    }
}

#[test]
fn references_of_a_class() {
    let values = id(0x205);
    let heap = |heap: File| {
        let class =
            heap.class_with(0x100, [0, 0x202, 0x203, 0x204], &[], &[(2, &values), (10, &id(0x206)), (2, &id(0x999))]);
        (0x202..=0x206).fold(class, |heap, object| heap.instance(object, 0x100, &[])).root(0x100)
    };
    gives(named().heap(heap), "1 12 <class>, 4 0 A, R 5 12, U 1 0, X 1");
    let reserved = |heap: File| {
        let class = heap.class(0x100, 0, &[]).instance(0x201, 0x100, &[]).root(0x100);
        let mut bytes = class.bytes;
        bytes[1 + 4 + 4 + 5 * 4 + 2] = 2;
        bytes[1 + 4 + 4 + 5 * 4 + 3] = 1;
        File { id: 4, bytes }
    };
    gives(named().heap(reserved), "1 0 <class>, R 1 0, U 1 0, X 0");
}

#[test]
fn fields_that_are_skipped() {
    let named = narrow().string(1, b"java/lang/ref/Reference").string(2, b"referent").string(3, b"T");
    let file = named.load(0x100, 1).load(0x110, 3).heap(|heap| {
        let classes = heap.class(0x100, 0, &[2]).class(0x110, 0x100, &[2]);
        let two = |one, other| [id(one), id(other)].concat();
        let first = classes.instance(0x201, 0x110, &two(0x202, 0x203));
        first.instance(0x202, 0x110, &two(0, 0)).instance(0x203, 0x110, &two(0, 0x999)).root(0x201)
    });
    let gives = |list, wanted| gives_without(&file, &Skip::new(list).unwrap(), wanted);
    gives_without(&file, &Skip::default(), "3 24 T, 2 0 <class>, R 5 24, U 0 0, X 1");
    gives("T.other", "3 24 T, 2 0 <class>, R 5 24, U 0 0, X 1");
    gives("java/lang/ref/Reference.referent", "2 16 T, 2 0 <class>, R 4 16, U 1 8, X 0");
    gives("T.referent", "2 16 T, 2 0 <class>, R 4 16, U 1 8, X 1");
    gives("T.referent,java/lang/ref/Reference.referent", "1 8 T, 2 0 <class>, R 3 8, U 2 16, X 0");
    for list in ["referent", "T.", ".f", "T.f,,U.g", "", "T.f,", &"T.f,".repeat(64), &["T.f"; 65].join(",")] {
        assert!(Skip::new(list).is_none(), "{list}");
    }
    assert!(Skip::new(&["T.f"; 64].join(",")).is_some());
}
