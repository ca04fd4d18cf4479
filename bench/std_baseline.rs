//! The work of `pool_bench` with only std: claims on bits of atomic words, and pops and pushes on a plain stack with a
//! tagged head.
//!
//! It takes the same arguments as `pool_bench`, and writes the same to standard output. The times go to standard error.
//! For the third time, each pop also takes a vector out of the slot of the popped number, and puts it back before the
//! push. `pool_bench` has one time of pops and pushes: `pool.sh` compares it with the second and with the third here.

use std::cell::UnsafeCell;
use std::hint::black_box;
use std::ops::Range;
use std::process::ExitCode;
use std::sync::atomic::{AtomicU64, Ordering::SeqCst};
use std::thread;
use std::time::Instant;

const BUFFERS: u64 = 64;
const SIZE: usize = 256;
const TAG: u64 = 65_536;

/// A stack of numbers. The head is tag × 65,536 + link. A link is 0 for none, otherwise a number plus 1. The
/// head's link is for the number on top.
struct Stack {
    head: AtomicU64,
    links: Vec<AtomicU64>,
}

impl Stack {
    fn new() -> Stack {
        let links = (1..=BUFFERS).map(|next| if next < BUFFERS { next + 1 } else { 0 });
        Stack {
            head: AtomicU64::new(1),
            links: links.map(AtomicU64::new).collect(),
        }
    }

    fn pop(&self) -> Option<u64> {
        loop {
            let head = self.head.load(SeqCst);
            let top = (head % TAG).checked_sub(1)?;
            let link = self.links[top as usize].load(SeqCst);
            let next = (head / TAG + 1) * TAG + link;
            if self.head.compare_exchange(head, next, SeqCst, SeqCst).is_ok() {
                return Some(top);
            }
        }
    }

    fn push(&self, top: u64) {
        loop {
            let head = self.head.load(SeqCst);
            self.links[top as usize].store(head % TAG, SeqCst);
            let next = (head / TAG + 1) * TAG + top + 1;
            if self.head.compare_exchange(head, next, SeqCst, SeqCst).is_ok() {
                return;
            }
        }
    }
}

/// A slot for each number, which has a vector while the number is on the stack.
struct Slots(Vec<UnsafeCell<Option<Vec<u32>>>>);

// SAFETY: a thread touches a slot only between its pop of that number and its push.
unsafe impl Sync for Slots {}

impl Slots {
    fn new() -> Slots {
        let vectors = (0..BUFFERS).map(|_| Some(Vec::with_capacity(SIZE)));
        Slots(vectors.map(UnsafeCell::new).collect())
    }

    /// Requires that the caller has popped `number`, and not pushed it since.
    unsafe fn replace(&self, number: u64, vector: Option<Vec<u32>>) -> Option<Vec<u32>> {
        unsafe { std::mem::replace(&mut *self.0[number as usize].get(), vector) }
    }
}

/// The number of objects whose marks, two bits each, are in one word.
const MARKS_OF_A_WORD: u64 = 32;

/// Claims `object`, and returns whether it was white.
fn claim(marks: &[AtomicU64], object: u64) -> bool {
    let bit = 1 << (2 * (object % MARKS_OF_A_WORD));
    marks[(object / MARKS_OF_A_WORD) as usize].fetch_or(bit, SeqCst) & bit == 0
}

/// Claims the objects of `part`, and returns how many were white.
fn claim_part(marks: &[AtomicU64], part: Range<u64>) -> u64 {
    part.filter(|object| claim(marks, *object)).count() as u64
}

/// Claims each object in the rows of thread `number`, `passes` times over, and returns how many were white. A row is
/// `row` neighbouring objects; the threads have the rows in turn.
fn claim_passes(marks: &[AtomicU64], objects: u64, row: u64, threads: u64, number: u64, passes: u64) -> u64 {
    let rows_of_all = row * threads;
    let mut white = 0;
    for _ in 0..passes {
        for round in 0..objects.div_ceil(rows_of_all) {
            let from = round * rows_of_all + number * row;
            white += claim_part(marks, from..(from + row).min(objects));
        }
    }
    white
}

/// Pops a number and pushes it again, `turns` times. Returns the number of turns that popped one.
fn take_turns(stack: &Stack, turns: u64) -> u64 {
    let mut moved = 0;
    for _ in 0..turns {
        if let Some(top) = stack.pop() {
            stack.push(top);
            moved += 1;
        }
    }
    moved
}

/// Like `take_turns`, but also takes the vector out of the number's slot and puts it back.
fn take_turns_with(stack: &Stack, slots: &Slots, turns: u64) -> u64 {
    let mut moved = 0;
    for _ in 0..turns {
        if let Some(top) = stack.pop() {
            // SAFETY: the number was popped just now, and is pushed after the second call.
            let vector = black_box(unsafe { slots.replace(top, None) });
            moved += u64::from(vector.is_some());
            unsafe { slots.replace(top, vector) };
            stack.push(top);
        }
    }
    moved
}

/// Runs `work` on `threads` threads, this one among them. Prints the time from the start until the last of them has
/// ended, and returns the sum of their results.
fn timed(name: &str, threads: u64, work: impl Fn(u64) -> u64 + Sync) -> u64 {
    let start = Instant::now();
    let sum = thread::scope(|scope| {
        let work = &work;
        let others: Vec<_> = (1..threads).map(|number| scope.spawn(move || work(number))).collect();
        work(0) + others.into_iter().map(|thread| thread.join().unwrap()).sum::<u64>()
    });
    eprintln!("{name} took {} ns", start.elapsed().as_nanos());
    sum
}

fn run(threads: u64, objects: u64, row: u64, passes: u64, turns: u64) {
    let words = objects.div_ceil(MARKS_OF_A_WORD);
    let marks: Vec<AtomicU64> = (0..words).map(|_| AtomicU64::new(0)).collect();
    let white = timed("claims", threads, |number| claim_passes(&marks, objects, row, threads, number, passes));
    println!("claims {}\nwhite {white}", objects * passes);

    let stack = Stack::new();
    let moved = timed("pops and pushes", threads, |_| take_turns(&stack, turns));
    println!("pops {moved}\npushes {moved}");

    let slots = Slots::new();
    let moved_with = timed("pops and pushes of vectors", threads, |_| take_turns_with(&stack, &slots, turns));
    assert_eq!(moved_with, moved);
}

fn main() -> ExitCode {
    let words: Vec<u64> = std::env::args().skip(1).filter_map(|word| word.parse().ok()).collect();
    let [threads @ 1..=64, objects, row @ 1..=u64::MAX, passes, turns] = words[..] else {
        eprintln!("usage: std_baseline THREADS OBJECTS ROW PASSES TURNS");
        return ExitCode::from(2);
    };
    run(threads, objects, row, passes, turns);
    ExitCode::SUCCESS
}
