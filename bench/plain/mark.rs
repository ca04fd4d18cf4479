//! Marking from the roots, with a tally of what is marked: by one thread, or by several that share chunks of work.

use crate::graph::Graph;
use crate::tally::{Rows, Sum, Tally, Visit};
use std::sync::atomic::{AtomicU8, AtomicU64, AtomicUsize, Ordering::Relaxed, Ordering::SeqCst};
use std::sync::{Condvar, Mutex};
use std::thread;

/// Objects by number, each to be visited once.
pub trait Heap: Sync {
    fn objects(&self) -> usize;

    fn rows(&self) -> Rows;

    /// Passes to `take` each object that `object` refers to.
    fn visit(&self, object: u32, take: impl FnMut(u32)) -> Visit;
}

/// Read from the dump's bytes, with a look-up for each reference.
impl<const ID: usize> Heap for Graph<'_, ID> {
    fn objects(&self) -> usize {
        self.len()
    }

    fn rows(&self) -> Rows {
        self.rows()
    }

    fn visit(&self, object: u32, take: impl FnMut(u32)) -> Visit {
        self.visit(object, take)
    }
}

/// What visits yielded beforehand: one list of all references, and for each object its row, its bytes, and where in the
/// list its references begin.
pub struct Table {
    rows: Rows,
    entries: Vec<Entry>,
    targets: Vec<u32>,
}

#[derive(Clone, Copy)]
struct Entry {
    begin: u32,
    row: u32,
    bytes: u32,
}

impl Table {
    /// The table, and how many references name no object.
    pub fn new<const ID: usize>(graph: &Graph<ID>) -> (Table, u64) {
        let mut table = Table { rows: graph.rows(), entries: Vec::with_capacity(graph.len()), targets: vec![] };
        let mut missing = 0;
        for object in 0..graph.len() as u32 {
            let begin = table.targets.len() as u32;
            let Visit { row, bytes, unresolved } = graph.visit(object, |target| table.targets.push(target));
            table.entries.push(Entry { begin, row, bytes });
            missing += u64::from(unresolved);
        }
        (table, missing)
    }

    pub fn references(&self) -> usize {
        self.targets.len()
    }
}

impl Heap for Table {
    fn objects(&self) -> usize {
        self.entries.len()
    }

    fn rows(&self) -> Rows {
        self.rows
    }

    fn visit(&self, object: u32, take: impl FnMut(u32)) -> Visit {
        let Entry { begin, row, bytes } = self.entries[object as usize];
        let end = self.entries.get(object as usize + 1).map_or(self.targets.len(), |next| next.begin as usize);
        self.targets[begin as usize..end].iter().copied().for_each(take);
        Visit { row, bytes, unresolved: 0 }
    }
}

/// For each object whether it is reachable, and the tally of those that are.
pub fn mark(heap: &impl Heap, roots: &[u32]) -> (Vec<bool>, Tally) {
    let mut marks = vec![false; heap.objects()];
    let mut tally = Tally::new(heap.rows());
    let mut stack = vec![];
    let mut claim = |object: u32, stack: &mut Vec<u32>| {
        if !std::mem::replace(&mut marks[object as usize], true) {
            stack.push(object);
        }
    };
    roots.iter().for_each(|root| claim(*root, &mut stack));
    while let Some(object) = stack.pop() {
        tally.add(heap.visit(object, |target| claim(target, &mut stack)));
    }
    (marks, tally)
}

/// The number of objects whose marks, two bits each, are in one word.
const A_WORD: u32 = 32;

/// The number of recently met objects that are known without a look at their marks.
const SEEN: usize = 4096;

/// Like `mark`, with the atomic steps of a worker that is not the only one: one step claims an object, one finishes it.
/// An object that was met recently is not claimed again.
pub fn mark_atomically(heap: &impl Heap, roots: &[u32]) -> (Vec<bool>, Tally) {
    let words: Vec<_> = (0..heap.objects().div_ceil(A_WORD as usize)).map(|_| AtomicU64::new(0)).collect();
    let word = |object: u32| &words[(object / A_WORD) as usize];
    let claimed = |object: u32| 1 << (2 * (object % A_WORD));
    let mut seen = [u32::MAX; SEEN];
    let mut tally = Tally::new(heap.rows());
    let mut stack = vec![];
    let mut claim = |object: u32, stack: &mut Vec<u32>| {
        if std::mem::replace(&mut seen[object as usize % SEEN], object) == object {
            return;
        }
        if word(object).fetch_or(claimed(object), SeqCst) & claimed(object) == 0 {
            stack.push(object);
        }
    };
    roots.iter().for_each(|root| claim(*root, &mut stack));
    while let Some(object) = stack.pop() {
        tally.add(heap.visit(object, |target| claim(target, &mut stack)));
        word(object).fetch_or(2 * claimed(object), SeqCst);
    }
    let marks = (0..heap.objects() as u32).map(|object| word(object).load(Relaxed) & claimed(object) != 0);
    (marks.collect(), tally)
}

/// Marks each object, as if all were reachable.
pub fn mark_all(heap: &impl Heap) -> (Vec<bool>, Tally) {
    let mut tally = Tally::new(heap.rows());
    (0..heap.objects() as u32).for_each(|object| tally.add(heap.visit(object, |_| {})));
    (vec![true; heap.objects()], tally)
}

/// The sum of the objects that are not marked, and how many of their references name no object.
pub fn unmarked(heap: &impl Heap, marks: &[bool]) -> (Sum, u64) {
    let (mut sum, mut unresolved) = (Sum::default(), 0);
    for (object, _) in (0..).zip(marks).filter(|(_, marked)| !**marked) {
        let visit = heap.visit(object, |_| {});
        sum.add(visit.sum());
        unresolved += u64::from(visit.unresolved);
    }
    (sum, unresolved)
}

const CHUNK: usize = 64;

/// Chunks of objects that are marked and not scanned yet.
struct Waiting {
    chunks: Vec<Vec<u32>>,
    hungry: usize,
}

struct Workers<'a, H> {
    heap: &'a H,
    marks: Vec<AtomicU8>,
    threads: usize,
    waiting: Mutex<Waiting>,
    came: Condvar,
    /// The same number as `Waiting::hungry`, to be read without the lock.
    hungry: AtomicUsize,
}

/// Like `mark`, with `threads` workers. Each has a tally of its own, of what it visits.
pub fn mark_with(threads: usize, heap: &impl Heap, roots: &[u32]) -> (Vec<bool>, Tally) {
    let marks: Vec<_> = (0..heap.objects()).map(|_| AtomicU8::new(0)).collect();
    let waiting = Mutex::new(Waiting { chunks: vec![], hungry: 0 });
    let workers = Workers { heap, marks, threads, waiting, came: Condvar::new(), hungry: AtomicUsize::new(0) };
    let mut stack = vec![];
    roots.iter().for_each(|root| workers.claim(*root, &mut stack));
    let part = stack.len() / threads + 1;
    workers.waiting.lock().unwrap().chunks.extend(stack.chunks(part).map(<[u32]>::to_vec));
    let mut tally = Tally::new(heap.rows());
    thread::scope(|scope| {
        let started: Vec<_> = (0..threads).map(|_| scope.spawn(|| workers.work())).collect();
        started.into_iter().for_each(|worker| tally.join(worker.join().unwrap()));
    });
    (workers.marks.into_iter().map(|mark| mark.into_inner() != 0).collect(), tally)
}

impl<H: Heap> Workers<'_, H> {
    fn claim(&self, object: u32, stack: &mut Vec<u32>) {
        let mark = &self.marks[object as usize];
        if mark.load(Relaxed) == 0 && mark.swap(1, Relaxed) == 0 {
            stack.push(object);
        }
    }

    fn work(&self) -> Tally {
        let mut tally = Tally::new(self.heap.rows());
        while let Some(mut stack) = self.next_chunk() {
            while let Some(object) = stack.pop() {
                tally.add(self.heap.visit(object, |target| self.claim(target, &mut stack)));
                if stack.len() >= 2 * CHUNK && self.hungry.load(Relaxed) > 0 {
                    self.share(&mut stack);
                }
            }
        }
        tally
    }

    /// Gives away the oldest half of `stack`, in chunks.
    fn share(&self, stack: &mut Vec<u32>) {
        let oldest: Vec<u32> = stack.drain(..stack.len() / 2).collect();
        let mut waiting = self.waiting.lock().unwrap();
        waiting.chunks.extend(oldest.chunks(CHUNK).map(<[u32]>::to_vec));
        self.came.notify_all();
    }

    /// Waits for a chunk as long as another worker may still share one, and returns it; None if all work is done.
    fn next_chunk(&self) -> Option<Vec<u32>> {
        let mut waiting = self.waiting.lock().unwrap();
        waiting.hungry += 1;
        self.hungry.store(waiting.hungry, Relaxed);
        loop {
            if let Some(chunk) = waiting.chunks.pop() {
                waiting.hungry -= 1;
                self.hungry.store(waiting.hungry, Relaxed);
                return Some(chunk);
            }
            if waiting.hungry == self.threads {
                self.came.notify_all();
                return None;
            }
            waiting = self.came.wait(waiting).unwrap();
        }
    }
}
