//! A plain marker of heap dumps: the same method and the same report as `heapmark`, with only Rust's std and no proof.
//!
//! usage: `plain FILE [--threads N] [--atomic] [--references table|bytes] [--count reachable|all] [--skip LIST]`
//!        `plain FILE --labels LABELS`
//!
//! Written to be measured beside `heapmark`, and to agree with it to the byte. Without `--threads` one thread marks and
//! no step is atomic; with `--atomic` one thread claims each object by one atomic step, and finishes it by another.
//! Each object is visited once, to follow its references and to count it: in the dump's bytes with
//! `--references bytes`, otherwise in a table that is made from the bytes beforehand, in the phase `references`.
//! `--count all` reports each object of the dump as if it were reachable. `--skip Class.field,..` does not follow these
//! fields. The time of each phase, what was read, and the peak of memory go to standard error.
//!
//! With `--labels` it is `retained`: for each reachable object it finds the labels without which the object would not
//! be reachable, by one thread in the dump's bytes, and writes how many objects have which set of labels, by class and
//! by the remainder of their bytes.

mod by_id;
mod dump;
mod flow;
mod graph;
mod index;
mod labels;
mod mark;
mod names;
mod objects;
mod options;
mod places;
mod ranks;
mod report;
#[cfg(test)]
mod rows;
mod sets;
mod skip;
mod table;
mod tally;

use dump::{Fault, LIMIT, Text, identifier_size};
use flow::{Order, flow};
use graph::Graph;
use labels::{Entry, label_count};
use mark::{Heap, Table, mark, mark_all, mark_atomically, mark_with, unmarked};
use objects::Objects;
use options::{Options, READ_FAULT, Task, arguments, task_of};
use places::LabelledGraph;
use sets::Sets;
use skip::Skip;
use std::fs::File;
use std::io::{self, Read, Write};
use std::process::ExitCode;
use std::time::Instant;

const NAMES: [&str; 14] = [
    "BadHeader",
    "BadIdSize",
    "Truncated",
    "BadLength",
    "BadSubTag",
    "SubTruncated",
    "BadType",
    "DumpOrder",
    "ZeroObject",
    "DuplicateObject",
    "UnknownClass",
    "SuperChain",
    "InstanceSize",
    "TooLarge",
];

/// Prints the time from the end of one phase to the end of the next.
struct Clock(Instant);

impl Clock {
    fn tell(&mut self, phase: &str) {
        eprintln!("{phase} took {} ns", self.0.elapsed().as_nanos());
        self.0 = Instant::now();
    }
}

fn read_file(name: &str) -> io::Result<Vec<u8>> {
    let file = File::open(name)?;
    let size = file.metadata()?.len().min(LIMIT as u64 + 1);
    let mut bytes = Vec::with_capacity(size as usize + 1);
    file.take(LIMIT as u64 + 1).read_to_end(&mut bytes)?;
    Ok(bytes)
}

/// The graph of the dump, without these fields.
fn linked<'a, const ID: usize>(bytes: &'a [u8], skip: &Skip, clock: &mut Clock) -> Result<Graph<'a, ID>, Fault> {
    let text = Text::<ID> { bytes };
    let dump = text.parse()?;
    clock.tell("parse");
    let objects = Objects::of(text, &dump);
    clock.tell("index");
    let graph = Graph::new(text, dump, objects, skip)?;
    clock.tell("link");
    eprintln!("objects {}", graph.len());
    Ok(graph)
}

fn run<const ID: usize>(bytes: &[u8], task: &Task, clock: &mut Clock) -> Result<String, Fault> {
    match task {
        Task::Report(options, skip) => Ok(reported(&linked::<ID>(bytes, skip, clock)?, *options, clock)),
        Task::Table(entries) => Ok(labelled(&linked::<ID>(bytes, &Skip::default(), clock)?, entries, clock)),
    }
}

/// The report.
fn reported<const ID: usize>(graph: &Graph<ID>, options: Options, clock: &mut Clock) -> String {
    let (roots, unresolved) = graph.roots();
    if !options.table {
        return histogram(graph, graph, &roots, unresolved, options, clock);
    }
    let (table, missing) = Table::new(graph);
    clock.tell("references");
    eprintln!("references {}", table.references());
    histogram(graph, &table, &roots, unresolved + missing, options, clock)
}

/// The table of labels.
fn labelled<const ID: usize>(graph: &Graph<ID>, entries: &[Entry], clock: &mut Clock) -> String {
    let mut sets = Sets::new(label_count(entries));
    let labelled = LabelledGraph::new(graph, entries, &mut sets);
    clock.tell("labels");
    let order = Order::new(&labelled);
    clock.tell("order");
    let (set_of, sweeps, visits) = flow(&labelled, &order, &mut sets);
    clock.tell("flow");
    eprintln!("sweeps {sweeps}\nvisits {visits}\nsets {}", sets.len());
    let text = table::table(graph, &sets, &set_of);
    clock.tell("table");
    text
}

/// Marks the objects of the graph and returns the report. `unresolved` is the number of IDs already known to name none.
fn histogram<const ID: usize>(
    graph: &Graph<ID>,
    heap: &impl Heap,
    roots: &[u32],
    unresolved: u64,
    options: Options,
    clock: &mut Clock,
) -> String {
    let (marks, reachable) = match options.threads {
        _ if options.all => mark_all(heap),
        None if options.atomic => mark_atomically(heap, roots),
        None => mark(heap, roots),
        Some(threads) => mark_with(threads, heap, roots),
    };
    clock.tell("mark");
    let (unreachable, missing) = unmarked(heap, &marks);
    report::report(graph, &reachable, unreachable, unresolved + reachable.unresolved + missing)
}

fn printed(bytes: &[u8], task: &Task, clock: &mut Clock) -> Result<String, Fault> {
    match identifier_size(bytes)? {
        4 => run::<4>(bytes, task, clock),
        _ => run::<8>(bytes, task, clock),
    }
}

fn tell_peak() {
    let status = std::fs::read_to_string("/proc/self/status").unwrap_or_default();
    let peak = status.lines().find_map(|line| line.strip_prefix("VmHWM:"));
    eprintln!("peak {}", peak.unwrap_or("unknown").trim());
}

fn main() -> ExitCode {
    let Some((file, words)) = arguments() else {
        eprintln!("usage: plain FILE [--threads N] [--atomic] [--references table|bytes] [--count reachable|all]");
        eprintln!("       [--skip LIST]");
        eprintln!("       plain FILE --labels LABELS");
        return ExitCode::from(2);
    };
    let task = match task_of(words) {
        Ok(task) => task,
        Err(refusal) => {
            eprintln!("plain: refused {refusal}");
            return ExitCode::FAILURE;
        }
    };
    let mut clock = Clock(Instant::now());
    let Ok(bytes) = read_file(&file) else {
        eprintln!("plain: refused {READ_FAULT}");
        return ExitCode::FAILURE;
    };
    clock.tell("read");
    eprintln!("file {}", bytes.len());
    match printed(&bytes, &task, &mut clock) {
        Ok(text) => {
            let written = io::stdout().write_all(text.as_bytes());
            clock.tell("report");
            tell_peak();
            if written.is_ok() { ExitCode::SUCCESS } else { ExitCode::FAILURE }
        }
        Err(Fault { code, at }) => {
            eprintln!("plain: refused {code} {} at {at}", NAMES[usize::from(code) - 1]);
            ExitCode::FAILURE
        }
    }
}
