"""Wrong and right lines that `dev/check_source_test` puts into sources, and what `dev/check_source` says of each."""

from __future__ import annotations

CLAIM, LEADER = "buffer_pool/src/pool/claim_and_finish.rt", "drain/src/leader.rt"
PIPELINE, PAUSE = "heapmark/src/pipeline.rt", "drain/src/pause.rt"
COMMAND, DUMPS = "heapmark/src/command.rt", "front_end/src/dumps.rt"
WORDS, MAIN = "front_end/src/command_words.rt", "heapmark/src/main.rt"
UNMET, HINT = "heapmark/src/unmet_skips.rt", "heapmark/src/hint.rt"
HOOKS, COUNTED = "drain/src/hooks.rt", "histogram/src/counted/calls.rt"
CONVERSIONS, READING = "front_end/src/refusal/from_parts.rt", "histogram/src/read_to_limit.rt"
CODES, THREADS = "front_end/src/refusal/codes.rt", "drain/src/worker_threads.rt"
SPENT = "buffer_pool/src/spent_tag.rt"
HASH, CLASSES, TABLE = (f"heap_graph/src/{it}.rt" for it in ("classes/hash", "objects/class_table", "classes/table"))

#: A lock beside the table, as a proved body had it: a claim spins on an atomic word of the pool's own.
BESIDE_THE_TABLE = """
use std::sync::atomic::{AtomicU64, Ordering};
pub struct Guard { lock: AtomicU64 }
pub fn claimed(guard: &Guard) -> bool {
    for _ in 0..u64::MAX {
        if guard.lock.compare_exchange(0, 1, Ordering::SeqCst, Ordering::SeqCst).is_ok() { break; }
    }
    guard.lock.store(0, Ordering::SeqCst);
    true
}
"""

#: Texts that are put at the end of a file, and the words that are reported, each with its rule.
FOUND = [
    ("a lock beside the table", CLAIM, BESIDE_THE_TABLE, ["atomic (locks)", "AtomicU64 (locks)", "AtomicU64 (locks)"]),
    ("a mutex", LEADER, "use std::sync::Mutex;", ["Mutex (locks)"]),
    (
        "a mutex among other names",
        LEADER,
        "use std::sync::{Wait, RwLock as Room};",
        ["RwLock (locks)", "Room (threads)"],
    ),
    ("all of a module", LEADER, "use std::sync::*;", ["* (threads)"]),
    ("a module under another name", LEADER, "use std::sync as waiting;", ["as (threads)"]),
    ("a path in a body", LEADER, "fn f() { let _once = std::sync::OnceLock::<u8>::new(); }", ["OnceLock (locks)"]),
    ("parking outside the pause", LEADER, "use std::thread::Parker;", ["Parker (locks)"]),
    ("parking by a call", LEADER, "fn f(p: &P) { p.park_timeout(1); }", ["park_timeout (locks)"]),
    ("another way to pause", PAUSE, "fn f(p: &P) { p.park(); }", ["park (locks)"]),
    ("spinning", LEADER, "fn f() { std::hint::spin_loop(); }", ["spin_loop (locks)"]),
    ("the table outside the pool", LEADER, "use atomic_table::Table;", ["atomic_table (locks)"]),
    ("a fence", CLAIM, "fn f() { fence(Ordering::SeqCst); }", ["fence (locks)"]),
    ("unsafe code", CLAIM, "fn f(p: *mut u8) { unsafe { *p = 0; } }", ["unsafe (locks)"]),
    ("parts beside a team", PIPELINE, "fn f(t: &T) { thread::map_chunks(t, a, s, 1, &g); }", ["map_chunks (threads)"]),
    ("a thread of one's own", PIPELINE, "use std::thread::{Threads, spawn};", ["spawn (threads)"]),
    (
        "a return without a call",
        PIPELINE,
        "fn f() -> Result<(), Refusal> { return Err(Refusal::OUT_OF_MEMORY); }",
        ["OUT_OF_MEMORY (memory)"],
    ),
    (
        "a tail without a call",
        "drain/src/supplies.rt",
        "fn f() -> Result<u8, AllocError> { Err(AllocError) }",
        ["AllocError (memory)"],
    ),
    (
        "an arm of a call that went well",
        PIPELINE,
        "fn f() -> R { match a.push(1) { Ok(_) => Err(E::OutOfMemory), Err(e) => Err(e) } }",
        ["OutOfMemory (memory)"],
    ),
    (
        "an arm of both",
        PIPELINE,
        "fn f() -> R { match a.push(1) { Err(_) | Ok(12) => Err(E::OutOfMemory), Ok(x) => h(x) } }",
        ["OutOfMemory (memory)"],
    ),
    (
        "after an arm of a failed call",
        PIPELINE,
        "fn f() -> R { match a.push(1) { Err(e) => { h(e) } Ok(_) => Err(E::OutOfMemory) } }",
        ["OutOfMemory (memory)"],
    ),
    (
        "a failed call that allocates nothing",
        PIPELINE,
        "fn f(n: u32) -> R { match u8::try_from(n) { Err(_) => Err(E::OutOfMemory), Ok(x) => h(x) } }",
        ["OutOfMemory (memory)"],
    ),
    (
        "a failure by itself",
        PIPELINE,
        "fn f() -> R { let full: Result<(), ()> = Err(()); "
        "match full { Err(_) => Err(E::OutOfMemory), Ok(_) => h() } }",
        ["OutOfMemory (memory)"],
    ),
    (
        "a failure by itself, in a let else",
        PIPELINE,
        "fn f() -> R { let Ok(_) = full else { return Err(E::OutOfMemory); }; h() }",
        ["OutOfMemory (memory)"],
    ),
    (
        "a missing value, mapped",
        PIPELINE,
        "fn f() -> R { x.ok_or(()).map_err(|_| E::OutOfMemory) }",
        ["OutOfMemory (memory)"],
    ),
    (
        "a call that went on",
        PIPELINE,
        "fn f() -> R { match a.push(1).and_then(g) { Err(_) => Err(E::OutOfMemory), Ok(x) => h(x) } }",
        ["OutOfMemory (memory)"],
    ),
    (
        "an arm for the code",
        PIPELINE,
        "fn f(n: u8) -> R { match n { OUT_OF_MEMORY => Err(Refusal::OUT_OF_MEMORY), _ => h() } }",
        ["OUT_OF_MEMORY (memory)"],
    ),
    (
        "a return in a comparison",
        PIPELINE,
        "fn f() -> R { let _ = matches!(return Err(E::OutOfMemory), _); h() }",
        ["OutOfMemory (memory)"],
    ),
    (
        "after the block of a failed call",
        PIPELINE,
        "fn f() -> R { if a.push(1).is_err() { h(); } return Err(E::OutOfMemory); }",
        ["OutOfMemory (memory)"],
    ),
    (
        "if a call went well",
        PIPELINE,
        "fn f() -> R { if a.push(1).is_ok() { return Err(E::OutOfMemory); } h() }",
        ["OutOfMemory (memory)"],
    ),
    (
        "unless a call failed",
        PIPELINE,
        "fn f() -> R { if !a.push(1).is_err() { return Err(E::OutOfMemory); } h() }",
        ["OutOfMemory (memory)"],
    ),
    (
        "if a call failed, or else",
        PIPELINE,
        "fn f() -> R { if n == 12 || a.push(1).is_err() { return Err(E::OutOfMemory); } h() }",
        ["OutOfMemory (memory)"],
    ),
    ("a missing value", PIPELINE, "fn f(x: Option<u8>) -> R { x.ok_or(E::OutOfMemory) }", ["OutOfMemory (memory)"]),
    (
        "a field",
        PIPELINE,
        "fn f() -> Refusal { Refusal { code: OUT_OF_MEMORY, offset: None } }",
        ["Refusal (codes)", "OUT_OF_MEMORY (memory)"],
    ),
    ("a constant", PIPELINE, "const FULL: Refusal = Refusal::OUT_OF_MEMORY;", ["OUT_OF_MEMORY (memory)"]),
    ("another name", PIPELINE, "use std::alloc::AllocError as Full;", ["AllocError (memory)"]),
    (
        "a conversion of another fault",
        PIPELINE,
        "impl From<Flaw> for Refusal { fn from(_flaw: Flaw) -> Refusal { Refusal::OUT_OF_MEMORY } }",
        ["OUT_OF_MEMORY (memory)"],
    ),
    (
        "a conversion that may be given none",
        PIPELINE,
        "fn from(_fault: Option<OutOfMemory>) -> Refusal { Refusal::OUT_OF_MEMORY }",
        ["OUT_OF_MEMORY (memory)"],
    ),
    (
        "a helper that is given a result",
        PIPELINE,
        "fn f(all: Result<u8, AllocError>) -> Result<u8, AllocError> { Err(AllocError) }",
        ["AllocError (memory)"],
    ),
    (
        "a refusal in the arm of another",
        PIPELINE,
        "fn f(e: E) -> R { match e { E::OutOfMemory => R::READ_FAULT, E::ReadFault => R::OUT_OF_MEMORY } }",
        ["OUT_OF_MEMORY (memory)"],
    ),
    (
        "a refused thread that nobody started",
        THREADS,
        "fn f() -> R { R::from(RunFault::WorkerRefused(RefusedThread(()))) }",
        ["RefusedThread (causes)"],
    ),
    ("a macro", PIPELINE, "macro_rules! unread { () => { Err(Refusal::READ_FAULT) } }", ["macro_rules (hidden)"]),
    ("tests that are no tests", LEADER, "mod tests;", ["tests (hidden)"]),
    (
        "an arm for tests",
        PIPELINE,
        "fn f(n: u8) -> R { match n { #[cfg(test)] 9 => h(), _ => Err(Refusal::OUT_OF_MEMORY) } }",
        ["cfg (hidden)", "OUT_OF_MEMORY (memory)"],
    ),
    (
        "any other fault",
        PIPELINE,
        "fn f(e: E) -> R { match e { fault if fault != E::OutOfMemory => R::OUT_OF_MEMORY, _ => h() } }",
        ["OUT_OF_MEMORY (memory)"],
    ),
    (
        "a failed call that starts nothing",
        THREADS,
        "fn f(n: u32) -> R { match u8::try_from(n) { Err(_) => Err(E::No(RefusedThread(()))), Ok(x) => h(x) } }",
        ["RefusedThread (causes)"],
    ),
    (
        "a hook, or else",
        THREADS,
        "fn f(job: &J) -> R { if !job.hook.may_start(1) || job.n == 63 { return Err(E::No(RefusedThread(()))); } g() }",
        ["RefusedThread (causes)"],
    ),
    (
        "a hook beside the marking",
        PIPELINE,
        "struct No; impl StartHook for No {}\nfn f() -> R { mark_where(rt, alloc, graph, options, gate, &No) }",
        ["StartHook (causes)", "mark_where (causes)"],
    ),
    (
        "options beside those of the words",
        PIPELINE,
        "fn f() -> R { let spent = Options::new(1, 2, 4, 9); g(spent) }",
        ["Options (causes)"],
    ),
    ("options under another name", PIPELINE, "use drain::Options as Choice;", ["Options (causes)"]),
    (
        "options by their type in brackets",
        PIPELINE,
        "fn f() -> R { g(<Options>::new(1, 2, 4, 9)) }",
        ["Options (causes)"],
    ),
    (
        "a pool beside the run's",
        PIPELINE,
        "use buffer_pool::Pool;\nfn f(a: A) -> R { g(Pool::new(a, &NoHeap, 4, 2, 281_474_976_710_655)?) }",
        ["Pool (causes)", "Pool (causes)"],
    ),
    (
        "a second pool of a marking",
        LEADER,
        "fn f(a: A) -> R { g(Pool::new(a, &NoHeap, 4, 2, 281_474_976_710_655)?) }",
        ["Pool (causes)"],
    ),
    (
        "another marking",
        PIPELINE,
        "fn f() -> R { mark(rt, alloc, &other(), options, gate) }",
        ["mark (causes)"],
    ),
    ("a marking under another name", PIPELINE, "use drain::mark as walk;", ["mark (causes)"]),
    (
        "the token of a tag that nobody loaded",
        SPENT,
        "pub fn of_pool() -> SpentTag { SpentTag { first_tag: 1 } }",
        ["SpentTag (causes)", "SpentTag (causes)"],
    ),
    (
        "such a token by its own name",
        SPENT,
        "impl Default for SpentTag { fn default() -> Self { Self { first_tag: 1 } } }",
        ["SpentTag (causes)", "Self (causes)", "Self (causes)"],
    ),
    (
        "such a token as a constant",
        SPENT,
        "pub const SPENT: SpentTag = SpentTag { first_tag: 1 };",
        ["SpentTag (causes)", "SpentTag (causes)"],
    ),
    ("a module that may make the token", SPENT, "pub mod more;", ["mod (causes)"]),
    (
        "a refused thread by its own name",
        THREADS,
        "impl RefusedThread { pub fn of_nobody() -> Self { Self(()) } }",
        ["Self (causes)", "Self (causes)"],
    ),
    (
        "a hook that lets a thread start",
        THREADS,
        "fn f(job: &J) -> R { if job.hook.may_start(1) { return Err(E::No(RefusedThread(()))); } g() }",
        ["RefusedThread (causes)"],
    ),
    (
        "a code by its number",
        PIPELINE,
        "fn f(g: &Graph) -> R { if g.len() > 400 { return Err(Refusal { code: 15, offset: None }); } h(g) }",
        ["Refusal (codes)"],
    ),
    (
        "a code that is set",
        PIPELINE,
        "fn f(r: &mut Refusal) { r.code = 16; r.code += 1; }",
        ["code (codes)", "code (codes)"],
    ),
    (
        "a code that is lent",
        PIPELINE,
        "fn f(r: &mut Refusal) { let code = &mut r.code; *code = 16; }",
        ["code (codes)"],
    ),
    (
        "a code that is replaced",
        PIPELINE,
        "fn f(r: &mut Refusal) { let _ = replace(&mut g(r).code, 16); }",
        ["code (codes)"],
    ),
    ("a code that is set by a method", PIPELINE, "fn f(r: &mut Refusal) { r.code.clone_from(&16); }", ["code (codes)"]),
    (
        "fields that are set",
        PIPELINE,
        "fn f(r: &mut Refusal) { let Refusal { code, .. } = r; *code = 16; }",
        ["Refusal (codes)"],
    ),
    (
        "a refusal of another one's fields",
        PIPELINE,
        "fn f(r: Refusal) -> Refusal { Refusal { code: 16, ..r } }",
        ["Refusal (codes)"],
    ),
    (
        "a constant beside the others",
        CODES,
        "impl Refusal { pub const ODD: Refusal = Refusal { code: 16, offset: None }; }",
        ["Refusal (codes)"],
    ),
    (
        "a constant of another code",
        CODES,
        "impl Refusal { const WRITE_FAULT: Refusal = Refusal { code: 16, offset: None }; }",
        ["Refusal (codes)"],
    ),
    ("a refusal under another name", PIPELINE, "use crate::refusal::Refusal as Outcome;", ["Refusal (codes)"]),
    ("a refusal as another type", PIPELINE, "type Outcome = Refusal;", ["Refusal (codes)"]),
    (
        "a refusal with its path as another type",
        PIPELINE,
        "type Outcome = crate::refusal::Refusal;",
        ["Refusal (codes)"],
    ),
    (
        "the items of a refusal",
        PIPELINE,
        "type Outcome = <Option<Refusal> as IntoIterator>::Item;",
        ["Refusal (codes)"],
    ),
    ("a file elsewhere", COMMAND, "fn f(rt: &T, a: &A) { let _ = fs::remove_file(rt, a.file); }", ["fs (system)"]),
    ("files in a bound", COMMAND, "fn f<T: Files>(rt: &T) {}", ["Files (system)"]),
    (
        "files beside the functions that open them",
        DUMPS,
        "fn f<T: Files>(rt: &T) { rt.remove_file(1) }",
        ["Files (system)", "rt (system)"],
    ),
    ("another function in the file that opens files", DUMPS, "fn f() -> io::Error { g() }", ["g (system)"]),
    ("other files under this name", DUMPS, "use crate::others as fs;", ["fs (system)"]),
    (
        "a file that is opened for a hint",
        PIPELINE,
        "fn f(rt: &T, name: &str) { g(rt.open_dump(name)) }",
        ["open_dump (system)"],
    ),
    ("another hasher", TABLE, "fn f() { g(FoldHasher::default()) }", ["FoldHasher (seed)"]),
    ("another hash of classes", HASH, "fn f() -> ClassHash { g() }", ["g (seed)"]),
    # Causes in other words.
    (
        "a binding with the name of the cause",
        PIPELINE,
        "fn f(n: usize) -> R { match n { OutOfMemory if OutOfMemory == 1 => Err(Refusal::OUT_OF_MEMORY), _ => h() } }",
        ["OUT_OF_MEMORY (memory)"],
    ),
    (
        "a variant with the name of the cause",
        PIPELINE,
        "enum E { Fault(u8), OutOfMemory }\n"
        "fn f(e: E) -> R { match e { E::OutOfMemory => R::OUT_OF_MEMORY, _ => h() } }",
        ["OutOfMemory (causes)"],
    ),
    ("an alias of a variant", PIPELINE, "use crate::Kind::First as OutOfMemory;", ["OutOfMemory (causes)"]),
    ("a failure of its own", PIPELINE, "struct AllocFailed;", ["AllocFailed (causes)"]),
    (
        "a method with the name of a call",
        PIPELINE,
        "impl P { fn push(&self) -> R { Err(()) } }",
        ["push (causes)"],
    ),
    (
        "a variable with the name of a call",
        PIPELINE,
        "fn f() -> R { let make_room = |_| Err(()); "
        "match make_room(1) { Err(_) => Err(E::OutOfMemory), Ok(()) => h() } }",
        ["make_room (causes)"],
    ),
    (
        "a parameter with the name of a call",
        PIPELINE,
        "fn f<P: Fn() -> R>(text_of: P) -> R { text_of().map_err(|_| E::OutOfMemory) }",
        ["text_of (causes)"],
    ),
    (
        "a fault of the bytes",
        PIPELINE,
        "fn f() -> R { Err(Refusal::from(ReadRefusal::Fault(FormatFault { code: 16, offset: 0 }))) }",
        ["FormatFault (codes)"],
    ),
    (
        "a fault of the links",
        LEADER,
        "fn f() -> R { Err(LinkRefusal::Fault(LinkFault { code: 18, offset: 0 })) }",
        ["LinkFault (codes)"],
    ),
    ("an offset that is set", PIPELINE, "fn f(mut r: Refusal) -> Refusal { r.offset = None; r }", ["offset (codes)"]),
    (
        "an offset that is lent",
        PIPELINE,
        "fn f(r: &mut Refusal) { g(&mut r.offset); }",
        ["offset (codes)"],
    ),
    ("an allocator of tests", PIPELINE, "use limited_heap::Limited;", ["limited_heap (memory)"]),
    ("dumps of tests", PIPELINE, "fn f() { test_dumps::two_objects(); }", ["test_dumps (memory)"]),
    (
        "another file that is read again",
        COMMAND,
        'fn f<T: Dumps>(rt: &T) -> Option<u64> { rt.position("app.hprof", rt.reopen_dump("other").ok()?) }',
        ["position (system)", "reopen_dump (system)"],
    ),
    ("the size of another file", COMMAND, 'fn f<T: Dumps>(rt: &T) { rt.dump_size("other"); }', ["dump_size (system)"]),
    ("a hook that refuses", HOOKS, "impl Few { fn f() -> bool { false } }", ["false (causes)"]),
    ("another conversion", CONVERSIONS, "impl F { fn g() -> u8 { 3 } }", ["3 (system)"]),
    ("another count", COUNTED, "impl<T> Counted<T> { fn g(&self) -> u64 { self.failures } }", ["self (causes)"]),
]
OPEN = "let file = fs::open(rt, name)?;"
PROCESS = "ExitCode::from(process(&rt, &rt, &mut out, &mut err, is_terminal))"
#: Texts of a file, what stands in place of each, and the words that are reported, each with its rule.
CHANGED = [
    (
        "another file if this one is missing",
        DUMPS,
        OPEN,
        'let file = match fs::open(rt, name) { Ok(file) => file, Err(_) => fs::open(rt, "app.hprof")? };',
        ["match (system)"],
    ),
    (
        "another file if this one is missing, by a function",
        DUMPS,
        OPEN,
        'let file = fs::open(rt, name).or_else(|_| fs::open(rt, "app.hprof"))?;',
        [". (system)"],
    ),
    ("another name under this one", DUMPS, OPEN, f'let name = "app.hprof"; {OPEN}', ["name (system)"]),
    (
        "another name from outside",
        DUMPS,
        "open(self, name)\n    }\n\n    fn position",
        "open(self, other(name))\n    }\n\n    fn position",
        ["other (system)"],
    ),
    ("a file that is removed", DUMPS, OPEN, f"{OPEN} let _ = fs::remove_file(rt, name);", ["_ (system)"]),
    ("a file that is removed by a method", DUMPS, OPEN, f"{OPEN} let _ = rt.remove_file(name);", ["_ (system)"]),
    (
        "a file that is opened to write",
        DUMPS,
        OPEN,
        "let file = OpenOptions::new().read(true).write(true).open(rt, name)?;",
        ["OpenOptions (system)"],
    ),
    ("a file that is opened twice", DUMPS, OPEN, f"{OPEN} let _ = fs::open(rt, name)?;", ["_ (system)"]),
    ("a file that is read before its time", DUMPS, OPEN, f"{OPEN} let _ = file.read(&mut [0; 4]);", ["_ (system)"]),
    (
        "a link that is not followed",
        DUMPS,
        OPEN,
        f"if fs::symlink_metadata(rt, name)?.is_symlink() {{ return Err(none()); }} {OPEN}",
        ["if (system)"],
    ),
    (
        "a pipe that is opened again",
        DUMPS,
        "if !fs::metadata(self, name)?.is_file() {",
        "if fs::metadata(self, name)?.is_dir() {",
        ["fs (system)"],
    ),
    (
        "a large file that is not opened",
        DUMPS,
        "if metadata.is_dir() {",
        "if metadata.is_dir() || metadata.len() > 400_000_000 {",
        ["|| (system)"],
    ),
    ("a position that is none", DUMPS, "reader.into_inner().stream_position().ok()", "None", ["None (system)"]),
    ("files for all who have dumps", DUMPS, "pub trait Dumps {", "pub trait Dumps: Files {", ["Files (system)"]),
    (
        "words that are left out",
        WORDS,
        "env::args(&(self, alloc))?.collect(alloc)?",
        "env::args(&(self, alloc))?.skip(1).collect(alloc)?",
        ["skip (system)"],
    ),
    (
        "a status of its own",
        MAIN,
        PROCESS,
        "process(&rt, &rt, &mut out, &mut err, is_terminal); ExitCode::from(0)",
        ["process (system)"],
    ),
    ("a file that main removes", MAIN, PROCESS, f'let _ = rt.remove_file("a"); {PROCESS}', ["let (system)"]),
    (
        "another file than that of the words",
        COMMAND,
        "rt.open_dump(arguments.file)",
        'rt.open_dump("app.hprof")',
        ['"" (system)'],
    ),
    (
        "another file whose fields are listed",
        UNMET,
        "bytes_again(rt, arguments.file)",
        'bytes_again(rt, "app.hprof")',
        ['"" (system)'],
    ),
    (
        "another file for a hint",
        HINT,
        "hint_of_memory(rt, file, workers)",
        'hint_of_memory(rt, if workers == 63 { "app.hprof" } else { file }, workers)',
        ["if (system)"],
    ),
    (
        "a last tag of its own",
        LEADER,
        "options.first_tag(),",
        "if objects == 63 { 9 } else { options.first_tag() },",
        ["if (causes)"],
    ),
    (
        "a refused thread by default",
        THREADS,
        "Debug, PartialEq, Eq)]\npub struct RefusedThread",
        "Debug, Default, PartialEq, Eq)]\npub struct RefusedThread",
        ["Default (causes)"],
    ),
    (
        "a spent tag by default",
        SPENT,
        "Debug, PartialEq, Eq)]",
        "Debug, Default, PartialEq, Eq)]",
        ["Default (causes)"],
    ),
    ("a hook of its own", LEADER, "gate, &StartsAll)", "gate, &StartsFew)", ["StartsFew (causes)"]),
    ("a seed of nothing", HASH, "self.hasher.write_u64(id);", "", ["} (seed)"]),
    ("a seed that is forgotten", HASH, "begun.write_u64(self.hasher.finish());", "", ["ClassHash (seed)"]),
    ("a seed of no class", CLASSES, "for number in class_dumps {", "for number in &class_dumps[..0] {", ["& (seed)"]),
    (
        "a seed of another list",
        CLASSES,
        "hash_of(&view, places, &indexed.class_dumps)",
        "hash_of(&view, places, &[])",
        ["[ (seed)"],
    ),
    ("a hasher without a seed", TABLE, "IndexMap::with_hasher(alloc, hash)", "IndexMap::new(alloc)", ["new (seed)"]),
    ("no terminal", MAIN, "let is_terminal = err.is_terminal();", "let is_terminal = false;", ["false (system)"]),
    ("no thread after the 62nd", HOOKS, "        true", "        _worker < 62", ["_worker (causes)"]),
    (
        "room for more than there is",
        READING,
        "Vec::with_capacity(alloc, self.expected().min(limit))",
        "Vec::with_capacity(alloc, 1 << 46)",
        ["1 (causes)"],
    ),
    (
        "a read that fails of its own",
        COUNTED,
        "let outcome = self.inner.read(buf);",
        "let outcome = "
        "if buf.len() == 63 { Err(io::Error::from(io::ErrorKind::Other)) } else { self.inner.read(buf) };",
        ["if (causes)"],
    ),
    (
        "a conversion into another refusal",
        CONVERSIONS,
        "ReaderRefusal::ReadFault => Refusal::READ_FAULT,",
        "ReaderRefusal::ReadFault => Refusal::WORKER_REFUSED,",
        ["WORKER_REFUSED (system)"],
    ),
    (
        "other words under the names of these",
        COMMAND,
        "let mut reader = match rt.open_dump(arguments.file) {",
        "let arguments = g();\n    let mut reader = match rt.open_dump(arguments.file) {",
        ["arguments (system)"],
    ),
    (
        "other options under this name",
        LEADER,
        "mark_where(rt, alloc, graph, options, gate, &StartsAll)",
        "let options = &g();\n    mark_where(rt, alloc, graph, options, gate, &StartsAll)",
        ["options (causes)"],
    ),
]
#: Texts in which nothing is wrong.
RIGHT = [
    ("comments", LEADER, "// A Mutex, an AtomicU64.\n/* Err(AllocError) */\n/// OutOfMemory\nfn f() {}"),
    ("texts", LEADER, 'fn f() -> &str { "Mutex" }\nfn g() -> &str { r#"AllocError " AtomicU64"# }'),
    ("characters and lifetimes", LEADER, "fn f<'a>(x: &'a u8) -> char { if *x == b'\"' { '\"' } else { '\\'' } }"),
    (
        "clauses and ghost items",
        LEADER,
        "ghost use Rattle.a.{OutOfMemory};\nfn f() -> R\n"
        "    ensures no_memory { IfErr result (λ e. e ≡ OutOfMemory) }\n    requires { Mutex }\n{ g() }",
    ),
    ("tests", LEADER, "#[cfg(test)]\nmod tests;"),
    (
        "an arm of a failed call",
        PIPELINE,
        "fn f() -> R { match a.push(1) { Ok(x) => h(x), Err(_) => Err(E::OutOfMemory) } }",
    ),
    (
        "a block in such an arm",
        PIPELINE,
        "fn f() -> R { let x = match line.texts(a) { Err(_) => { h(); Err(E::OutOfMemory) } Ok(x) => x }; x }",
    ),
    ("the fault of another type", PIPELINE, "fn f(e: E) -> R { match e { E::OutOfMemory => R::OUT_OF_MEMORY } }"),
    ("map_err", PIPELINE, "fn f() -> R { match b { true => a.b.push(1).map_err(|_| E::OutOfMemory), _ => h() } }"),
    ("map_err in a let", PIPELINE, "fn f() -> R { let x = a.push(1).map_err(|_| E::OutOfMemory); return x; }"),
    ("let else", PIPELINE, "fn f() -> R { let Ok(x) = format!(in a; 1) else { return Err(E::OutOfMemory); }; h(x) }"),
    ("is_err", PIPELINE, "fn f() -> R { if a.push(1).is_err() { return Err(E::OutOfMemory); } h() }"),
    ("a conversion", PIPELINE, "impl From<AllocError> for E { fn from(_e: AllocError) -> E { E::OutOfMemory } }"),
    (
        "patterns and types",
        PIPELINE,
        "fn f(r: R) -> bool { let g = || -> Result<u8, AllocError> { h() }; matches!(r, Err(E::OutOfMemory)) }",
    ),
    ("a variant", PIPELINE, "pub enum E { Fault(u8), Refused }"),
    ("the codes of others", PIPELINE, "fn f(fault: &mut Fault) -> u8 { g(&mut fault.length, fault.code) }"),
    (
        "codes that are compared",
        PIPELINE,
        "fn f(r: &Refusal) -> u8 { match r.code { OUT_OF_MEMORY if g() => 1, code => h(code == OUT_OF_MEMORY) } }",
    ),
    ("a refusal as a result", PIPELINE, "fn f(fault: Fault) -> Refusal { Refusal::from(fault) }"),
]
