"""What stands in some files of the program to the letter: the items of which no clause can say what they do, for
`dev/check_source`."""

from __future__ import annotations

from source_rules import CONVERSIONS, HOOK

#: The file that counts failed reads and writes.
COUNTED = "histogram/src/counted/calls.rt"
#: By file: the items that use the system, those that make the seed, those that pass the options on, the tokens of
#: causes, the conversions of faults, the hooks, what counts failures, and how much room is taken for a file. No clause
#: can say what they do.
ITEMS = {
    "heapmark/src/main.rt": [
        """fn main(rt: HostRuntime) -> ExitCode {
            let (mut out, mut err) = (Counted::new(rt.stdout()), rt.stderr());
            let is_terminal = err.is_terminal();
            ExitCode::from(process(&rt, &rt, &mut out, &mut err, is_terminal))
        }""",
    ],
    "buffer_pool/src/spent_tag.rt": [
        "#[derive(Clone, Copy, Debug, PartialEq, Eq)] pub struct SpentTag { first_tag: u64, }",
        """impl<A: Allocator> Worker<A> {
            pub fn spent_tag(&self) -> SpentTag { SpentTag { first_tag: self.first_tag, } }
        }""",
    ],
    "heapmark/src/causes.rt": [
        "use std::rt::Files;",
        "fn tag_is_spent(&self, token: SpentTag);",
        "fn worker_is_refused(&self, token: RefusedThread);",
        """impl<T: Files> Causes for T {
            fn tag_is_spent(&self, _token: SpentTag) {}
            fn worker_is_refused(&self, _token: RefusedThread) {}
        }""",
    ],
    "heapmark/src/marking_refusal.rt": [
        """pub(crate) fn refusal_of_marking<T: Causes>(rt: &T, fault: RunFault) -> Refusal {
            match fault {
                RunFault::OutOfMemory => Refusal::OUT_OF_MEMORY,
                RunFault::TagSpent(token) => {
                    rt.tag_is_spent(token);
                    Refusal::TAG_SPENT
                }
                RunFault::WorkerRefused(token) => {
                    rt.worker_is_refused(token);
                    Refusal::WORKER_REFUSED
                }
            }
        }""",
    ],
    "heapmark/src/pipeline.rt": ["let marked = match mark(rt, alloc, graph, options, gate) {"],
    "retained/src/main.rt": [
        """fn main(rt: HostRuntime) -> ExitCode {
            let (mut out, mut err) = (Counted::new(rt.stdout()), rt.stderr());
            let is_terminal = err.is_terminal();
            ExitCode::from(process(&rt, &rt, &mut out, &mut err, is_terminal))
        }""",
    ],
    "retained/src/command.rt": [
        "let mut reader = match rt.open_dump(name) {",
        "let _position = rt.position(name, reader);",
        "let labels = match read_labels(rt, arguments.labels) {",
        "let mut reader = match rt.open_dump(arguments.file) {",
        "let _position = rt.position(arguments.file, reader);",
    ],
    "front_end/src/command_words.rt": [
        "use std::env::Env;",
        "use std::{env, io};",
        """impl<V: Env> CommandWords for V {
            fn texts(&self, alloc: Global) -> io::Result<Vec<String>> { Ok(env::args(&(self, alloc))?.collect(alloc)?) }
        }""",
    ],
    "heapmark/src/command.rt": [
        "let mut reader = match rt.open_dump(arguments.file) {",
        "Options::new(workers, buffer, buffers, first_tag)",
        "let length = rt.position(arguments.file, reader);",
    ],
    "heapmark/src/hint.rt": [
        "let mut reader = rt.reopen_dump(name)?;",
        "match rt.dump_size(name) {",
        "match rt.reopen_dump(name) {",
        """match refusal.code {
            BAD_HEADER => Some(Hint::File(hint_of_beginning(rt, file))),
            TRUNCATED => Some(Hint::File(FileHint::EndsEarly)),
            SUB_TRUNCATED if is_in_last_record(rt, file, refusal.offset, length) => {
                Some(Hint::File(FileHint::EndsEarly))
            }
            DUMP_ORDER if is_at_end(refusal.offset, length) => Some(Hint::File(FileHint::EndsEarly)),
            TOO_LARGE => Some(Hint::File(hint_of_excess(refusal.offset))),
            OUT_OF_MEMORY => Some(Hint::File(hint_of_memory(rt, file, workers))),""",
        "match beginning_of(rt, name) {",
        "if is_too_long(rt, name) {",
    ],
    "heapmark/src/unmet_skips.rt": [
        "let mut reader = rt.reopen_dump(file).ok()?;",
        "let bytes = bytes_again(rt, arguments.file)?;",
        "if let Some(met) = met_in_file(rt, &arguments, list) {",
    ],
    "front_end/src/dumps.rt": [
        "use std::fs::OpenFile;",
        "use std::rt::Files;",
        "use std::{fs, io};",
        "fn open_dump(&self, name: &str) -> io::Result<Counted<Self::Dump>>;",
        "fn position(&self, name: &str, reader: Counted<Self::Dump>) -> Option<u64>;",
        "fn reopen_dump(&self, name: &str) -> io::Result<Counted<Self::Dump>>;",
        "fn dump_size(&self, name: &str) -> io::Result<u64>;",
        """impl<T: Files> Dumps for T {
            type Dump = T::File;
            fn open_dump(&self, name: &str) -> io::Result<Counted<T::File>> { open(self, name) }
            fn position(&self, _name: &str, reader: Counted<T::File>) -> Option<u64> {
                reader.into_inner().stream_position().ok()
            }
            fn reopen_dump(&self, name: &str) -> io::Result<Counted<T::File>> {
                if !fs::metadata(self, name)?.is_file() {
                    return Err(io::Error::from(io::ErrorKind::Unsupported));
                }
                open(self, name)
            }
            fn dump_size(&self, name: &str) -> io::Result<u64> { Ok(fs::metadata(self, name)?.len()) }
        }""",
        """fn open<T: Files>(rt: &T, name: &str) -> io::Result<Counted<T::File>> {
            let file = fs::open(rt, name)?;
            let Ok(metadata) = file.metadata() else {
                return Ok(Counted::new(file));
            };
            if metadata.is_dir() {
                return Err(io::Error::from(io::ErrorKind::IsADirectory));
            }
            Ok(Counted::of_size(file, expected_size(metadata.len())))
        }""",
        "fn expected_size(size: u64) -> usize { usize::try_from(size).unwrap_or(0).saturating_add(1) }",
    ],
    CONVERSIONS: [
        """impl From<ReaderRefusal> for Refusal {
            fn from(refusal: ReaderRefusal) -> Refusal {
                match refusal {
                    ReaderRefusal::ReadFault => Refusal::READ_FAULT,
                    ReaderRefusal::OutOfMemory => Refusal::OUT_OF_MEMORY,
                }
            }
        }""",
        """impl From<ReadRefusal> for Refusal {
            fn from(refusal: ReadRefusal) -> Refusal {
                match refusal {
                    ReadRefusal::Fault(fault) => Refusal { code: fault.code, offset: Some(fault.offset), },
                    ReadRefusal::OutOfMemory => Refusal::OUT_OF_MEMORY,
                }
            }
        }""",
        """impl From<LinkRefusal> for Refusal {
            fn from(refusal: LinkRefusal) -> Refusal {
                match refusal {
                    LinkRefusal::Fault(fault) => Refusal { code: fault.code, offset: Some(fault.offset), },
                    LinkRefusal::OutOfMemory => Refusal::OUT_OF_MEMORY,
                }
            }
        }""",
        """impl From<SkipRefusal> for Refusal {
            fn from(refusal: SkipRefusal) -> Refusal {
                match refusal {
                    SkipRefusal::BadOptions => Refusal::BAD_OPTIONS,
                    SkipRefusal::OutOfMemory => Refusal::OUT_OF_MEMORY,
                }
            }
        }""",
        """impl From<WriteRefusal> for Refusal {
            fn from(refusal: WriteRefusal) -> Refusal {
                match refusal {
                    WriteRefusal::WriteFault => Refusal::WRITE_FAULT,
                    WriteRefusal::OutOfMemory => Refusal::OUT_OF_MEMORY,
                }
            }
        }""",
        """impl From<OutOfMemory> for Refusal {
            fn from(_fault: OutOfMemory) -> Refusal { Refusal::OUT_OF_MEMORY }
        }""",
    ],
    HOOK: [
        "impl Gate for NoGate { fn before_scan(&self, _worker: u32, _object: u32) {} }",
        "impl StartHook for StartsAll { fn may_start(&self, _worker: u32) -> bool { true } }",
    ],
    COUNTED: [
        "pub fn new(inner: T) -> Self { Counted::of_size(inner, 0) }",
        """pub fn of_size(inner: T, expected: usize) -> Self {
            Counted { inner, failures: 0, is_flushed: true, expected, }
        }""",
        "pub fn failures(&self) -> u64 { self.failures }",
        "pub(crate) fn expected(&self) -> usize { self.expected }",
        """pub fn into_inner(self) -> T {
            let Counted { inner, failures: _, is_flushed: _, expected: _, } = self;
            inner
        }""",
        "fn count_if(&mut self, failed: bool) { if failed { self.failures += 1; } }",
        """impl<R: Read> Counted<R> {
            pub fn read(&mut self, buf: &mut [u8]) -> io::Result<usize> {
                let outcome = self.inner.read(buf);
                self.count_if(outcome.is_err());
                outcome
            }
        }""",
        """impl<W: Write> Counted<W> {
            pub fn write(&mut self, buf: &[u8]) -> io::Result<usize> {
                let outcome = self.inner.write(buf);
                let took_nothing = matches!(outcome, Ok(0));
                self.is_flushed = self.is_flushed && (outcome.is_err() || took_nothing);
                self.count_if(outcome.is_err() || took_nothing && !buf.is_empty());
                outcome
            }
            pub fn flush(&mut self) -> io::Result<()> {
                let outcome = self.inner.flush();
                if outcome.is_ok() { self.is_flushed = true; }
                self.count_if(outcome.is_err());
                outcome
            }
        }""",
    ],
    "histogram/src/read_to_limit.rt": ["Vec::with_capacity(alloc, self.expected().min(limit))"],
    "drain/src/leader.rt": [
        "mark_where(rt, alloc, graph, options, gate, &StartsAll)",
        "Pool::new(alloc, &walked, options.buffers(), options.buffer(), options.first_tag(),)",
    ],
    "drain/src/worker_threads.rt": [
        "#[derive(Clone, Copy, Debug, PartialEq, Eq)] pub struct RefusedThread(());",
    ],
    "heap_graph/src/classes/hash.rt": [
        "use std::hash::{BuildHasher, DefaultHasher, FoldHasher, Hasher};",
        "struct HashSeed { hasher: DefaultHasher, }",
        """impl HashSeed {
            pub(crate) fn new() -> Self { HashSeed { hasher: DefaultHasher::new(), } }
            pub(crate) fn read(&mut self, id: u64) { self.hasher.write_u64(id); }
            pub(crate) fn finish(&self) -> ClassHash {
                let mut begun = FoldHasher::default();
                begun.write_u64(self.hasher.finish());
                ClassHash { begun }
            }
        }""",
        "struct ClassHash { begun: FoldHasher, }",
        """impl BuildHasher for ClassHash {
            type Hasher = FoldHasher;
            fn build_hasher(&self) -> FoldHasher { self.begun }
        }""",
    ],
    "held_table/src/hash.rt": [
        "use std::hash::{BuildHasher, FoldHasher};",
        "pub(crate) struct FixedHash { begun: FoldHasher, }",
        "pub(crate) fn new() -> Self { FixedHash { begun: FoldHasher::default(), } }",
        """impl BuildHasher for FixedHash {
            type Hasher = FoldHasher;
            fn build_hasher(&self) -> FoldHasher { self.begun }
        }""",
    ],
    "held_table/src/tally.rt": ["keys: IndexSet::with_hasher(alloc, FixedHash::new()),"],
    "heap_graph/src/classes.rt": ["pub(crate) use hash::{ClassHash, HashSeed};"],
    "heap_graph/src/classes/table.rt": ["map: IndexMap::with_hasher(alloc, hash),"],
    "heap_graph/src/objects/class_table.rt": [
        "use crate::classes::{ClassHash, Classes, HashSeed};",
        """fn hash_of(view: &View<'_>, places: &[u32], class_dumps: &[u32]) -> ClassHash {
            let mut seed = HashSeed::new();
            for number in class_dumps {
                seed.read(view.object_id(places[*number as usize]));
            }
            seed.finish()
        }""",
        "let hash = hash_of(&view, places, &indexed.class_dumps);",
    ],
}
#: What stands for the system or the seed in code, each with its rule, and the files that do nothing else. The rule of
#: an item that is missing is that of its crate.
OF_ITEMS = {
    **dict.fromkeys(("fs", "env", "Files", "Env", "HostRuntime"), "system"),
    **dict.fromkeys(("open_dump", "reopen_dump", "dump_size"), "system"),
    **dict.fromkeys(("HashSeed", "BuildHasher", "DefaultHasher", "FoldHasher", "hash_of", "with_hasher"), "seed"),
}
#: What the files whose names begin so name only in their items, or name only there before the second word: what makes
#: a token of a cause, a pool or a pair beside the run's, another marking, and other options.
ONLY_IN_ITEMS = {
    "buffer_pool/src/spent_tag": {"SpentTag", "Self", "mod"},
    "drain/": {"Pool ::", "Pool as"},
    "drain/src/worker_threads": {"Self", "mod"},
    "front_end/": {"Options ::"},
    "heapmark/": {"Pool", "Pair", "mark (", "mark as", "Options ::", "Options as", "Options >"},
}
RULES = {
    "buffer_pool": "causes",
    "drain": "causes",
    "front_end": "system",
    "heap_graph": "seed",
    "held_table": "seed",
    "heapmark": "system",
    "histogram": "causes",
    "retained": "system",
}
WHOLE = {
    "buffer_pool/src/spent_tag.rt",
    "heapmark/src/causes.rt",
    "heapmark/src/marking_refusal.rt",
    "front_end/src/command_words.rt",
    "front_end/src/dumps.rt",
    "heap_graph/src/classes/hash.rt",
    CONVERSIONS,
    HOOK,
    COUNTED,
}
