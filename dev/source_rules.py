"""What the sources of the program may name: the tables of `dev/check_source`, whose help says the rules."""

from __future__ import annotations

import re

#: Crates that no program stands on, besides those whose names end with `_tests`, since they only serve tests or
#: measuring; and `label_sets`, which says that memory is short also if there are 2^32 sets, and has a hash without a
#: seed.
NOT_OF_THE_PROGRAM = {"limited_heap", "test_dumps", "pool_bench", "label_sets"}
#: The libraries of the kit that the program may use.
LIBRARIES = {"arrayvec", "atomic_table", "byteorder", "clap", "crossbeam_utils", "indexmap", "thiserror"}
#: Words of locks, of waiting for others, of atomic steps, of channels, and of code that no proof covers.
LOCKS = re.compile(
    r"\w*(Mutex|RwLock|Condvar|Semaphore|Barrier|SpinLock|ShardedLock)\w*|Once|Once(Lock|Cell)\w*|Lazy(Lock|Cell)"
    r"|WaitGroup|Parker|Unparker|(un)?park(_timeout|_deadline)?|Backoff|spin\w*|snooze|mpsc|channel|sync_channel"
    r"|Atomic\w*|atomic\w*|\w*fence|crossbeam\w*|unsafe|asm|global_asm|transmute|UnsafeCell"
)
#: The words of LOCKS that a crate or a file may name.
TABLE = {"buffer_pool": {"atomic_table"}}
PAUSES = {
    "buffer_pool/src/pool/stacks.rt": {"crossbeam_utils", "Backoff", "spin"},
    "drain/src/paired_worker/idle_turns.rt": {"crossbeam_utils", "Backoff"},
    "drain/src/pause.rt": {"crossbeam_utils", "Backoff", "snooze", "Parker", "park_timeout"},
}
#: What all code may name of the modules of `std` for threads, and what more a file may name.
SHARED = {"sync": {"Wait"}, "thread": {"Threads"}}
STARTS = {
    "hprof_grammar/src/team.rt": {"available_parallelism", "map_chunks", "map_vec"},
    "id_index/src/used_ids.rt": {"for_each_chunk_mut"},
    "drain/src/worker_threads.rt": {"Promise", "PromisedHandle", "Scope", "scope", "scope_env"},
}
#: The files of the constants of refusals, of the conversions from faults, and of the hooks of a marking.
CODES, CONVERSIONS = "front_end/src/refusal/codes.rt", "front_end/src/refusal/from_parts.rt"
HOOK = "drain/src/hooks.rt"
#: What makes allocations fail, or dumps, for tests: no code of the program names it.
FOR_TESTS = {"limited_heap", "test_dumps"}
#: The names of the fault that an allocation failed, and those of what a failed call gives.
FAULTS = {"OutOfMemory", "OUT_OF_MEMORY", "AllocError"}
FAILURES = FAULTS | {"AllocFailed"}
#: The calls that fail only if an allocation failed: std's, the table's, and those whose other failures are none of a
#: good dump.
ALLOCATING = {
    "format !",
    "write !",
    "push",
    "Vec :: with_capacity",
    "Table :: new",
    "Pool :: new",
    "make_room",
    "text_of",
    "take_objects",
    "Graph :: assemble",
    "line . texts",
    "words_of",
    "root_names",
    "held",
    "Table :: of",
}
#: The token of a thread that was refused, the call in whose arm for `Err` it may be made, and the test in whose block.
REFUSED_THREAD, STARTING, MAY_START = "RefusedThread", {"scope . spawn_with"}, {"job . hook . may_start"}
#: The files that declare the names of these faults and calls, so that no other item, variant, variable or parameter is
#: taken for one. What the kit declares has none.
DECLARED: dict[str, set[str]] = {
    **dict.fromkeys(("AllocError", "AllocFailed", "Vec", "format", "spawn_with"), set()),
    "Table": {"held_table/src/table.rt"},
    "OUT_OF_MEMORY": {CODES},
    "Graph": {"heap_graph/src/graph.rt"},
    "OutOfMemory": {
        "buffer_pool/src/pool/limits.rt",
        "drain/src/marked.rt",
        "heap_graph/src/refusal.rt",
        "heap_graph/src/skip/refusal.rt",
        "histogram/src/read_to_limit.rt",
        "histogram/src/report_writing.rt",
        "hprof_grammar/src/flaw.rt",
        "label_list/src/refusal.rt",
        "mark_core/src/out_of_memory.rt",
        "retention/src/fault.rt",
        "work_pair/src/stop.rt",
    },
    "Pool": {"buffer_pool/src/pool.rt"},
    "RefusedThread": {"drain/src/worker_threads.rt"},
    "assemble": {"heap_graph/src/graph/build.rt"},
    "make_room": {"histogram/src/read_to_limit.rt"},
    "may_start": {HOOK},
    "push": {
        "buffer_pool/src/buffer.rt",
        "buffer_pool/src/pool/stacks.rt",
        "heap_graph/src/classes/table.rt",
        "heap_graph/src/plan.rt",
        "id_index/src/extent_index_builder.rt",
        "id_index/src/index.rt",
        "id_index/src/narrow_index_builder.rt",
        "id_index/src/narrow_entries_builder.rt",
        "id_index/src/wide_entries_builder.rt",
        "label_list/src/list.rt",
        "mark_core/src/account.rt",
        "mark_core/src/state/stacks.rt",
        "work_pair/src/pair/spill_list.rt",
    },
    "take_objects": {"heap_graph/src/graph/build.rt", "hprof_grammar/src/dump.rt"},
    "text_of": {"held_table/src/text.rt", "histogram/src/report_text.rt"},
    "texts": {
        "front_end/src/command_words.rt",
        "front_end/src/words.rt",
        "heapmark/src/main.rt",
        "retained/src/main.rt",
    },
    "words_of": {"front_end/src/words.rt", "id_index/src/used_ids.rt"},
}
#: The faults of the bytes, and the crate that makes each, where a clause says that it is the first.
FAULTS_OF_BYTES = {"FormatFault": "hprof_grammar", "LinkFault": "heap_graph"}
#: What lets a test refuse a thread, and the crate that may name it.
HOOKS, HOOKED = {"StartHook", "StartsAll", "may_start", "mark_where"}, "drain"
