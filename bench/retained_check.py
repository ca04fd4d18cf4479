#!/usr/bin/env python3
"""Compares what a program says each label holds with the difference of two reports of a marker.

    labels DUMP           prints labels for DUMP: one for each field of type object, by the names of its class and the
                          field; one for each static field; one for the roots of each frame of each thread; one for each
                          other kind of root, or with --each-root for each root
    check DUMP..          tests the tables of PROGRAM on each DUMP

PROGRAM is `retained`, or another program that takes the same files: `PROGRAM DUMP WORDS.. LABELS`, as in
`--program './plain --labels'`. JUDGE is heapmark, or the plain marker of bench/plain: `JUDGE DUMP WORDS..`.

`check` gives PROGRAM the labels that `labels --each-root` prints, and labels of single fields of objects and of single
elements. Then it does so with labels made at random: a place has several, some places are cut, and some objects are
roots, too. For each label, JUDGE reads a copy of the dump in which the identifiers at the label's places are 0. The
objects and bytes that its report lacks, by class, must be those of the sets in the table that have the label. Places
that are cut are 0 in all copies; roots that are added are sub-records at the end of the last heap record. The class of
an instance or an array, and the superclass of a class, cannot be 0: no place of a label is there. All objects of the
table must be those that JUDGE reports, and the table must have the form and order that crates/held_table says.

Prints a line for each text of labels, and each label that differs. Exit status 1 if anything differs.
"""

from __future__ import annotations

import argparse
import collections
import concurrent.futures
import mmap
import os
import random
import re
import shlex
import struct
import subprocess
import sys
import tempfile
from typing import Dict, FrozenSet, Iterable, Iterator, List, NamedTuple, Optional, Sequence, Set, Tuple, Union

HEADER = 31
U2 = struct.Struct(">H")
U4 = struct.Struct(">I")
STRING, LOAD_CLASS, HEAP_DUMP, SEGMENT = 0x01, 0x02, 0x0C, 0x1C
CLASS, INSTANCE, OBJECT_ARRAY, PRIMITIVE_ARRAY, UNKNOWN_ROOT = 0x20, 0x21, 0x22, 0x23, 0xFF
OBJECT = 2
#: The bytes of values, by the code of their type.
SIZES = {4: 1, 5: 2, 6: 4, 7: 8, 8: 1, 9: 2, 10: 4, 11: 8}
#: The bytes of a root after its tag and its first identifier. The JNI global has another identifier.
ROOTS = {0xFF: 0, 0x02: 8, 0x03: 8, 0x04: 4, 0x05: 0, 0x06: 4, 0x07: 0, 0x08: 8}
JNI_GLOBAL = 0x01
#: The roots that say a thread, and those that also say a frame.
THREAD_ROOTS = (0x02, 0x03, 0x04, 0x06, 0x08)
FRAME_ROOTS = (0x02, 0x03)


class Place(NamedTuple):
    """Where identifiers are, as in a line of the labels. The identifier of a root is 0."""

    kind: str
    id: int
    number: int

    def __str__(self) -> str:
        return f"root {self.number}" if self.kind == "root" else f"{self.kind} {self.id} {self.number}"


class Root(NamedTuple):
    """A root sub-record: where its identifier is, its tag, and the serial numbers of its thread and frame."""

    at: int
    tag: int
    thread: int
    frame: int


class ClassDump(NamedTuple):
    """A class: its identifier and superclass; where its identifiers are, in order, with the names of static fields; its
    fields of type object, each the offset in its own values and the name's identifier; and the bytes of its values."""

    id: int
    superclass: int
    places: List[Tuple[int, Optional[int]]]
    fields: List[Tuple[int, int]]
    size: int


Bytes = Union[bytes, mmap.mmap]


class Dump:
    """A dump that heapmark accepts. Objects other than classes are noted if `with_objects`."""

    def __init__(self, data: Bytes, with_objects: bool) -> None:
        self.data = data
        self.id_size: int = U4.unpack_from(data, 19)[0]
        self.id = struct.Struct(">I" if self.id_size == 4 else ">Q")
        self.strings: Dict[int, Tuple[int, int]] = {}
        self.loaded: Dict[int, int] = {}
        self.classes: Dict[int, ClassDump] = {}
        self.roots: List[Root] = []
        #: where the sub-records of instances and object arrays begin, by object and by class
        self.objects: Dict[int, int] = {}
        self.members: Dict[int, List[int]] = collections.defaultdict(list)
        self.with_objects = with_objects
        self.last_heap = 0
        at = HEADER
        while at < len(data):
            at = self._read_record(at)

    def id_at(self, at: int) -> int:
        """Returns the identifier at an offset."""
        return int(self.id.unpack_from(self.data, at)[0])

    def count_at(self, at: int) -> int:
        """Returns the number of four bytes at an offset."""
        return int(U4.unpack_from(self.data, at)[0])

    def _read_record(self, at: int) -> int:
        """Reads the record at an offset, and returns where it ends."""
        tag, body, end = self.data[at], at + 9, at + 9 + self.count_at(at + 5)
        if tag == STRING:
            self.strings.setdefault(self.id_at(body), (body + self.id_size, end))
        elif tag == LOAD_CLASS:
            self.loaded.setdefault(self.id_at(body + 4), self.id_at(body + 8 + self.id_size))
        elif tag in (HEAP_DUMP, SEGMENT):
            self.last_heap = at
            self._read_heap(body, end)
        return end

    def _read_heap(self, at: int, end: int) -> None:
        data, size, count_at = self.data, self.id_size, U4.unpack_from
        instance, array, primitives = 9 + 2 * size, 9 + 2 * size, 10 + size
        while at < end:
            tag = data[at]
            if tag == INSTANCE:
                if self.with_objects:
                    self._note(at, at + 5 + size)
                at += instance + count_at(data, at + 5 + 2 * size)[0]
            elif tag == PRIMITIVE_ARRAY:
                at += primitives + count_at(data, at + 5 + size)[0] * SIZES[data[at + 9 + size]]
            elif tag == OBJECT_ARRAY:
                if self.with_objects:
                    self._note(at, at + 9 + size)
                at += array + count_at(data, at + 5 + size)[0] * size
            elif tag == CLASS:
                at = self._read_class(at)
            else:
                at = self._read_root(at, tag)

    def _note(self, at: int, class_at: int) -> None:
        self.objects[self.id_at(at + 1)] = at
        self.members[self.id_at(class_at)].append(at)

    def _read_root(self, at: int, tag: int) -> int:
        after = at + 1 + self.id_size
        thread = self.count_at(after) if tag in THREAD_ROOTS else 0
        frame = self.count_at(after + 4) if tag in FRAME_ROOTS else 0
        self.roots.append(Root(at + 1, tag, thread, frame))
        return after + (self.id_size if tag == JNI_GLOBAL else ROOTS[tag])

    def _size_of(self, code: int) -> int:
        return self.id_size if code == OBJECT else SIZES[code]

    def _read_class(self, at: int) -> int:
        """Reads the class at an offset, and returns where it ends."""
        size = self.id_size
        places: List[Tuple[int, Optional[int]]] = [(at + 5 + size * (1 + number), None) for number in range(4)]
        place = at + 9 + 7 * size
        for name in (2, size):
            count = U2.unpack_from(self.data, place)[0]
            place += 2
            for _ in range(count):
                code = self.data[place + name]
                if code == OBJECT:
                    places.append((place + name + 1, self.id_at(place) if name == size else None))
                place += name + 1 + self._size_of(code)
        count, offset = U2.unpack_from(self.data, place)[0], 0
        place += 2
        fields: List[Tuple[int, int]] = []
        for _ in range(count):
            code = self.data[place + size]
            if code == OBJECT:
                fields.append((offset, self.id_at(place)))
            offset += self._size_of(code)
            place += size + 1
        found = ClassDump(self.id_at(at + 1), self.id_at(at + 5 + size), places, fields, offset)
        self.classes.setdefault(found.id, found)
        return place

    def text(self, string: Optional[int]) -> str:
        """Returns the text of the string with an identifier."""
        begin, end = self.strings.get(-1 if string is None else string, (0, 0))
        return self.data[begin:end].decode("latin-1") if end else f"?{string}"

    def class_name(self, class_id: int) -> str:
        """Returns the name of a class."""
        return self.text(self.loaded.get(class_id))

    def layout(self, class_id: int) -> Iterator[Tuple[int, int, int]]:
        """Yields the fields of type object of an instance, in the order of its layout: for each the offset in the
        values, the class that declares it, and the identifier of its name."""
        base, at = 0, class_id
        while at:
            declaring = self.classes[at]
            for offset, name in declaring.fields:
                yield base + offset, at, name
            base, at = base + declaring.size, declaring.superclass

    def offsets_in(self, at: int) -> List[int]:
        """Returns where the identifiers of the instance or object array at an offset are, without that of its class."""
        values = at + 9 + 2 * self.id_size
        if self.data[at] == INSTANCE:
            return [values + offset for offset, _, _ in self.layout(self.id_at(at + 5 + self.id_size))]
        return [values + self.id_size * number for number in range(self.count_at(at + 5 + self.id_size))]

    def offsets_at(self, place: Place) -> List[int]:
        """Returns where the identifiers of a place are, if they may become 0: the number is not 0 but of a root."""
        if place.kind == "root":
            return [self.roots[place.number].at] if place.number < len(self.roots) else []
        assert place.number, place
        if place.kind == "class":
            members = self.members.get(place.id, [])
        elif place.id in self.classes:
            offsets = [at for at, _ in self.classes[place.id].places]
            return offsets[place.number : place.number + 1]
        else:
            members = [self.objects[place.id]] if place.id in self.objects else []
        found: List[int] = []
        for at in members:
            found += self.offsets_in(at)[place.number - 1 : place.number]
        return found


class Labels:
    """Labels, by their numbers: the name and the places of each; what is cut, and roots that are added."""

    def __init__(self) -> None:
        self.names: List[str] = []
        self.places: List[List[Place]] = []
        self.cut: List[Place] = []
        self.roots: List[int] = []
        self._numbers: Dict[str, int] = {}

    def add(self, name: str, place: Place) -> None:
        """Gives a place the label with a name."""
        number = self._numbers.setdefault(name, len(self.names))
        if number == len(self.names):
            self.names.append(name)
            self.places.append([])
        self.places[number].append(place)

    def text(self) -> str:
        """Returns the text of the labels."""
        lines = [f"label {number} {place}\n" for number, places in enumerate(self.places) for place in places]
        lines += [f"cut {place}\n" for place in self.cut]
        return "".join(lines + [f"root {root}\n" for root in self.roots])


def labels_of(dump: Dump, each_root: bool) -> Labels:
    """Returns labels for all fields, static fields and roots of a dump."""
    labels = Labels()
    for class_id, found in dump.classes.items():
        for number, (_, declaring, field) in enumerate(dump.layout(class_id), 1):
            labels.add(f"{dump.class_name(declaring)}.{dump.text(field)}", Place("class", class_id, number))
        for number, (_, static) in enumerate(found.places):
            if static is not None:
                place = Place("object", class_id, number)
                labels.add(f"static {dump.class_name(class_id)}.{dump.text(static)}", place)
    for number, root in enumerate(dump.roots):
        name = f"root of kind {root.tag}"
        if root.thread:
            name = f"root of thread {root.thread} frame {root.frame}"
        elif each_root:
            name += f" {number}"
        labels.add(name, Place("root", 0, number))
    return labels


def add_some(labels: Labels, dump: Dump, chance: random.Random, count: int) -> None:
    """Adds labels for `count` fields of single instances or elements of single arrays that are not null."""
    owners = sorted(dump.objects)
    while owners and count:
        owner = chance.choice(owners)
        at = dump.objects[owner]
        numbers = [number for number, at in enumerate(dump.offsets_in(at), 1) if dump.id_at(at)]
        if numbers:
            number = chance.choice(numbers)
            labels.add(f"{owner} {number}", Place("object", owner, number))
            count -= 1


def mixed(dump: Dump, all_labels: Labels, chance: random.Random) -> Labels:
    """Returns labels at random: each for places of several of `all_labels`, with places that are cut and roots that are
    added."""
    labels = Labels()
    known = [place for places in all_labels.places for place in places]
    families = [places for places in all_labels.places if places[0].kind != "root"]
    count = chance.choice([2, 5, 12, 40])
    for label in range(count):
        for _ in range(chance.choice([1, 1, 3, 30])):
            for place in chance.choice(families) if families and chance.random() < 0.5 else [chance.choice(known)]:
                labels.add(str(label), place)
    # several labels for one place
    taken = [place for places in labels.places for place in places]
    for place in chance.sample(taken, min(len(taken), 8)):
        for _ in range(chance.randrange(3)):
            labels.add(str(chance.randrange(count)), place)
    labels.cut = [chance.choice(known) for _ in range(chance.choice([0, 1, 5, 50]))]
    owners = sorted(dump.objects) + sorted(dump.classes)
    labels.roots = [chance.choice(owners) for _ in range(chance.choice([0, 1, 3, 20]))]
    return labels


class Amount(NamedTuple):
    """A number of objects, and their bytes."""

    objects: int
    bytes: int


Amounts = Dict[str, Amount]


def add(amounts: Amounts, name: str, objects: int, size: int) -> None:
    """Adds objects to the amount with a name."""
    was = amounts.get(name, Amount(0, 0))
    amounts[name] = Amount(was.objects + objects, was.bytes + size)


def less(amounts: Amounts, others: Amounts) -> Amounts:
    """Returns what `others` lack, by name."""
    names = sorted(set(amounts) | set(others))
    zero = Amount(0, 0)
    pairs = [(name, amounts.get(name, zero), others.get(name, zero)) for name in names]
    return {name: Amount(one.objects - two.objects, one.bytes - two.bytes) for name, one, two in pairs if one != two}


class Fault(Exception):
    """Something is wrong with what a program printed."""


class Line(NamedTuple):
    """A line of a table. Each of its objects has bytes with the same remainder by 16. The empty set has the number
    -1."""

    objects: int
    bytes: int
    remainder: int
    set: int
    name: str


class Table:
    """A table: its sets of several labels in order, each the number and the two parts, and its lines."""

    def __init__(self, text: str) -> None:
        self.joint: List[Tuple[int, int, int]] = []
        self.lines: List[Line] = []
        if text and not text.endswith("\n"):
            raise Fault("no newline at the end")
        for line in text.splitlines():
            self._read(line)

    def _read(self, line: str) -> None:
        joint = re.match(r"set (\d+) = (\d+) \+ (\d+)$", line)
        if joint and not self.lines:
            number, first, second = map(int, joint.groups())
            if line != f"set {number} = {first} + {second}":
                raise Fault(f"wrong form: {line}")
            self.joint.append((number, first, second))
            return
        words = line.split()
        if len(words) != 5 or line != f"{words[0]:>10}  {words[1]:>14}  {words[2]:>2}  {words[3]}  {words[4]}":
            raise Fault(f"wrong form: {line}")
        of_set = -1 if words[3] == "-" else int(words[3])
        found = Line(int(words[0]), int(words[1]), int(words[2]), of_set, words[4])
        if found.remainder >= 16 or (found.objects * found.remainder - found.bytes) % 16:
            raise Fault(f"wrong remainder: {line}")
        self.lines.append(found)

    def check(self, labels: int) -> None:
        """Raises Fault unless the table is in order, if there are `labels` labels."""
        known: Set[int] = set()
        for number, first, second in self.joint:
            if number < labels or number in known:
                raise Fault(f"set {number} is a label, or is there twice")
            if first == second or any(part >= labels and part not in known for part in (first, second)):
                raise Fault(f"set {number} has wrong parts")
            known.add(number)
        used = {line.set for line in self.lines} | {part for _, *parts in self.joint for part in parts}
        if used - known - set(range(-1, labels)):
            raise Fault("a set is not said")
        if known - used:
            raise Fault(f"no line and no set uses the sets {sorted(known - used)}")
        order = [(-line.bytes, -line.objects, line.set) for line in self.lines]
        if order != sorted(order):
            raise Fault("the lines are not in order")

    def labels_of(self) -> Dict[int, FrozenSet[int]]:
        """Returns the labels of each set."""
        found: Dict[int, FrozenSet[int]] = {-1: frozenset()}
        for number, first, second in self.joint:
            first_labels, second_labels = (found.get(part, frozenset([part])) for part in (first, second))
            found[number] = first_labels | second_labels
        for line in self.lines:
            found.setdefault(line.set, frozenset([line.set]))
        if len(set(found.values())) != len(found):
            raise Fault("two sets have the same labels")
        return found

    def held(self) -> Tuple[Amounts, Dict[int, Amounts]]:
        """Returns the amounts of all lines by class, and of each label."""
        labels_of = self.labels_of()
        everything: Amounts = {}
        by_label: Dict[int, Amounts] = collections.defaultdict(dict)
        for line in self.lines:
            add(everything, line.name, line.objects, line.bytes)
            for label in labels_of[line.set]:
                add(by_label[label], line.name, line.objects, line.bytes)
        return everything, by_label


class Program(NamedTuple):
    """A program, and the words after the name of the dump."""

    path: str
    words: List[str]

    @classmethod
    def of(cls, text: str) -> Program:
        """Returns the program of a word of the command line."""
        path, *words = shlex.split(text)
        return cls(path, words)

    def output(self, dump: str, *more: str) -> str:
        """Returns what the program prints for a dump. Raises Fault if it fails."""
        ran = subprocess.run(
            [self.path, dump, *self.words, *more], stdout=subprocess.PIPE, stderr=subprocess.PIPE, check=False
        )
        if ran.returncode != 0:
            last = ran.stderr.decode(errors="replace").strip().split("\n")[-1]
            raise Fault(f"{self.path}: status {ran.returncode}: {last}")
        return ran.stdout.decode("ascii")


def report_of(judge: Program, data: Union[bytes, bytearray]) -> Amounts:
    """Returns the report of the judge on a dump, by class."""
    with tempfile.NamedTemporaryFile(suffix=".hprof") as file:
        file.write(data)
        file.flush()
        lines = judge.output(file.name).splitlines()
    if not lines or not lines[-1].endswith("  (unresolved)"):
        raise Fault(f"{judge.path}: no report")
    amounts: Amounts = {}
    for line in lines[:-3]:
        count, size, name = line.split()
        add(amounts, name, int(count), int(size))
    return amounts


def with_roots(dump: Dump, roots: Sequence[int]) -> bytearray:
    """Returns a copy of the dump with these roots at the end of the last heap record."""
    data = bytearray(dump.data)
    records = b"".join(bytes([UNKNOWN_ROOT]) + dump.id.pack(root) for root in roots)
    at, length = dump.last_heap, dump.count_at(dump.last_heap + 5)
    data[at + 9 + length : at + 9 + length] = records
    U4.pack_into(data, at + 5, length + len(records))
    return data


class Check:
    """One dump, and the programs that are compared on it."""

    def __init__(self, path: str, program: Program, judge: Program, jobs: int) -> None:
        self.name, self.path = os.path.basename(path), path
        with open(path, "rb") as file:
            self.dump = Dump(file.read(), True)
        self.program, self.judge, self.jobs = program, judge, jobs

    def zeroed(self, data: bytearray, places: Iterable[Place]) -> bytearray:
        """Returns a copy of `data` in which the identifiers at these places are 0."""
        copy = bytearray(data)
        for place in places:
            for at in self.dump.offsets_at(place):
                copy[at : at + self.dump.id_size] = bytes(self.dump.id_size)
        return copy

    def differing(self, labels: Labels) -> List[str]:
        """Returns what differs, a line each."""
        with tempfile.NamedTemporaryFile("w", suffix=".labels") as file:
            file.write(labels.text())
            file.flush()
            table = Table(self.program.output(self.path, file.name))
        table.check(len(labels.names))
        everything, by_label = table.held()
        base = self.zeroed(with_roots(self.dump, labels.roots), labels.cut)
        whole = report_of(self.judge, base)
        wrong = [f"all objects: {less(whole, everything)}"] if whole != everything else []

        def lost(label: int) -> Amounts:
            return less(whole, report_of(self.judge, self.zeroed(base, labels.places[label])))

        with concurrent.futures.ThreadPoolExecutor(self.jobs) as pool:
            for label, amounts in enumerate(pool.map(lost, range(len(labels.names)))):
                if amounts != by_label.get(label, {}):
                    difference = less(amounts, by_label.get(label, {}))
                    wrong.append(f"label {label} ({labels.names[label]}): {difference}")
        return wrong

    def run(self, labels: Labels, what: str) -> bool:
        """Compares the programs with these labels, and prints what was found. Returns whether nothing differs."""
        try:
            wrong = self.differing(labels)
        except Fault as fault:
            wrong = [str(fault)]
        cut = f", {len(labels.cut)} places cut, {len(labels.roots)} roots added" if labels.cut or labels.roots else ""
        verdict = f"{len(wrong)} DIFFER" if wrong else "all same"
        print(f"{self.name}: {what}: {len(labels.names)} labels{cut}: {verdict}", flush=True)
        for line in wrong:
            print(f"    {line}")
        return not wrong


def check(words: argparse.Namespace) -> int:
    """Does what `check` says, and returns the exit status."""
    program, judge = Program.of(words.program), Program.of(words.judge)
    good = True
    for path in words.dumps:
        chance = random.Random(words.seed)
        one = Check(path, program, judge, words.jobs)
        labels = labels_of(one.dump, True)
        add_some(labels, one.dump, chance, words.objects)
        good &= one.run(labels, "all fields, static fields and roots")
        for number in range(1, words.mixed + 1):
            good &= one.run(mixed(one.dump, labels, chance), f"at random {number}")
    return 0 if good else 1


def print_labels(words: argparse.Namespace) -> int:
    """Does what `labels` says, and returns the exit status."""
    with open(words.dump, "rb") as file, mmap.mmap(file.fileno(), 0, access=mmap.ACCESS_READ) as data:
        sys.stdout.write(labels_of(Dump(data, False), words.each_root).text())
    return 0


def main() -> int:
    parser = argparse.ArgumentParser(description=__doc__, formatter_class=argparse.RawDescriptionHelpFormatter)
    commands = parser.add_subparsers(dest="command", metavar="COMMAND", required=True)
    labels = commands.add_parser("labels", help="prints labels for a dump")
    labels.add_argument("--each-root", action="store_true", help="a label for each root that is of no thread")
    labels.add_argument("dump", metavar="DUMP")
    labels.set_defaults(does=print_labels)
    checks = commands.add_parser("check", help="tests tables")
    checks.add_argument("--program", required=True, metavar="PROGRAM", help="the program that is tested")
    checks.add_argument("--judge", required=True, metavar="JUDGE", help="the marker that judges")
    checks.add_argument("--objects", type=int, default=200, metavar="N", help="fields of single objects (200)")
    checks.add_argument("--mixed", type=int, default=10, metavar="N", help="texts at random for each dump (10)")
    checks.add_argument("--seed", type=int, default=1, metavar="N", help="what chance begins with (1)")
    checks.add_argument("--jobs", type=int, default=2, metavar="N", help="runs of JUDGE at a time (2)")
    checks.add_argument("dumps", nargs="+", metavar="DUMP")
    checks.set_defaults(does=check)
    words = parser.parse_args()
    status: int = words.does(words)
    return status


if __name__ == "__main__":
    sys.exit(main())
