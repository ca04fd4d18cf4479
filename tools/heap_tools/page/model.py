"""What the pages show: `Leak` that of two or more dumps, `OneDump` that of one. The tools fill these. All texts are
plain text."""

from dataclasses import dataclass, field
from typing import Dict, List, Optional, Tuple

from heap_tools.reports import Amount, Row, Unit


@dataclass(frozen=True)
class ProgramEntry:
    """The program of the last dump, as far as the dump says: its main class or the file that it was started from, the
    number of its process, and its virtual machine."""

    name: Optional[str] = None
    process: Optional[int] = None
    machine: Optional[str] = None


@dataclass(frozen=True)
class DumpEntry:
    """A dump. `size`: the bytes of its file, if it is a plain one; `time`: milliseconds since 1970, if it is known."""

    file: str
    size: Optional[int]
    time: Optional[int]
    reachable: Amount
    unreachable: Amount
    unresolved: int


@dataclass(frozen=True)
class GrownClass:
    """A class that grew, and how much there was of it in each dump."""

    name: str
    amounts: List[Amount]

    @property
    def growth(self) -> Amount:
        """How much more there is of it in the last dump than in the first."""
        return self.amounts[-1].minus(self.amounts[0])


@dataclass(frozen=True)
class FieldEntry:
    """What can hold objects: `kind` is one of `candidates`, `name` is without the word for it."""

    kind: str
    name: str


@dataclass(frozen=True)
class HeldShare:
    """What is held in one dump; `percent` of what `whole` of the page says."""

    amount: Amount
    percent: float


@dataclass(frozen=True)
class StepEntry:
    """A step of a path: the fields that lead on together, most often one, and what they hold in the last dump, if that
    is known. `others`: in words what else leads on, of the roots of which no one holds all that comes after it."""

    fields: List[FieldEntry]
    held: Optional[HeldShare] = None
    others: str = ""


@dataclass(frozen=True)
class HolderEntry:
    """What holds some of the growth: several fields only together. `instances`: the number of objects that have the
    field in the last dump; `share`: its share of the growth in percent. `above`: what it is reached through, from the
    top down to what is right above it. `instances_before`: the number in the first dump, if it is known. `between`:
    what it held in dumps between the first and the last, as far as that was measured, by their places in `dumps`.
    `elements`: how many elements its containers have, in the first dump too, in words."""

    fields: List[FieldEntry]
    instances: int
    before: HeldShare
    after: HeldShare
    share: float
    above: List[StepEntry]
    instances_before: Optional[int] = None
    between: Dict[int, Amount] = field(default_factory=dict)
    elements: str = ""


@dataclass(frozen=True)
class SuspectEntry:
    """What holds much of one heap: several fields only together. `instances`: the number of objects that have the
    field. `above`: what it is reached through, from a root down to what is right above it. `elements`: how many
    elements its containers have, in words."""

    fields: List[FieldEntry]
    instances: int
    held: HeldShare
    above: List[StepEntry]
    elements: str = ""


@dataclass(frozen=True)
class NameEntry:
    """What names an object: `how` in words, such as `its field name`, and the text that is there, empty without one."""

    how: str
    text: str = ""


@dataclass(frozen=True)
class ObjectEntry:
    """One of the objects that have the field of a line. `line`: the number of the line, the first is 1. `bytes`: what
    it holds through the field in the last dump, which is `percent` of what all of them do. `has_gained`: what it gained
    is `percent` of what all did. `field`: the field, if the line is not among those of the page."""

    line: int
    class_name: str
    names: List[NameEntry]
    bytes: int
    percent: float
    has_gained: bool = False
    field: Optional[FieldEntry] = None


@dataclass(frozen=True)
class ShareEntry:
    """A part of a heap: what `fields` hold, alone or together. `classes`: how much of each class is right in it, and in
    none of its `parts`, which are held by other fields in it. No object is in two parts."""

    fields: List[FieldEntry]
    classes: Dict[str, Amount]
    parts: List["ShareEntry"] = field(default_factory=list)


@dataclass(frozen=True)
class ThreadGroupEntry:
    """The threads of a name. `pattern`: the name, with `*` for what differs. `before` and `now`: how many there are in
    the first and in the last dump. `frames`: the methods that they are in, the innermost first."""

    pattern: str
    before: int
    now: int
    frames: List[str]


@dataclass(frozen=True)
class RanOutEntry:
    """The thread that ran out of memory: its name, and the methods that it was in, the innermost first. `own`: the
    place of the first method of an own class in `frames`, if there is one."""

    thread: str
    frames: List[str]
    own: Optional[int] = None


@dataclass(frozen=True)
class NextStep:
    """A command that says more, ready to paste, and what it shows."""

    purpose: str
    command: str


@dataclass(frozen=True)
class Making:
    """How the figures were found: the command, the runs of heapmark and the seconds that it took, when that was in
    milliseconds since 1970, and the versions of the programs by their names."""

    command: str
    runs: int
    seconds: float
    time: int
    versions: List[Tuple[str, str]]


@dataclass(frozen=True)
class Leak:
    """All that the page of two or more dumps shows. `dumps`: the earliest first. `holders`: the first is the headline.
    `last`: the classes of the last report. `growth`: what shares of the growth are of. `omitted`: sentences on what
    these dumps do not show. `by`: which figure counts. `of_class`: the class whose objects the holders hold, if only
    these count. `is_of_grown`: only the classes that grew count. `notes`: sentences on the growth that the holders do
    not hold. `weak`: a sentence on the weak references, if they are followed. `layout`: a sentence on the sizes of
    objects, if the bytes are those of the heap and not those of the dumps. `contents`: the classes of what the first
    holder holds, with their amounts in the first dump and in the last, in the order in which they are shown. `shares`:
    parts of the last heap by what holds them, as far as that is known; all else is shown by package. `shows_all`: all
    holders are shown, also above the first and below it; else each holds nothing that those before it do.
    `counts_calls`: the growth has what only running calls hold."""

    dumps: List[DumpEntry]
    grown: List[GrownClass]
    holders: List[HolderEntry]
    last: Dict[str, Amount]
    growth: Amount
    omitted: List[str]
    making: Making
    by: Unit = Unit.BYTES
    of_class: Optional[str] = None
    is_of_grown: bool = False
    program: ProgramEntry = ProgramEntry()
    next_steps: List[NextStep] = field(default_factory=list)
    objects: List[ObjectEntry] = field(default_factory=list)
    threads: List[ThreadGroupEntry] = field(default_factory=list)
    notes: List[str] = field(default_factory=list)
    weak: Optional[str] = None
    layout: Optional[str] = None
    contents: List[GrownClass] = field(default_factory=list)
    shares: List[ShareEntry] = field(default_factory=list)
    shows_all: bool = False
    counts_calls: bool = False

    @property
    def is_of_all(self) -> bool:
        """Tests whether the holders hold objects of all classes."""
        return self.of_class is None and not self.is_of_grown

    @property
    def whole(self) -> str:
        """What shares of one dump are of."""
        if self.is_of_all:
            return f"all reachable {self.by.value}"
        return f"the {self.by.value} of {self.of_class or 'the classes that grew'}"

    @property
    def rise(self) -> Amount:
        """How much more is reachable in the last dump than in the first."""
        return self.dumps[-1].reachable.minus(self.dumps[0].reachable)

    @property
    def more_unreachable(self) -> Amount:
        """How much more is unreachable in the last dump than in the first."""
        return self.dumps[-1].unreachable.minus(self.dumps[0].unreachable)


@dataclass(frozen=True)
class OneDump:
    """All that the page of one dump shows. `suspects`: what holds much of the heap; the first is the headline: the
    accumulation point. `classes`: those of the report. `objects`: those that have the field of a suspect and hold most
    by it. `contents`: the classes of what the first suspect holds, the largest first. `ran_out`: the threads that ran
    out of memory. `capacity`: how many bytes the heap may have at most, if that is known: as a monitor counts them,
    which the others do only with a `layout`. All else is as in `Leak`."""

    dump: DumpEntry
    suspects: List[SuspectEntry]
    classes: Dict[str, Amount]
    omitted: List[str]
    making: Making
    by: Unit = Unit.BYTES
    of_class: Optional[str] = None
    program: ProgramEntry = ProgramEntry()
    next_steps: List[NextStep] = field(default_factory=list)
    objects: List[ObjectEntry] = field(default_factory=list)
    contents: List[Row] = field(default_factory=list)
    ran_out: List[RanOutEntry] = field(default_factory=list)
    notes: List[str] = field(default_factory=list)
    weak: Optional[str] = None
    layout: Optional[str] = None
    capacity: Optional[int] = None
    shares: List[ShareEntry] = field(default_factory=list)
    shows_all: bool = False

    @property
    def whole(self) -> str:
        """What shares are of."""
        return f"the {self.by.value} of {self.of_class}" if self.of_class else f"all reachable {self.by.value}"


@dataclass(frozen=True)
class Limits:
    """How much of each list is shown, and how many characters of a name."""

    name: int
    holders: int
    steps: int
    grown: int
    groups: int
    parts: int
    dumps: int
    sentences: int
