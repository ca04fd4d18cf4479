"""heapmark: how it is found, how it runs, and what its refusals say."""

import contextlib
import os
import re
import sys
from typing import BinaryIO, Dict, List, Sequence

from heap_tools.child_process import Call, Children, Ran
from heap_tools.console import as_heapmark_spells, is_terminal, say
from heap_tools.faults import UNREADABLE, WRONG_USE, Fault
from heap_tools.gzip_dump import readable_name
from heap_tools.proved_program import STANDARD_INPUT, ProvedProgram, why_unreadable
from heap_tools.reports import LARGEST_DUMP, Report, read_report, report_bound
from heap_tools.retained_program import RetainedProgram

#: The most bytes that heapmark prints at --version.
LONGEST_VERSION = 1 << 12
#: What is said of refusals that are not the dump's fault, by their codes; of all others, that heapmark accepts no such
#: dump.
REASONS = {
    "15": "heapmark is out of memory: free some, or see ulimit -v",
    "18": "the system starts no thread for heapmark: see ulimit -u and ulimit -v",
    "19": "heapmark cannot read it",
}
#: What else helps after a refusal, by its code.
ALSO = {"14": "; grown compares two outputs of `jcmd PID GC.class_histogram`, which serve heaps of any size"}
#: Advice of heapmark's that a tool has no option for.
ONE_WORKER = ", or try --workers 1, which takes the least"


class Heapmark(ProvedProgram):
    """The program, as it was found, and how often it ran. `retained` is the other one."""

    def __init__(self) -> None:
        super().__init__("heapmark")
        self.retained = RetainedProgram()

    def version(self) -> str:
        """Returns the version that heapmark prints, or nothing if it prints none."""
        ran = self.run(Call(["--version"], lambda out: len(out) <= LONGEST_VERSION))
        line = ran.out.split(b"\n")[0].decode(errors="replace")
        return line.partition(" ")[2] if ran.status == 0 else ""

    def check_fields(self, fields: str) -> None:
        """Raises `Fault` if `fields` is no list. heapmark refuses such a text before it opens a file: with refusal 21,
        or with status 2 if the text is not UTF-8."""
        ran = self.run(Call(["--skip=" + fields, "--", "/dev/null"], report_bound(0)))
        if ran.status == 2 or any("refused 21 " in line for line in ran.said):
            raise Fault(WRONG_USE, f"{fields}: no list of 1 to 64 fields Class.field with commas between")

    def first_report(self, path: str, options: Sequence[str] = (), why: str = "") -> Report:
        """Returns the report of the dump `path`, as `first_reports` does."""
        (found,) = self.first_reports([path], options, why)
        return found

    def first_reports(self, paths: Sequence[str], options: Sequence[str] = (), why: str = "") -> List[Report]:
        """Returns the reports of the dumps at `paths`, which are made at the same time, and passes messages on. Raises
        `Fault` if there is no such file, or if a run ends without a report. If heapmark refuses a dump, the fault has
        its reason, and `why`, and the run does not count."""
        missing = next((path for path in paths if path and not os.path.lexists(path)), None)
        if missing:
            raise Fault(UNREADABLE, f"{missing}: no such file")
        ended: Dict[int, Ran] = {}
        with contextlib.ExitStack() as stack, Children() as children:
            calls = [self._call(path, options, stack) for path in paths]
            numbers = {self.started(call, children): number for number, call in enumerate(calls)}
            while len(ended) < len(paths):
                child, ran = children.next_ended()
                ended[numbers[child]] = ran
        return [self._judged(path, calls[number].words[-1], ended[number], why) for number, path in enumerate(paths)]

    def _call(self, path: str, options: Sequence[str], stack: contextlib.ExitStack) -> Call:
        """Returns how heapmark is called for a dump, whose file `stack` closes if it has to be opened."""
        # To a terminal, heapmark says what to do about a refusal. With options, it then reads the file once more.
        to_terminal = not options or is_terminal(sys.stderr)
        name, stdin = readable_name(path), None
        try:
            name.encode()
        except UnicodeEncodeError:  # heapmark takes no such name
            name, stdin = STANDARD_INPUT, stack.enter_context(opened(path)).fileno()
        bound = report_bound(os.path.getsize(name) if os.path.isfile(name) else LARGEST_DUMP)
        return Call([*options, "--", name], bound, stdin, to_terminal=to_terminal)

    def _judged(self, path: str, name: str, ran: Ran, why: str) -> Report:
        """Returns the report that the run on the dump `path` printed, which got it as `name`."""
        if ran.status > 0 and any("refused " in line for line in ran.said):
            raise Fault(UNREADABLE, f"{path}: {_reason(ran.said, name)}{why}")
        self.runs += 1
        found = read_report(ran.out.splitlines(), self.program) if ran.status == 0 and not ran.was_stopped else None
        if found is None:
            raise self.failed(path, ran, "report")
        for line in ran.said:
            say(line)
        return found


def _reason(said: Sequence[str], path: str) -> str:
    """Returns why heapmark refused the file that it got as `path`: its advice, if it gave any, and the refusal."""
    lines, name = [re.sub("^heapmark: ", "", line) for line in said], f"{as_heapmark_spells(path)}: "
    code = next((line.split()[1] for line in lines if re.match("refused [0-9]", line)), "")
    reason = REASONS.get(code, "no dump that heapmark accepts")
    advice = next((line[len(name) :] for line in lines if line.startswith(name)), reason)
    return f"{advice.replace(ONE_WORKER, '')}{ALSO.get(code, '')}{why_unreadable(path)} ({lines[0]})"


def opened(path: str) -> BinaryIO:
    """Opens a file to read it."""
    try:
        return open(path, "rb")
    except OSError as fault:
        raise Fault(UNREADABLE, f"{path}: {fault.strerror}") from None
