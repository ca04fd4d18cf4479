"""The two proved programs that tools run: how they are found, and how they run."""

import errno
import os
import sys

from heap_tools.child_process import Call, Child, Children, NotStarted, Ran
from heap_tools.faults import NO_HEAPMARK, Fault

#: What may help if the system lacks something that a process needs, by the number of its error.
ADVICE = {
    errno.EAGAIN: "see ulimit -u",
    errno.ENOMEM: "free some memory, or see ulimit -v",
    errno.EMFILE: "see ulimit -n",
    errno.ENFILE: "close some files",
}
#: The file by which a program reads what it gets from a tool.
STANDARD_INPUT = "/dev/stdin"


def nearest(name: str) -> str:
    """Returns the program beside the tool, else the one that was built, else that of PATH."""
    tool, here = (os.path.dirname(os.path.realpath(path)) for path in (sys.argv[0], __file__))
    places = f"{tool}/{name}", f"{here}/../../crates/{name}/out/{name}"
    return next((place for place in places if os.access(place, os.X_OK)), name)


def why_unreadable(name: str) -> str:
    """Returns why a program cannot read what it gets by a name of one of its open files, empty if it can."""
    is_open_file = name.startswith(("/dev/fd/", STANDARD_INPUT))
    return f": it reads by {name}, which needs /proc" if is_open_file and not os.path.exists(name) else ""


class ProvedProgram:
    """The program `name`, as it was found: the one that the variable with its name names, else the nearest one. `runs`:
    how often it ran on a dump."""

    def __init__(self, name: str) -> None:
        self.name, self.variable = name, name.upper()
        self.program = os.environ.get(self.variable) or nearest(name)
        self.environment = {"GLIBC_TUNABLES": "glibc.malloc.hugetlb=1", **os.environ}
        self.runs = 0

    def run(self, call: Call) -> Ran:
        """Runs the program for `call`. Returns how the run ended."""
        with Children() as children:
            self.started(call, children)
            return children.next_ended()[1]

    def started(self, call: Call, children: Children) -> Child:
        """Starts a run of the program for `call` among `children`."""
        try:
            return children.start(self.program, call, self.environment)
        except NotStarted as why:
            text = f"{self.program} cannot be run: {why}: {ADVICE.get(why.number) or self._where()}"
            raise Fault(NO_HEAPMARK, text) from None

    def _where(self) -> str:
        """Returns what to do if there is no such program."""
        if os.environ.get(self.variable):
            return f"the variable {self.variable} names it"
        place = f"put it beside this tool or into PATH, or set {self.variable} to its path"
        return f"build {self.name} with tools/build, {place}"

    def failed(self, path: str, ran: Ran, what: str) -> Fault:
        """Returns the fault of the last run, on the dump `path`, which did not print `what` it should."""
        ended = f"no {what}"
        if not ran.was_stopped and ran.status < 0:
            ended = f"signal {-ran.status}"
        elif not ran.was_stopped and ran.status > 0:
            ended = ": ".join([f"status {ran.status}", *ran.said[:1]])
        if self.runs == 1 and (ran.status >= 0 or ran.was_stopped):
            ended += f": is it {self.name}?"
        if "refused 19 " in ended:
            ended += why_unreadable(STANDARD_INPUT)
        return Fault(NO_HEAPMARK, f"{self.program}: run {self.runs} on {path} failed: {ended}")
