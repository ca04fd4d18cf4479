"""How a tool ends early: with a message and an exit status."""

from typing import Tuple, Type


class Fault(Exception):
    """Ends a tool with the exit status `status`, and with a message unless `text` is empty."""

    def __init__(self, status: int, text: str = "") -> None:
        super().__init__(text)
        self.status = status

    def __reduce__(self) -> "Tuple[Type[Fault], Tuple[int, str]]":
        """Returns how it is made in another process."""
        return Fault, (self.status, str(self))


#: A file cannot be read, was refused, or does not go with the others.
UNREADABLE = 1
#: The command line is wrong.
WRONG_USE = 2
#: The answer is that there is nothing: no object of the class is reachable, or nothing grew.
NOTHING = 3
#: With --more-than: there is more.
MORE = 3
#: The output cannot be written.
UNWRITABLE = 4
#: heapmark cannot be run, or a run of it failed.
NO_HEAPMARK = 5
#: No class or field of the dump has the name.
NO_SUCH_NAME = 6
#: Only soft, weak, final or phantom references hold the objects.
WEAKLY_HELD = 7
#: A signal ended the tool.
INTERRUPTED = 130
