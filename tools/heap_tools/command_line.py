"""The command line of a tool: its options, its help, and how it ends."""

import argparse
import gc
import re
import signal
import sys
import warnings
from typing import Any, Callable, Dict, Iterable, NoReturn, Optional, Sequence

from heap_tools import VERSION
from heap_tools.close_names import close_names, did_you_mean
from heap_tools.console import say, write
from heap_tools.faults import INTERRUPTED, UNREADABLE, WRONG_USE, Fault

#: The signals that end a tool.
ENDING = (signal.SIGINT, signal.SIGTERM, signal.SIGHUP)


class _Format(argparse.RawDescriptionHelpFormatter):
    """The help in 80 columns, in the form of heapmark's."""

    def __init__(self, prog: str) -> None:
        super().__init__(prog, width=80, max_help_position=22)

    def add_usage(
        self,
        usage: Optional[str],
        actions: Iterable[argparse.Action],
        groups: Iterable[Any],
        prefix: Optional[str] = None,
    ) -> None:
        """Adds the usage line."""
        super().add_usage(usage, actions, groups, "Usage: ")


class Parser(argparse.ArgumentParser):
    """The options and operands of the tool `name`. `about` is the first paragraph of its help, `notes` what follows the
    options."""

    def __init__(self, name: str, usage: str, about: str, notes: str) -> None:
        form: Dict[str, Any] = {"formatter_class": _Format, "description": about.strip(), "epilog": notes.strip()}
        super().__init__(name, f"{name} {usage}", add_help=False, allow_abbrev=False, **form)
        self.arguments = self.add_argument_group("Arguments")
        self.choices = self.add_argument_group("Options")
        self._literal: Dict[str, str] = {}

    def operand(self, name: str, help: str, **more: Any) -> None:
        """Adds the operand `name`, which the help shows as `<NAME>`."""
        self.arguments.add_argument(name, metavar=f"<{name.upper()}>", help=help, type=self._restored, **more)

    def flag(self, name: str, help: str) -> None:
        """Adds an option without a value."""
        self.choices.add_argument(name, action="store_true", help=help)

    def option(self, name: str, value: str, help: str, **more: Any) -> None:
        """Adds an option with a value, which the help shows as `<VALUE>`."""
        self.choices.add_argument(name, metavar=f"<{value}>", help=help, **more)

    def read(self, words: Sequence[str]) -> argparse.Namespace:
        """Reads the words of a command line. Raises `Fault` if they are wrong, or once help or version are written."""
        self.choices.add_argument("-h", "--help", action=_Print, help="Print help")
        self.choices.add_argument("-V", "--version", action=_Print, help="Print version")
        at = words.index("--") if "--" in words else len(words)
        self._literal = {f"\0{number}": word for number, word in enumerate(words[at + 1 :])}
        found, others = self.parse_known_intermixed_args([*words[:at], *self._literal])
        if others:
            known = [name for action in self._actions for name in action.option_strings]
            near = close_names(others[0].partition("=")[0], known) if others[0].startswith("-") else []
            self.error(f"unrecognized arguments: {' '.join(map(self._restored, others))}{did_you_mean(near)}")
        return found

    def _restored(self, word: str) -> str:
        """Returns the word of the command line for an operand: those after `--` have stand-ins, since an intermixed
        command line may not have a `--`."""
        return self._literal.get(word, word)

    def error(self, message: str) -> NoReturn:
        """Ends the tool, for a wrong command line."""
        raise Fault(WRONG_USE, f"{message}: {self.prog} --help says more")


class _Print(argparse.Action):
    """Prints the help or the version, and ends the tool."""

    def __init__(self, option_strings: Sequence[str], dest: str, **more: Any) -> None:
        super().__init__(option_strings, dest, nargs=0, default=argparse.SUPPRESS, **more)

    def __call__(self, parser: argparse.ArgumentParser, *_: Any) -> NoReturn:
        write(parser.format_help() if self.dest == "help" else f"{parser.prog} {VERSION}\n")
        raise Fault(0)


def number(least: int = 0, most: int = 10**19 - 1) -> Callable[[str], int]:
    """Returns a function that reads a number from `least` to `most`."""

    def read(text: str) -> int:
        if not re.fullmatch("[0-9]{1,19}", text, re.ASCII) or not least <= int(text) <= most:
            raise argparse.ArgumentTypeError(f"{text!r} is no number from {least} to {most}")
        return int(text)

    return read


def run(tool: str, main: Callable[[Sequence[str]], int]) -> NoReturn:
    """Runs `main` of the tool with the words of the command line, and ends with the status that it returns. Warnings of
    Python are for those who write tools: they are ignored, also if PYTHONWARNINGS makes them errors. Cycles are not
    looked for: a tool makes few, and to go through its millions of small objects took a twelfth of its time."""
    gc.disable()
    warnings.simplefilter("ignore")
    heeded = [each for each in ENDING if signal.getsignal(each) != signal.SIG_IGN]
    for each in heeded:
        signal.signal(each, signal.default_int_handler)
    try:
        status = main(sys.argv[1:])
    except Fault as fault:
        if str(fault):
            say(f"{tool}: {fault}")
        status = fault.status
    except OSError as fault:
        say(": ".join(str(part) for part in (tool, fault.filename, fault.strerror or fault) if part is not None))
        status = UNREADABLE
    except MemoryError:
        say(f"{tool}: out of memory")
        status = UNREADABLE
    except KeyboardInterrupt:
        _ignore(heeded)
        say(f"{tool}: interrupted")
        status = INTERRUPTED
    _ignore(heeded)
    sys.exit(status)


def _ignore(signals: Iterable[signal.Signals]) -> None:
    """Ignores signals that come when all is said."""
    for each in signals:
        signal.signal(each, signal.SIG_IGN)
