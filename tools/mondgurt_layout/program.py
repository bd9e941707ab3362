"""What the programs have in common: how they are called, and how they tell what is wrong."""

from __future__ import annotations

import argparse
import signal
import sys
from collections.abc import Iterator
from pathlib import Path
from typing import IO, NoReturn, Optional

from .files import Unfit, print_out
from .grammar import Mistakes
from .verdict import Refused
from .words import counted, printable, shown

# The most mistakes that are told at once, and the longest line about wrong usage.
MOST_MISTAKES, LONGEST_USAGE = 20, 200


class CommandLine(argparse.ArgumentParser):
    """A command line whose input is echoed and whose output is written as everywhere."""

    def error(self, message: str) -> NoReturn:
        """Tell wrong usage."""
        super().error(shown(message, LONGEST_USAGE))

    def _print_message(self, message: str, file: Optional[IO[str]] = None) -> None:
        """Print help or the version on standard output, and usage on standard error."""
        if file is sys.stderr:
            super()._print_message(message, file)
        else:
            print_out(message.encode())


def named_file(name: str) -> Path:
    """A file on the command line."""
    if not name:
        raise argparse.ArgumentTypeError("the name of a file is empty")
    return Path(name)


def told(file: Path, mistakes: Mistakes) -> Iterator[str]:
    """The mistakes in a text, a line for each."""
    name = printable(str(file))
    for mistake in mistakes.found[:MOST_MISTAKES]:
        yield f"{name}:{mistake.line}:{mistake.column}: {mistake}"
    more = len(mistakes.found) - MOST_MISTAKES
    if more > 0:
        yield f"{name}: and {counted(more, 'mistake')} more"


def run(command_line: CommandLine) -> None:
    """Run the action that was asked for. What is wrong is told on standard error, and the status is 1."""
    signal.signal(signal.SIGPIPE, signal.SIG_DFL)
    try:
        arguments = command_line.parse_args()
        arguments.action(arguments)
    except KeyboardInterrupt:
        sys.exit(130)
    except Mistakes as mistakes:
        sys.exit("\n".join(told(arguments.file, mistakes)))
    except Refused as refused:
        sys.exit(f"{printable(str(arguments.file))}: {refused}")
    except Unfit as unfit:
        sys.exit(str(unfit))
    except OSError as error:
        sys.exit(f"{printable(str(error.filename))}: {error.strerror}")
