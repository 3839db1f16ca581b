"""How the tools end, and what each says to `--help` and to words that it can't use.

The program itself ends with 0 to 8, so what a tool says for itself is above that.
"""
import os
import signal
import sys
from pathlib import Path
from typing import Callable, NoReturn

DIFFERS, NOT_MADE, WRONG_WORDS = 10, 11, 12

TOOL = "tools/" + Path(sys.argv[0]).name


def complain(told: str, status: int) -> NoReturn:
    sys.stdout.flush()
    print(f"{TOOL}: {told}", file=sys.stderr)
    sys.exit(status)


def give_up(told: str) -> NoReturn:
    """Something that is needed can't be read or made."""
    complain(told, NOT_MADE)


def refuse(told: str) -> NoReturn:
    """The words of the tool's own command line are wrong."""
    complain(f"{told}; {TOOL} --help says which words there are", WRONG_WORDS)


def words_given(page: str) -> list[str]:
    """The words behind the tool's name. Where they ask for help, the tool prints its page and ends."""
    if sys.argv[1:2] in (["--help"], ["-h"]):
        print(page.strip())
        sys.exit(0)
    return sys.argv[1:]


def run(main: Callable[[], int | None]) -> NoReturn:
    """Runs a tool. A pager that ends early ends the tool too, and a fault of the system is told in a line."""
    signal.signal(signal.SIGPIPE, signal.SIG_DFL)
    try:
        sys.exit(main())
    except KeyboardInterrupt:
        # As a shell tells that the interrupt key ended a command.
        os._exit(130)
    except OSError as error:
        give_up(f"{error.filename}: {error.strerror}" if error.filename else str(error))
    except UnicodeError as error:
        give_up(f"a file that is to be text isn't: {error}")
