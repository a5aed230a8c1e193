"""Reads the words, does the command, and gives the status."""
import importlib, os, signal, sys

from . import words
from .call import FAILURES, Call
from .failures import FAILED, INTERRUPTED, TERMINATED, Failure
from .report import Report, failure_of


class Terminated(BaseException):
    """The signal TERM came."""


def do(command, options, report):
    """Does a command, and gives the status."""
    call = Call(options, report)
    module, function = command.does.split(".")
    try:
        return getattr(importlib.import_module(f".{module}", __package__), function)(call) or 0
    except FAILURES as error:
        failure = call.failure(error)
        report.failed(failure)
        return failure.status


def terminate(*_):
    raise Terminated


def main(given):
    """Does what the words say, and gives the status."""
    os.umask(0o077)
    # (seconds: a thread that sends or takes replies is not to wait long for one that walks through files)
    sys.setswitchinterval(0.0005)
    signal.signal(signal.SIGTERM, terminate)
    try:
        if sys.stdout is None or sys.stderr is None:
            return FAILED
        if sys.stdin is None:
            # (it is closed: the next file that is opened would have its number)
            sys.stdin = open(os.devnull)
        command, options = words.read(given)
        if command is None:
            print(options)
            return 0
        report = Report(options)
    except (Failure, OSError) as error:
        failure = error if isinstance(error, Failure) else failure_of(error)
        print(f"pbclient: {failure.what}\n    {failure.advice}", file=sys.stderr)
        return failure.status
    try:
        return do(command, options, report)
    except (KeyboardInterrupt, Terminated) as end:
        what, status = ("interrupted", INTERRUPTED) if isinstance(end, KeyboardInterrupt) else ("terminated", TERMINATED)
        report.failed(Failure(what, "run again; no finished snapshot was lost", status))
        # (a thread may still wait for what it reads, and nothing of it is wanted any more)
        os._exit(status)
    finally:
        report.close()
