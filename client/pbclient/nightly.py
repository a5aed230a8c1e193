"""The command that does what a file says, one command after another, for the night: run-config."""
import configparser, shlex, time

from . import words
from .failures import DAMAGED, DONE, FAILED, FULL, IN_USE, LEFT_OUT, NO_STORE, Failure, mistyped, reason
from .report import counted, span

STORE = "store"
SWITCH = {"yes": True, "no": False}
# The status of all is the one that stands last here.
RISING = (DONE, LEFT_OUT, FAILED, IN_USE, NO_STORE, FULL, DAMAGED)
# What a file may not say.
LEFT_TO_PEOPLE = ("init", "run-config", "version")


def read_file(path):
    """The sections of a file, each with its keys and values."""
    found = configparser.ConfigParser(interpolation=None, delimiters=("=",), comment_prefixes=("#",), default_section="")
    try:
        with open(path) as it:
            found.read_file(it)
    except OSError as error:
        raise Failure(reason(error), "name a file that can be read") from None
    except (configparser.Error, UnicodeDecodeError) as error:
        raise mistyped(f"{path}: {str(error).splitlines()[0]}", "pbclient help run-config shows a file") from None
    return found


def option_words(options, keys, where):
    """The words that say what keys and values say."""
    found, by = [], {it.names[-1][2:]: it for it in options}
    for key, value in keys.items():
        if key not in by:
            raise mistyped(f"{where}: {key} is no option", f"the options here are {', '.join(by)}")
        option = by[key]
        if option.value:
            values = [it for it in value.splitlines() if it] if option.many else [value]
            found += [f"{option.names[-1]}={it}" for it in values]
        elif value not in SWITCH:
            raise mistyped(f"{where}: {key} = {value}", f"say {key} = yes, or {key} = no")
        elif SWITCH[value]:
            found.append(option.names[-1])
    return found


def command_words(section, keys, where):
    """The words of the command that a section is. Operands stand in its head, or in a key of their name, one a line."""
    name, *operands = shlex.split(section)
    command = words.command_named(name)
    if name in LEFT_TO_PEOPLE:
        raise mistyped(f"{where}: {name} is not for a file", "type it by hand")
    keys = dict(keys)
    for it in command.operands:
        operands += [line for line in keys.pop(it.name.lower(), "").splitlines() if line]
    return [name, *option_words(command.options, keys, where), *(["--", *operands] if operands else [])]


def plan(path, options):
    """The commands of a file, read whole before any is done: each section with its command and its options."""
    found = read_file(path)
    common = option_words(words.COMMON, found[STORE] if STORE in found else {}, f"{path}: [{STORE}]")
    steps = []
    for section in found.sections():
        if section == STORE:
            continue
        where = f"{path}: [{section}]"
        try:
            steps.append((section, *words.read([*common, *command_words(section, found[section], where)])))
        except Failure as failure:
            raise failure if failure.what.startswith(path) else mistyped(f"{where}: {failure.what}", failure.advice) from None
        if options.root:
            steps[-1][2].root = options.root
    if not steps:
        raise mistyped(f"{path} has no command", "pbclient help run-config shows a file")
    return steps


def run_config(call):
    """Does the commands of a file. One that fails does not keep the others from being done."""
    from .main import do

    report, began, statuses = call.report, time.monotonic(), []
    for section, command, options in plan(call.options.file, call.options):
        since = time.monotonic()
        report.note(f"[{section}]", "section", section=section)
        status = do(command, options, report)
        statuses.append((section, status))
        report.note(f"[{section}] {'done' if status == DONE else f'status {status}'} in {span(time.monotonic() - since)}", "section_end", section=section, status=status)
        if status == NO_STORE:
            break
    status = max((it for _, it in statuses), key=RISING.index)
    bad = [section for section, it in statuses if it]
    told = f"look at {', '.join(bad)}" if bad else "all done"
    text = f"{counted(len(statuses), 'command')} in {span(time.monotonic() - began)}: {told}"
    report.result("run_summary", text, commands=len(statuses), failed=bad, status=status)
    return status
