"""What client/install makes of the table of words: the man page, the completion for bash, and the units of a nightly timer and of servers."""
from . import VERSION, words
from .failures import MEANINGS

CONFIG, SERVED = "/etc/pbclient.conf", "/etc/pbclient-serve"
ENVIRONMENT = (("PBSTORE_ROOT", "the store's folder, if -r names none"), ("PBSTORE", "the program pbstore, if --program names none"))
EXAMPLES = (
    "export PBSTORE_ROOT=/srv/store", "pbclient init", "pbclient backup host/web /etc /srv/web --exclude '*.tmp'", "pbclient snapshots",
    "pbclient restore host/web etc/hosts --target /tmp/back", "pbclient prune --all --keep-daily 7 --keep-weekly 4", "pbclient gc",
    "pbclient check --read-data",
)
FILES = (
    (CONFIG, "what pbclient.timer does each night, by run-config"),
    (f"{SERVED}/NAME", "a line STORE=FOLDER for pbclient-serve@NAME.service, a server, and perhaps a line OPTIONS= with options of serve"),
    ("ROOT/damaged-chunks", "the damaged chunks that were found and that no backup has sent again yet"),
)


def escaped(text):
    """A text as roff prints it."""
    text = text.replace("\\", "\\e").replace("-", "\\-").replace("'", "\\(aq")
    return f"\\&{text}" if text[:1] in (".", "'") else text


def paragraphs(text):
    """A text of a command: lines that stand in are shown as they are."""
    shown = False
    for line in text.split("\n"):
        if line.startswith("    ") != shown and line:
            shown = not shown
            yield ".EX" if shown else ".EE"
        yield escaped(line) if line else "" if shown else ".PP"
    if shown:
        yield ".EE"


def terms(rows):
    """Names with their texts."""
    for name, text in rows:
        yield from (".TP", f".B {escaped(name)}", escaped(text))


def man_command(command):
    """A command's part of the man page."""
    yield f".SS {escaped(words.usage(command))}"
    yield from paragraphs(command.text or f"{command.summary.capitalize()}.")
    yield from terms((it.name, it.help) for it in command.operands)
    yield from terms((words.spelled(it), words.told(it)) for it in command.options)


def man_page():
    """The man page, for man(7)."""
    lines = [
        f'.TH PBCLIENT 1 "" "pbclient {VERSION}"', ".SH NAME", "pbclient \\- back up to a store, restore from it, and look after it", ".SH SYNOPSIS",
        ".B pbclient\n[\\-r ROOT] COMMAND [WORDS]", ".SH DESCRIPTION",
        "A store is a folder of its own, ROOT. A group is one machine's or one disk's backups, as host/web; each backup makes a snapshot, as",
        "host/web/2026\\-01\\-15T06:30:03Z. host/web/latest, and host/web where one snapshot is wanted, is the group's last one.",
        "Chunks of data that snapshots share are stored once. Each command starts the program pbstore.", ".SH COMMANDS",
    ]
    for it in words.COMMANDS:
        lines += man_command(it)
    lines += [".SH OPTIONS OF ALL COMMANDS", *terms((words.spelled(it), it.help) for it in words.COMMON)]
    lines += [".SH EXIT STATUS", *terms((str(status), text) for status, text in MEANINGS.items())]
    lines += [".SH ENVIRONMENT", *terms(ENVIRONMENT), ".SH FILES", *terms(FILES)]
    lines += [".SH EXAMPLES", ".EX", *map(escaped, EXAMPLES), ".EE"]
    return "\n".join(lines) + "\n"


def names_of(options):
    return " ".join(name for it in options for name in it.names)


def completion():
    """The completion for bash: commands, options, and files for all else."""
    by = "\n".join(f'        [{it.name}]="{names_of(it.options)}"' for it in words.COMMANDS)
    valued = "|".join(name for it in words.COMMON if it.value for name in it.names)
    return f"""# Completion of pbclient for bash.
_pbclient() {{
    local current=${{COMP_WORDS[COMP_CWORD]}} command= at
    local common="{names_of(words.COMMON)} --help"
    local -A options=(
{by}
        [help]=""
    )
    case ${{COMP_WORDS[COMP_CWORD - 1]}} in
        {valued}) COMPREPLY=($(compgen -f -- "$current")); return ;;
    esac
    for ((at = 1; at < COMP_CWORD; at++)); do
        case ${{COMP_WORDS[at]}} in
            {valued}) ((at++)) ;;
            -*) ;;
            *) command=${{COMP_WORDS[at]}}; break ;;
        esac
    done
    if [[ $current == -* ]]; then
        COMPREPLY=($(compgen -W "${{options[${{command:-help}}]}} $common" -- "$current"))
    elif [[ -z $command || $command == help ]]; then
        COMPREPLY=($(compgen -W "${{!options[*]}}" -- "$current"))
    else
        COMPREPLY=($(compgen -f -- "$current"))
    fi
}}
complete -o filenames -F _pbclient pbclient
"""


def service(command):
    """The unit of a night, by pbclient's path."""
    return f"""[Unit]
Description=Backups by {CONFIG}
Documentation=man:pbclient(1)
AssertPathExists={CONFIG}

[Service]
Type=oneshot
ExecStart={command} --quiet run-config {CONFIG}
UMask=0077
Nice=10
"""


def timer():
    """The unit that starts a night."""
    return """[Unit]
Description=Backups each night

[Timer]
OnCalendar=02:00
RandomizedDelaySec=10min
Persistent=true

[Install]
WantedBy=timers.target
"""


def server(command):
    """The unit of a server, for a store whose name stands behind the @. A file has its folder."""
    return f"""[Unit]
Description=The store %i, served
Documentation=man:pbclient(1)
AssertPathExists={SERVED}/%i

[Service]
Type=notify
User=pbstore
# (the file has a line STORE=/srv/store, and perhaps one OPTIONS="--group backup-ssh --trust backup-ssh")
EnvironmentFile={SERVED}/%i
ExecStart={command} serve --name %i $OPTIONS ${{STORE}}
ExecReload=/bin/kill -HUP $MAINPID
RuntimeDirectory=pbstore
RuntimeDirectoryMode=0755
# (another store's server may have its socket there)
RuntimeDirectoryPreserve=yes
UMask=0077
# (the program ends by itself, once its sessions have ended, and saves its book)
KillMode=mixed
# (longer than --grace and --stop-limit together)
TimeoutStopSec=700
Restart=on-failure
LimitNOFILE=4096
NoNewPrivileges=yes
CapabilityBoundingSet=
ProtectSystem=full
ProtectKernelTunables=yes
ProtectKernelModules=yes
ProtectKernelLogs=yes
ProtectControlGroups=yes
ProtectClock=yes
ProtectHostname=yes
PrivateTmp=yes
PrivateDevices=yes
RestrictAddressFamilies=AF_UNIX
RestrictNamespaces=yes
RestrictRealtime=yes
RestrictSUIDSGID=yes
LockPersonality=yes
SystemCallArchitectures=native
SystemCallFilter=@system-service

[Install]
WantedBy=multi-user.target
"""


def example():
    """An example of the nightly file."""
    return f"""# What pbclient does each night. Copy this to {CONFIG}, and start the timer:
#     systemctl enable --now pbclient.timer
# or, without systemd, in /etc/crontab:
#     0 2 * * * root pbclient --quiet run-config {CONFIG}

[store]
root = /srv/store
wait = 600

[backup host/me]
path = /etc
    /home
exclude-caches = yes

[prune]
all = yes
keep-daily = 7
keep-weekly = 4
keep-monthly = 12

[gc]

[check]
"""
