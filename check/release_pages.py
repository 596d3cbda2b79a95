"""Makes man pages and completions of what a program prints for --help. check/release uses it."""

import os
import re
import subprocess
import time

from runner import Failed, write

# What an argument may be beside a path.
VALUES = {"TRACE": ["stdin"], "REFERENCES": ["stdin"], "PAGEFILE": ["mem:16"]}


class Command:
    """A subcommand, as its help tells it: its words, its options with what they want, its arguments, and the text."""

    def __init__(self, program, name):
        words = [name, "--help"] if name else ["--help"]
        ran = subprocess.run([program, *words], capture_output=True, encoding="utf-8", check=False, timeout=60)
        if ran.returncode or not ran.stdout:
            raise Failed(f"{program} {' '.join(words)}: status {ran.returncode}")
        self.name, self.text = name, ran.stdout
        # Pairs of a long option and what it wants, if anything; the arguments; pairs of a command and its meaning.
        self.options = re.findall(r"^ {2,6}(?:-\w, )?--([\w-]+)(?: <(\w+)>)?", self.text, re.MULTILINE)
        self.arguments = re.findall(r"^  <(\w+)>", self.text, re.MULTILINE)
        told = re.search(r"^Commands:\n((?:  .*\n)+)", self.text, re.MULTILINE)
        self.commands = re.findall(r"^  (\w+) +(.*)$", told[1], re.MULTILINE) if told else []

    def meaning(self, option):
        """What the help says of an option."""
        found = re.search(rf"^ {{2,6}}(?:-\w, )?--{option}(?: <\w+>)? +(.*)$", self.text, re.MULTILINE)
        return found[1] if found else ""

    def summary(self):
        return self.text.split("\n", 1)[0]

    def values(self, option):
        """The values that an option may have, if its help names them: as 'trace, or free' or '1 plain, 2 with'."""
        said = self.meaning(option)
        found = re.search(r": (\w+), or (\w+)", said) or re.search(r": (\d) \w+, (\d) ", said)
        return list(found.groups()) if found else []


def commands_of(program):
    """The program itself and its subcommands, but for help."""
    whole = Command(program, "")
    commands = [Command(program, name) for name, _ in whole.commands if name != "help"]
    for command in commands:
        command.words = sorted(it for argument in command.arguments for it in VALUES.get(argument, []))
        if command.name == "explain":
            command.words = re.findall(r"^  (\d+) +\S", whole.text, re.MULTILINE)
    return whole, commands


# ---- Man pages

def plain(text):
    """A text in which roff takes nothing for its own."""
    text = text.replace("\\", "\\e").replace("-", "\\-")
    return "\n".join("\\&" + line if line.startswith((".", "'")) else line for line in text.split("\n"))


def section(block):
    """A block of the help: a list of words with their meanings, lines as they are, or a paragraph."""
    lines = block.split("\n")
    title = re.fullmatch(r"(Arguments|Options|Commands):", lines[0])
    if title:
        rows = [re.match(r"\s+(.*?)(?: {2,}(.*))?$", line) for line in lines[1:]]
        return f".SH {title[1].upper()}\n" + "\n".join(
            f".TP\n.B {plain(row[1])}\n{plain(row[2] or '')}" for row in rows)
    if any(line.startswith(" ") for line in lines):
        return f".PP\n.nf\n{plain(block)}\n.fi"
    return f".PP\n{plain(block)}".replace("\nStatus ", "\n.br\nStatus ")


def man_page(source, command):
    """The man page of a command."""
    name = f"bpool-{command.name}" if command.name else "bpool"
    day = time.strftime("%Y-%m-%d", time.gmtime(source.seconds))
    blocks = [block for block in command.text.strip("\n").split("\n\n") if not block.startswith("Usage: ")]
    usage = re.search(r"^Usage: (.*)$", command.text, re.MULTILINE)[1]
    first = [section(block) for block in blocks[1:]]
    lists = [it for it in first if it.startswith(".SH")]
    rest = [it for it in first if not it.startswith(".SH")]
    return "\n".join([
        f'.TH {name.upper()} 1 {day} "Hojzmated {source.version}" "User Commands"',
        f".SH NAME\n{plain(name)} \\- {plain(blocks[0])}",
        f".SH SYNOPSIS\n.B {plain(usage)}", *lists, ".SH DESCRIPTION", *rest, ""])


# ---- Completions

def bash_of(whole, commands):
    """A completion for bash. A word after an option that wants a value has the values, or files."""
    arms, values = [], []
    for command in commands:
        offered = [*(f"--{option}" for option, _ in command.options), *command.words]
        arms.append(f"        {command.name}) words='{' '.join(offered)}' ;;")
        values += [(option, command.values(option)) for option, wanted in command.options if wanted]
    known = "\n".join(f"        --{option}) words='{' '.join(found)}' ;;" for option, found in values if found)
    other = "|".join(sorted({f"--{option}" for option, found in values if not found and option != "svg"}))
    names = " ".join(name for name, _ in whole.commands)
    return f"""# Completion of bpool for bash.
_bpool() {{
    local word=${{COMP_WORDS[COMP_CWORD]}} before=${{COMP_WORDS[COMP_CWORD - 1]}} words=
    if [ "$COMP_CWORD" = 1 ]; then
        COMPREPLY=($(compgen -W '{names} --help --version' -- "$word"))
        return
    fi
    case $before in
        --svg) COMPREPLY=($(compgen -f -- "$word")); return ;;
        {other}) return ;;
{known}
        *) case ${{COMP_WORDS[1]}} in
{os.linesep.join(arms)}
        esac ;;
    esac
    COMPREPLY=($(compgen -W "$words" -- "$word"))
    case $before in --*) ;; *) COMPREPLY+=($(compgen -f -- "$word")) ;; esac
}}
complete -o filenames -F _bpool bpool
"""


def quoted(text):
    """A text within single quotes of a shell, without what zsh takes for its own."""
    return text.replace("'", "'\\''").replace("[", "(").replace("]", ")").replace(":", " -")


def zsh_of(whole, commands):
    """A completion for zsh."""
    arms = []
    for command in commands:
        rows = []
        for option, wanted in command.options:
            values = command.values(option)
            action = f"({' '.join(values)})" if values else "_files" if option == "svg" else ""
            rows.append(f"'--{option}[{quoted(command.meaning(option))}]" + (f":{wanted}:{action}'" if wanted else "'"))
        action = f"({' '.join(command.words)})" if command.name == "explain" else "_files"
        rows += [f"'{place}:{it}:{action}'" for place, it in enumerate(command.arguments, 1)]
        arms.append(f"        {command.name}) _arguments {' '.join(rows)} ;;")
    names = "\n".join(f"        '{name}:{quoted(what)}'" for name, what in whole.commands)
    return f"""#compdef bpool
_bpool() {{
    local -a names=(
{names}
    )
    if (( CURRENT == 2 )); then
        _describe command names
        return
    fi
    local name=$words[2]
    shift words
    (( CURRENT-- ))
    case $name in
{os.linesep.join(arms)}
    esac
}}
_bpool "$@"
"""


def fish_of(whole, commands):
    """A completion for fish."""
    lines = ["# Completion of bpool for fish."]
    for name, what in whole.commands:
        lines.append(f"complete -c bpool -f -n __fish_use_subcommand -a {name} -d '{quoted(what)}'")
    for command in commands:
        for option, wanted in command.options:
            values = command.values(option)
            given = f" -x -a '{' '.join(values)}'" if values else " -r" if wanted else ""
            lines.append(f"complete -c bpool -n '__fish_seen_subcommand_from {command.name}' -l {option}{given} "
                         f"-d '{quoted(command.meaning(option))}'")
        paths = " -f" if command.name == "explain" else " -F"
        lines.append(f"complete -c bpool{paths} -n '__fish_seen_subcommand_from {command.name}' "
                     f"-a '{' '.join(command.words)}'")
    return "\n".join([*lines, ""])


def write_all(source, program, to):
    """Writes the man pages and the completions of a program."""
    whole, commands = commands_of(program)
    places = {
        "man/man1/bpool.1": man_page(source, whole),
        **{f"man/man1/bpool-{command.name}.1": man_page(source, command) for command in commands},
        "bash-completion/completions/bpool": bash_of(whole, commands),
        "zsh/site-functions/_bpool": zsh_of(whole, commands),
        "fish/vendor_completions.d/bpool.fish": fish_of(whole, commands),
    }
    for name, text in places.items():
        os.makedirs(os.path.join(to, os.path.dirname(name)), exist_ok=True)
        write(text, to, name)
