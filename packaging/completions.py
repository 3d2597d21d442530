"""What bash, zsh and fish complete behind `mapsched`, made of the program's help: its commands, the options of each,
and names of files where one belongs."""

import re
from typing import NamedTuple

from pages import commands_of, help_of, rows_of, sections_of

HEAD = "# The words of mapsched's command line, made of its help by packaging/share.py.\n"


class Option(NamedTuple):
    """An option as the help has it: `-h` and `--help`, the value that it takes, and what is said of it."""

    names: list
    value: str
    about: str


def options_of(program, *words):
    rows = rows_of(sections_of(help_of(program, *words))[1]["Options"])
    return [Option(re.findall(r"--?\w+", it), "".join(re.findall("<(.+)>", it)), about) for it, about in rows]


def arguments_of(program, name):
    """The words that a command takes beside its options, as its usage has them: `<HEX>`, or `[BYTES]...`."""
    return [it for it in sections_of(help_of(program, name))[1]["Usage"].split()[2:] if it != "[OPTIONS]"]


def names_of(program):
    return [name for name, _ in commands_of(program)]


def names_in(options):
    return " ".join(name for option in options for name in option.names)


def quoted(text):
    """A text in single quotes, as all three shells read it."""
    return "'" + text.replace("'", "'\\''") + "'"


def for_bash(program):
    """Behind a sign or an option that wants a file, and where no word fits, bash completes names of files."""
    names, cases = " ".join(names_of(program)), ""
    for name in names_of(program):
        options = options_of(program, name)
        cases += "".join(f"    *' {name} {it.names[-1]}') ;;\n" for it in options if it.value)
        cases += f"    *' {name} '*) words='{names_in(options)}' ;;\n"
    return f"""{HEAD}_mapsched() {{
  local words=''
  case "$COMP_CWORD ${{COMP_WORDS[1]}} ${{COMP_WORDS[COMP_CWORD - 1]}}" in
    '1 '*) words='{names} help {names_in(options_of(program))}' ;;
    '2 help help') words='{names}' ;;
    *' <' | *' >' | *' >>' | *' =') ;;
{cases}  esac
  mapfile -t COMPREPLY < <(compgen -W "$words" -- "${{COMP_WORDS[COMP_CWORD]}}")
}}
complete -o default -F _mapsched mapsched
"""


def for_zsh(program):
    """Behind a sign zsh completes names of files by itself."""

    def row(option):
        about, value = option.about.replace("]", "\\]"), f":{option.value}:" if option.value else ""
        text = quoted(f"[{about}]{value}{'_files' if option.value == 'FILE' else ''}")
        if len(option.names) == 1:
            return f"        {option.names[0]}{'=' if option.value else ''}{text}"
        return f"        '({' '.join(option.names)})'{{{','.join(option.names)}}}{text}"

    def arguments(options, *words):
        return " \\\n".join(["      _arguments", *map(row, options), *(f"        {quoted(it)}" for it in words)])

    def taken(name):
        return [f"{'*' if it.endswith('...') else ''}:{it.strip('<>[].')}:" for it in arguments_of(program, name)]

    rows = "".join(f"    {quoted(f'{name}:{about}')}\n" for name, about in commands_of(program))
    cases = [(name, arguments(options_of(program, name), *taken(name))) for name in names_of(program)]
    command = ":command:{_describe command commands}"
    cases = [("mapsched", arguments(options_of(program), command)), *cases, ("help", arguments([], command))]
    return f"""#compdef mapsched
{HEAD}_mapsched() {{
  local -a commands=(
{rows}    'help:Print the help of a command'
  )
  if (( CURRENT > 2 )); then
    shift words
    (( CURRENT-- ))
  fi
  case ${{words[1]:t}} in
{"".join(f"    {name}){chr(10)}{told}{chr(10)}      ;;{chr(10)}" for name, told in cases)}  esac
}}
_mapsched "$@"
"""


def for_fish(program):
    """Behind a sign fish completes names of files by itself, and else where an option wants one."""
    lines = ["complete -c mapsched -f"]
    for name, about in [*commands_of(program), ("help", "Print the help of a command")]:
        lines.append(f"complete -c mapsched -n __mapsched_asks -a {name} -d {quoted(about)}")
    lines.append(f"complete -c mapsched -n '__mapsched_asks help' -a '{' '.join(names_of(program))}'")
    for name in ["", *names_of(program)]:
        for it in options_of(program, *[name] if name else []):
            words = " ".join(f"-l {it[2:]}" if it.startswith("--") else f"-s {it[1:]}" for it in it.names)
            value = (" -r -F" if it.value == "FILE" else " -x") if it.value else ""
            asked = quoted(f"__mapsched_asks {name}".rstrip())
            lines.append(f"complete -c mapsched -n {asked} {words}{value} -d {quoted(it.about)}")
    told = "\n".join(lines)
    return f"""{HEAD}function __mapsched_asks -d 'Whether this command is named behind mapsched, or none'
    set -l words (commandline -opc)
    test "$words[2]" = "$argv"
end
{told}
"""


# Where the packages have them, and what makes each.
COMPLETIONS = {
    "share/bash-completion/completions/mapsched": for_bash,
    "share/fish/vendor_completions.d/mapsched.fish": for_fish,
    "share/zsh/vendor-completions/_mapsched": for_zsh,
}
