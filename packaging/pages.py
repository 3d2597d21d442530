"""The man pages, made of what the program's help says and of the header."""

import itertools
import re
import subprocess


def help_of(program, *words):
    """The help of the program or of a command, as it is when it is installed: without the tree round it."""
    text = subprocess.run([program, "help", *words], capture_output=True, encoding="utf-8", check=True).stdout
    return text.replace("./mapsched", "mapsched").replace("< examples/", "< /usr/share/doc/mapsched/examples/")


def sections_of(text):
    """The parts of a help: what stands first, usage, commands or arguments, options, and what stands behind them."""
    about, _, rest = text.partition("\n\nUsage: ")
    usage, _, rest = rest.partition("\n\n")
    named = {"Usage": usage}
    while found := re.match(r"(Commands|Arguments|Options):\n((?: .*\n)+)\n*", rest):
        named[found[1]], rest = found[2], rest[found.end() :]
    return about, named, rest.strip("\n")


def rows_of(lines):
    """The words of a table of the help, each with what it says of them."""
    return [re.match(r" +(.+?)  +(.+)", line).groups() for line in lines.splitlines()]


def commands_of(program):
    """The commands with what is said of them, without `help`."""
    _, named, _ = sections_of(help_of(program))
    return [(name, about) for name, about in rows_of(named["Commands"]) if name != "help"]


# Roff.


def plain(text):
    """A text as roff prints it unchanged."""
    for sign, name in [("\\", "\\e"), ("-", "\\-"), ("`", "\\(ga"), ("'", "\\(aq"), ("^", "\\(ha"), ("~", "\\(ti")]:
        text = text.replace(sign, name)
    return "\n".join(f"\\&{line}" if line.startswith(".") else line for line in text.split("\n"))


def verbatim(text):
    """Lines that stay as they are, for the same width of each letter."""
    return f".nf\n{plain(text)}\n.fi\n"


def paragraphs(text):
    """Paragraphs that are filled, but for lines that are indented, which stay as they are."""
    parts = []
    for block in re.split(r"\n\n+", text):
        parts.append(".PP\n")
        for is_kept, lines in itertools.groupby(block.split("\n"), lambda it: it.startswith("  ")):
            run = "\n".join(lines)
            parts.append(verbatim(run) if is_kept else f"{plain(run)}\n")
    return "".join(parts)


def title(name, section, date, version, book):
    return f'.TH {name} {section} "{date}" "mapsched {version}" "{book}"\n'


def table(rows):
    return "".join(f".TP\n.B {plain(words)}\n{plain(about)}\n" for words, about in rows)


def command_section(program, name):
    """What a command reads and prints."""
    about, named, rest = sections_of(help_of(program, name))
    parts = [f".SS {plain(named['Usage'])}\n", f"{plain(about)}.\n"]
    parts += [table(rows_of(named[it])) for it in ("Arguments", "Options") if it in named]
    return "".join([*parts, paragraphs(rest)])


def program_page(program, version, date):
    """mapsched(1)"""
    about, named, rest = sections_of(help_of(program))
    commands = commands_of(program)
    usages = [sections_of(help_of(program, name))[1]["Usage"] for name, _ in commands]
    parts = [title("MAPSCHED", 1, date, version, "User Commands")]
    parts += [f".SH NAME\nmapsched \\- {plain(about[0].lower() + about[1:])}\n", ".SH SYNOPSIS\n"]
    parts += [verbatim("\n".join(usages)), ".SH DESCRIPTION\n"]
    parts += [f"{plain(about)} of a cable modem termination system,\nrun on scripts and histories in JSON.\n"]
    parts += [".SH COMMANDS\n"]
    parts += [command_section(program, name) for name, _ in commands]
    parts += [".SS mapsched help [COMMAND]\nPrints what the program, or a command, reads and prints.\n"]
    parts += [".SH OPTIONS\n", table(rows_of(named["Options"])), ".SH EXIT STATUS\n"]
    parts.append(verbatim(rest.partition("\n\n")[0].partition("\n")[2]))
    files = [("docs/REFERENCE.md", "fields, calls, lines and refusals"), ("examples", "scripts")]
    parts += [".SH FILES\n", table([(f"/usr/share/doc/mapsched/{it}", about) for it, about in files])]
    return "".join([*parts, ".SH SEE ALSO\n.BR mapsched.h (3)\n"])


# The header.


def blocks_of(header):
    """The comments of a header, each with the code behind it."""
    body = header[header.index('extern "C" {\n#endif\n') : header.index("#ifdef __cplusplus\n}")]
    body = body.partition("#endif\n")[2]
    body = re.sub(r"^ */\* checks/tables: .*\n", "", body, flags=re.M)
    body = re.sub(r"^(static inline .*?) \{\n.*?^\}\n", r"\1;\n", body, flags=re.S | re.M)
    for block in body.strip("\n").split("\n\n"):
        found = re.match(r"/\*(.*?)\*/\n?", block, re.S)
        comment = found[1] if found and "\n" in found[0] else ""
        code = block[found.end() :] if comment else block
        yield re.sub(r"\n \* ?", "\n", comment).strip(), code.strip("\n")


def kind_of(code):
    """The section of the page in which a piece of code stands."""
    if "#define" in code:
        return "CONSTANTS"
    if code.startswith("enum mapsched_status "):
        return "STATUSES"
    return "TYPES" if re.match(r"(enum|struct) \w+ \{", code) else "FUNCTIONS"


def functions_of(header):
    """The names of the functions of the header, those of the library first."""
    names = re.findall(r"^uint32_t (mapsched_\w+)\(", header, re.M)
    return names, re.findall(r"^static inline .*?(mapsched_\w+)\(", header, re.M)


def header_page(header, version, date):
    """mapsched.h(3)"""
    header = header.replace(" docs/", " /usr/share/doc/libmapsched-dev/")
    first = re.sub(r"\n \* ?", "\n", re.search(r"/\*(.*?)\*/", header, re.S)[1]).strip()
    about, _, rest = first.removeprefix("mapsched: ").partition("\n\n")
    parts = [title("MAPSCHED.H", 3, date, version, "Library Functions")]
    parts += [".SH NAME\nmapsched.h \\- the upstream scheduler of a cable modem termination system\n", ".SH SYNOPSIS\n"]
    parts += [verbatim("#include <mapsched.h>\n\ncc program.c $(pkg-config --cflags --libs mapsched)")]
    about = about[0].upper() + about[1:]
    parts += [".SH DESCRIPTION\n", paragraphs(f"{about}\n\n{rest}")]
    blocks = [*blocks_of(header)]
    for section in ("CONSTANTS", "STATUSES", "TYPES", "FUNCTIONS"):
        parts.append(f".SH {section}\n")
        for comment, code in blocks:
            if kind_of(code) == section:
                parts += [paragraphs(comment) if comment else ".PP\n", verbatim(code)]
    return "".join([*parts, ".SH SEE ALSO\n.BR mapsched (1)\n"])
