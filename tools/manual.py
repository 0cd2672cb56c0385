"""Manual pages and completions of a program, made from what it prints for --help.

The text of a help has these parts, in this order: paragraphs that describe the program, the line `Usage:`, lists of arguments and of options, and further
paragraphs. A paragraph in which a line begins with a space is a table, and is shown as it is.
"""
import re
import textwrap
from collections import namedtuple

# a part of a description: lines, and whether they are shown as they are
Paragraph = namedtuple("Paragraph", "lines is_literal")
# an option, with the name of its value, or "" for a flag
Option = namedtuple("Option", "short long value said")
Argument = namedtuple("Argument", "name said")
Help = namedtuple("Help", "before usage arguments options after")
# what a manual says beside the help: its section, a line on the program, and the date and the source of the page
Head = namedtuple("Head", "section summary date source")

OPTION = re.compile(r" +(?:(-\w), )?(--[\w-]+)(?: <(.+?)>)?(?:\.\.\.)?(?: {2,}(.*))?$")
ARGUMENT = re.compile(r" +([<\[][^>\]]+[>\]](?:\.\.\.)?)(?: {2,}(.*))?$")
# the row of a command in a table of a help
COMMAND = re.compile(r"    ([a-z]+)(?: .*)?$")

FOLDERS = {"FOLDER", "DIR", "HOME"}
FILES = {"FILE"}


def paragraphs(lines):
    """The paragraphs of these lines."""
    made, held = [], []
    for line in [*lines, ""]:
        if line.strip():
            held.append(line)
        elif held:
            made.append(Paragraph(held, any(it.startswith(" ") for it in held)))
            held = []
    return made


def list_after(lines, title):
    """The lines of a list, which stand after its title."""
    if title not in lines:
        return []
    rest = lines[lines.index(title) + 1 :]
    return rest[: rest.index("")] if "" in rest else rest


def read_help(text, more=""):
    """The parts of a help. Where there is more, it stands in place of the further paragraphs."""
    lines = text.rstrip("\n").split("\n")
    at = next(i for i, line in enumerate(lines) if line.startswith("Usage: "))
    usage = lines[at].removeprefix("Usage: ")
    rows = [OPTION.match(line) for line in list_after(lines, "Options:")]
    options = [Option(row[1] or "", row[2], row[3] or "", row[4] or "") for row in rows if row]
    rows = [ARGUMENT.match(line) for line in list_after(lines, "Arguments:")]
    arguments = [Argument(row[1], row[2] or "") for row in rows if row]
    ends = lines.index("Options:") + 1 + len(list_after(lines, "Options:"))
    after = more.rstrip("\n").split("\n") if more else lines[ends:]
    return Help(paragraphs(lines[:at]), usage, arguments, options, paragraphs(after))


def commands_of(help):
    """The commands that a help lists, in its order."""
    found = {}
    for each, listing in zip(help.after, help.after[1:]):
        if each.lines[0].startswith("Commands") and listing.is_literal:
            found |= {row[1]: None for row in map(COMMAND.match, listing.lines) if row}
    return list(found)


# ---- a manual page, in the macros of man(7)


# the longest line of a page's source
LONGEST = 80


def roff(text):
    """A line of text as it stands in a page."""
    made = text.replace("\\", "\\e").replace("-", "\\-")
    return re.sub(r"^([.'])", r"\\&\1", made)


def roff_text(text):
    """Text that is filled, in lines that are short enough."""
    made = textwrap.wrap(text.replace("\\", "\\e").replace("-", "\\-"), LONGEST - 2, break_long_words=False, break_on_hyphens=False)
    return [re.sub(r"^([.'])", r"\\&\1", line) for line in made]


def roff_paragraph(paragraph):
    if paragraph.is_literal:
        lines = textwrap.dedent("\n".join(paragraph.lines)).split("\n")
        return [".PP", ".in +4n", ".nf", *map(roff, lines), ".fi", ".in"]
    return [".PP", *roff_text(" ".join(paragraph.lines))]


def roff_item(head, said):
    return [".TP", head, *roff_text(said)]


def option_head(option):
    short = f"\\fB{roff(option.short)}\\fR, " if option.short else ""
    value = f" \\fI{roff(option.value)}\\fR" if option.value else ""
    return f"{short}\\fB{roff(option.long)}\\fR{value}"


def manual(name, help, head, others):
    """The manual page of a program."""
    page = [f'.TH {name.upper()} {head.section} "{head.date}" "{head.source}"', ".SH NAME", f"{name} \\- {roff(head.summary)}"]
    page += [".SH SYNOPSIS", f".B {name}", roff(help.usage.removeprefix(name).strip())]
    page += [".SH DESCRIPTION", *[line for it in help.before for line in roff_paragraph(it)][1:]]
    if help.arguments:
        page += [".SH ARGUMENTS", *(line for it in help.arguments for line in roff_item(f"\\fI{roff(it.name)}\\fR", it.said))]
    page += [".SH OPTIONS", *(line for it in help.options for line in roff_item(option_head(it), it.said))]
    if help.after:
        page += [".SH NOTES", *[line for it in help.after for line in roff_paragraph(it)][1:]]
    page += [".SH SEE ALSO", ",\n".join(f"\\fB{other}\\fR({section})" for other, section in others)]
    return "\n".join(page) + "\n"


# ---- completions


def words_of(option):
    return [it for it in (option.short, option.long) if it]


def of_values(help, values):
    return [word for it in help.options if it.value in values for word in words_of(it)]


def takes_folder(help):
    return any(it.name.strip("<>[].") in FOLDERS for it in help.arguments)


def bash_completion(name, help):
    """A completion for bash: options, files, folders and commands."""
    function = "_" + name
    plain = [word for it in help.options if it.value and it.value not in FOLDERS | FILES for word in words_of(it)]
    arms = []
    for words, act in ((of_values(help, FILES), "-f"), (of_values(help, FOLDERS), "-d")):
        if words:
            arms += [f"        {'|'.join(words)})", f'            mapfile -t COMPREPLY < <(compgen {act} -- "$cur")', "            return ;;"]
    if plain:
        arms.append(f"        {'|'.join(plain)}) return ;;")
    options = " ".join(word for it in help.options for word in words_of(it))
    arguments = "-d" if takes_folder(help) else f"-W '{' '.join(commands_of(help))}'"
    return "\n".join(
        [
            f"# completion of {name} for bash",
            f"{function}() {{",
            '    local cur=${COMP_WORDS[COMP_CWORD]} prev=${COMP_WORDS[COMP_CWORD - 1]}',
            "    COMPREPLY=()",
            "    case $prev in",
            *arms,
            "    esac",
            "    case $cur in",
            f"        -*) mapfile -t COMPREPLY < <(compgen -W '{options}' -- \"$cur\") ;;",
            f'        *) mapfile -t COMPREPLY < <(compgen {arguments} -- "$cur") ;;',
            "    esac",
            "}",
            f"complete -o filenames -F {function} {name}",
            "",
        ]
    )


def zsh_said(text):
    return text.replace("\\", "\\\\").replace("[", "\\[").replace("]", "\\]").replace(":", "\\:").replace("'", "'\\''")


def zsh_values(value):
    return "_files" if value in FILES else "_files -/" if value in FOLDERS else " "


def zsh_completion(name, help):
    """A completion for zsh."""
    specs = []
    for it in help.options:
        value = f":{zsh_said(it.value)}:{zsh_values(it.value)}" if it.value else ""
        specs += [f"'{word}[{zsh_said(it.said)}]{value}'" for word in words_of(it)]
    commands = commands_of(help)
    if takes_folder(help):
        specs.append("':folder:_files -/'")
    elif commands:
        specs += [f"':command:({' '.join(commands)})'", "'*:word: '"]
    return f"#compdef {name}\n_arguments \\\n    " + " \\\n    ".join(specs) + "\n"


def fish_said(text):
    return text.replace("\\", "\\\\").replace("'", "\\'")


def fish_completion(name, help):
    """A completion for fish."""
    made = [f"complete -c {name} -f"]
    for it in help.options:
        short = f" -s {it.short[1:]}" if it.short else ""
        value = ""
        if it.value:
            value = " -r -F" if it.value in FILES else " -x -a '(__fish_complete_directories)'" if it.value in FOLDERS else " -x"
        made.append(f"complete -c {name}{short} -l {it.long[2:]}{value} -d '{fish_said(it.said)}'")
    commands = commands_of(help)
    if takes_folder(help):
        made.append(f"complete -c {name} -x -a '(__fish_complete_directories)'")
    elif commands:
        made.append(f"complete -c {name} -n __fish_use_subcommand -a '{' '.join(commands)}'")
    return "\n".join(made) + "\n"
