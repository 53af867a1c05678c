"""Pages of the manual and completion for bash, made of texts of help: those of hcache's commands, and those that
argparse prints for a tool. What a page has beside these stands in tools/packaged/manual.txt."""

import collections
import re
import textwrap

WIDTH = 76  # columns of the source of a page
ORDER = ("DESCRIPTION", "COMMANDS", "ARGUMENTS", "OPTIONS", "SIGNALS", "EXIT STATUS", "FILES", "EXAMPLES", "SEE ALSO")
ESCAPES = {"\\": "\\e", "-": "\\-", "'": "\\(aq", "`": "\\(ga", "^": "\\(ha", "~": "\\(ti"}
DEEP = " " * 8  # before what is said of a head in the line below it
PART = re.compile(r"(\S.*):")
PAIR = re.compile(r" +(\S.*?)(?:  +(.*))?")
ABOUT = re.compile(r"(.*?)(?:: .*)?")
NAMES_FILE = re.compile(r"[<\[]?(FILE|FOLDER|PATH)\b")
WORDS = re.compile(r"with commas between the words: (.*)")
DEFAULT = re.compile(r", and (\S+) without the option")
NAMED = re.compile(r"(hcache(?:-[a-z]+)?)\(1\)")

Pair = collections.namedtuple("Pair", "head text")  # what a text of help says of an argument, say
Help = collections.namedtuple("Help", "about usage parts")  # parts: pairs by their headings


# -- Texts of help


def pairs_of(lines):
    """The pairs of a part; what is said of a head may stand in the line below it."""
    found = []
    for line in lines:
        if line.startswith(DEEP):
            found[-1] = Pair(found[-1].head, line.strip())
        else:
            found.append(Pair(*PAIR.fullmatch(line).groups("")))
    return found


def blocks_of(text):
    """The blocks of lines that no empty line parts."""
    return [block.split("\n") for block in re.split(r"\n\s*\n", text.strip("\n"))]


def is_part(block):
    return bool(PART.fullmatch(block[0])) and len(block) > 1 and all(line.startswith("  ") for line in block[1:])


def help_of(text):
    """What the help of a command of hcache says."""
    (about,), (usage,), *parts = blocks_of(text)
    return Help([about], usage.removeprefix("Usage: "), {it[0].rstrip(":"): pairs_of(it[1:]) for it in parts})


def help_of_tool(name, text):
    """What the help of a tool says, as argparse prints it in lines that have no end. `--help` itself is left out."""
    (usage,), *blocks = blocks_of(text)
    needed = re.sub(r" *\[[^]]*\]", "", usage.removeprefix("usage: ")).split(" ", 1)[1]
    first = next(i for i, block in enumerate(blocks) if is_part(block))
    parts = {heading.rstrip(":"): pairs_of(lines) for heading, *lines in blocks[first:]}
    told = {heading: [it for it in pairs if it.head != "-h, --help"] for heading, pairs in parts.items()}
    return Help(["\n".join(block) for block in blocks[:first]], f"{name} [OPTIONS] {needed}",
                {heading: pairs for heading, pairs in told.items() if pairs})


# -- The pages


def escaped(text):
    return "".join(ESCAPES.get(it, it) for it in text)


def wrapped(text):
    """A paragraph, in lines of which none is taken for a request."""
    return [f"\\&{line}" if line[:1] in (".", "'") else line
            for line in map(escaped, textwrap.wrap(text, WIDTH, break_long_words=False, break_on_hyphens=False))]


def bold(text):
    return f"\\fB{escaped(text)}\\fR"


def italic(text):
    return f"\\fI{escaped(text)}\\fR"


def shown(head):
    """A usage or a head: names in bold, and what stands for a value in italics."""
    told = []
    for word in re.findall(r"\[OPTIONS\]|<[^>]*>|[^\s<]+|\s+", head):
        if word.isspace() or word in "[]":
            told.append(word)
        elif word.startswith(("<", "[")) or word.isupper() or "|" in word:
            told.append(italic(word.strip("<>")))
        else:
            told.append(bold(word))
    return "".join(told)


def linked(text):
    """A list of pages, with their names in bold."""
    parts = enumerate(NAMED.split(text))
    return "".join(f"{bold(it)}(1)" if number % 2 else escaped(it) for number, it in parts)


def body_of(lines):
    """Lines of a section: paragraphs, what is shown as it stands, and heads with what they are about."""
    told, paragraph, shown_lines = [], [], []

    def flush():
        if paragraph:
            told.extend([".PP", *wrapped(" ".join(paragraph))])
            paragraph.clear()
        if shown_lines:
            told.extend([".PP", ".RS 4", ".nf", *map(escaped, shown_lines), ".fi", ".RE"])
            shown_lines.clear()

    for line in [*lines, ""]:
        if line.startswith("    "):
            shown_lines.append(line[4:])
        elif "\t" in line or not line.strip():
            flush()
            told += pair_of(Pair(*line.split("\t", 1))) if line.strip() else []
        else:
            paragraph.append(line.strip())
    return told


def pair_of(pair):
    return [".TP", shown(pair.head), *(wrapped(pair.text) or ["\\&"])]


def extras(text):
    """What a page has beside the help: for each page its sections, and for each of these its lines."""
    found = {}
    for part in re.split(r"(?m)^= ", text)[1:]:
        name, *sections = re.split(r"(?m)^== ", part)
        found[name.strip()] = {it.split("\n", 1)[0]: it.split("\n")[1:] for it in sections}
    return found


def sections_of(told, more):
    """The sections of a page, each in lines: those of its help, and those that it has beside that."""
    found = collections.defaultdict(list)
    for block in told.about:
        # The help of a command has no full stop.
        is_sentence = "\n" not in block and not block.startswith(" ") and not block.endswith((".", ":"))
        found["DESCRIPTION"] += body_of((block + "." * is_sentence).split("\n"))
    for heading, pairs in told.parts.items():
        is_of_tool = heading.upper() not in ORDER
        found["OPTIONS" if is_of_tool else heading.upper()] += [f".SS {heading}"] * is_of_tool
        found["OPTIONS" if is_of_tool else heading.upper()] += [line for it in pairs for line in pair_of(it)]
    for name, lines in more.items():
        found[name] += [linked(it) for it in lines if it] if name == "SEE ALSO" else body_of(lines)
    return found


def page(name, told, more, version, day):
    """The source of a page."""
    about = ABOUT.fullmatch(told.about[0].replace("\n", " "))[1].rstrip(".")
    lines = [f'.TH {name.upper()} 1 "{day}" "hcache {version}" "hcache"', ".SH NAME",
             f"{escaped(name)} \\- {escaped(about[0].lower() + about[1:])}", ".SH SYNOPSIS", shown(told.usage)]
    found = sections_of(told, more)
    for heading in ORDER:
        body = found.pop(heading, [])
        # A paragraph begins behind a heading by itself.
        lines += [f".SH {heading}", *body[body[:1] == [".PP"] :]] if body else []
    if found:
        raise ValueError(f"{name}: no page has a section {', '.join(found)}")
    return "\n".join(lines) + "\n"


def pages(helps, more, version, day):
    """The sources of all pages, by their names. Each names only pages that there are."""
    found = {name: page(name, told, more.get(name, {}), version, day) for name, told in helps.items()}
    for name, sections in more.items():
        named = {it for lines in sections.values() for line in lines for it in NAMED.findall(line)}
        if lacking := ({name} | named) - set(helps):
            raise ValueError(f"there is no page {', '.join(sorted(lacking))}")
    return found


# -- Completion

COMPLETION = """\
# Completes the words of {name} for bash. It is made of the texts of help.

_{function}() {{
    local word=${{COMP_WORDS[COMP_CWORD]}} before=${{COMP_WORDS[COMP_CWORD - 1]}} command={command} options= files=
    COMPREPLY=()
    # Bash takes the sign in --OPTION=VALUE for a word.
    if [[ $word == "=" ]]; then word=; elif [[ $before == "=" ]]; then before=${{COMP_WORDS[COMP_CWORD - 2]}}; fi
{first}    case "{asked}" in
{values}    esac
    case $command in
{options}    esac
    if [[ $word == -* ]]; then
        COMPREPLY=($(compgen -W "$options" -- "$word"))
    elif [[ $files ]]; then
        _{function}_files
    fi
}}

# Names of files.
_{function}_files() {{
    mapfile -t COMPREPLY < <(compgen -f -- "$word")
    compopt -o filenames 2>/dev/null
}}

# Words with commas between them.
_{function}_list() {{
    local last=${{word##*,}}
    COMPREPLY=($(compgen -P "${{word%"$last"}}" -W "$*" -- "$last"))
    compopt -o nospace 2>/dev/null
}}

complete -F _{function} {name}
"""
FIRST = """\
    if ((COMP_CWORD == 1)); then
        COMPREPLY=($(compgen -W "{words}" -- "$word"))
        return
    fi
"""


def among(words):
    """How one of these words is completed."""
    return f'COMPREPLY=($(compgen -W "{" ".join(words)}" -- "$word"))'


def values_of(value, text):
    """How the value of an option is completed: a name of a file, words that its help names, or what it is without the
    option; else it isn't."""
    if NAMES_FILE.match(value):
        return "_{function}_files"
    if found := WORDS.search(text):
        return "_{function}_list " + " ".join(re.split("[, ]", it)[0] for it in found[1].split("; "))
    if found := re.fullmatch(r"\{(.*)\}|([a-z0-9]+(?:\|[a-z0-9]+)+)", value):
        return among(re.split(r"[,|]", found[1] or found[2]))
    found = DEFAULT.search(text)
    return among([found[1]]) if found else "return"


def options_of(told):
    """The options of a command, each with its value, if it has one, and what is said of it."""
    for heading, pairs in told.parts.items():
        for it in pairs if heading not in ("Arguments", "Commands", "Exit status") else []:
            *short, last = it.head.split(", ")
            name, _, value = last.partition(" ")
            yield from ((word, "", "") for word in short)
            yield name, value, it.text


def words_line(command, told):
    """The line of a completion that has the options of a command."""
    files = " files=yes" if any(NAMES_FILE.match(it.head) for it in told.parts.get("Arguments", [])) else ""
    return f'        {command or "*"}) options="{" ".join(name for name, _, _ in options_of(told))}"{files} ;;\n'


def completion(name, helps):
    """The completion of a program by the helps of its commands; one that has none has the help of an empty name."""
    commands = [it for it in helps if it]
    ways = collections.defaultdict(list)
    for command, told in helps.items():
        for option, value, text in options_of(told):
            if value:
                ways[values_of(value, text)].append(f'"{command} {option}"' if command else f'"{option}"')
    if commands:
        ways[among(commands)].append('"help help"')
    values = "".join(f"        {' | '.join(of)}) {way}; return ;;\n" for way, of in ways.items())
    function = name.replace("-", "_")
    return COMPLETION.format(
        name=name, function=function, asked="$command $before" if commands else "$before",
        command="${COMP_WORDS[1]}" if commands else "",
        first=FIRST.format(words=" ".join([*commands, "--help", "--version"])) if commands else "",
        values=values.replace("{function}", function).replace("return; return", "return"),
        options="".join(words_line(it, told) for it, told in helps.items()))
