"""Transcripts and scripts as texts that a person reads and writes, and back. `tools/transcript --help` has the form."""

import base64
import binascii
import re

INDENT = "    "
HEAD_END = b"\r\n\r\n"
LONGEST_LINE = 64  # octets of a record's line, its line feed among them
BASE64_COLUMNS = 76
MOST_ESCAPED = 4  # where more than one octet of so many would be written as \xHH, all are written in base64
SHOWN = 40  # letters of a wrong word that are told

DECIMAL = re.compile("0|[1-9][0-9]{0,11}")
CAUSE = re.compile("-|0|[1-9][0-9]{0,11}")
LATER = re.compile(r"\+(0|[1-9][0-9]{0,11})")
PLAIN = re.compile(rb"[ !-\[\]-~]*[!-\[\]-~]")  # a line that needs no escape
UNSEEN = re.compile(rb"[\x00-\x08\x0b-\x1f\x7f]")
ESCAPE = re.compile(rb"\\(x[0-9A-Fa-f]{2}|.?)", re.DOTALL)
MEANT = {b"\\": b"\\", b"n": b"\n", b"r": b"\r", b"s": b" ", b"t": b"\t"}
ESCAPED = {"\\": r"\\", "\n": r"\n", "\r": r"\r", "\t": r"\t"}
BASE64 = re.compile(rb"[0-9A-Za-z+/]*={0,2}")

# What stands after the first word in the line of a record or an event. Where a length does, octets follow.
RECORD = ("number", "moment", "length")
EVENT = ("number", "moment")
FORMS = {
    "HCT1": {kind: RECORD for kind in "qfrxa"},
    "HCT2": {kind: RECORD for kind in "qrxa"} | {"f": (*RECORD, "cause")},
    "HCS1": {kind: EVENT for kind in ("open", "end", "originend", "fail")} | {"client": RECORD, "origin": RECORD},
}
SCRIPT, SETTINGS = "HCS1", {"settings": ("keys", "bytes")}
NO_OPENING = "the first line has to be HCT1, HCT2 or HCS1"
NO_SETTINGS = "after HCS1 has to stand a line: settings KEYS BYTES"
NO_ESCAPE = r"after a backslash has to stand \, n, r, s, t, or x and two hexadecimal digits"


class Malformed(Exception):
    """Why a text or octets are refused, and where: the line of the text, or the position of the record."""

    def __init__(self, place, why):
        super().__init__(why)
        self.place = place


def misread(words, forms, is_text):
    """Why the words are no line of these forms; nothing where they are one. In a text no length is written, and a
    moment may be counted from the one before."""
    kind, *words = words
    if kind not in forms:
        return f"no line of a record begins with {kind[:SHOWN]!a}"
    names = [name for name in forms[kind] if not (is_text and name == "length")]
    if len(words) != len(names):
        return f"{kind!r} takes {' '.join(names).upper()}, and nothing else"
    for name, word in zip(names, words):
        like = CAUSE if name == "cause" else DECIMAL
        if not (like.fullmatch(word) or is_text and name == "moment" and LATER.fullmatch(word)):
            return f"{word[:SHOWN]!a} is no {name}: it isn't a decimal of at most 12 digits without leading zeros"
    return None


# -- From octets to a text


def shown(line):
    """A line of octets, with escapes for what can't be seen."""
    if PLAIN.fullmatch(line):
        return line.decode("ascii")
    pieces = []
    for letter in line.decode("utf-8", "surrogateescape"):
        if letter in ESCAPED:
            pieces.append(ESCAPED[letter])
        elif letter.isprintable():
            pieces.append(letter)
        else:
            pieces += [rf"\x{octet:02x}" for octet in letter.encode("utf-8", "surrogateescape")]
    if pieces[-1:] == [" "]:
        pieces[-1] = r"\s"
    return "".join(pieces)


def shown_lines(octets):
    """The octets as lines between which line feeds stand. Neither the first nor the last is empty."""
    after = octets.lstrip(b"\n")
    core = after.rstrip(b"\n")
    lines = [shown(line) for line in core.split(b"\n")]
    lines[0] = r"\n" * (len(octets) - len(after)) + lines[0]
    lines[-1] += r"\n" * (len(after) - len(core))
    return lines


def indented(lines):
    return [INDENT + line if line else "" for line in lines]


def head_at(octets, place):
    """The lines of the head that begins there, and where it ends; nothing where what stands there is none, or one whose
    lines don't all end with CR LF."""
    first = octets.find(b"\r\n", place)
    end = octets.find(HEAD_END, first) if first >= 0 and b"HTTP/" in octets[place:first] else -1
    lines = octets[place:end].split(b"\r\n") if end >= 0 else []
    return (lines, end + len(HEAD_END)) if lines and not any(b"\n" in line for line in lines) else None


def lines_under(octets):
    """The lines that stand under the line of a record with these octets."""
    lines, place = [], 0
    while found := head_at(octets, place):
        lines += ["message"] if place else []
        lines += indented([shown(line) for line in found[0]])
        place = found[1]
    rest = octets[place:]
    if not rest:
        return lines
    plain = shown_lines(rest)
    if sum(line.count(r"\x") for line in plain) * MOST_ESCAPED > len(rest):
        text = base64.b64encode(rest).decode("ascii")
        cut = [text[at : at + BASE64_COLUMNS] for at in range(0, len(text), BASE64_COLUMNS)]
        return [*lines, "base64", *indented(cut)]
    return [*lines, "" if lines else "octets", *indented(plain)]


def record_at(octets, place, position, forms):
    """The words of the record that begins there, but for its length; its octets, and where it ends."""
    end = octets.find(b"\n", place, place + LONGEST_LINE)
    if end < 0:
        is_cut = len(octets) - place < LONGEST_LINE
        raise Malformed(position, "the octets end inside its line" if is_cut else "its line is too long")
    words, place = octets[place:end].decode("latin-1").split(" "), end + 1
    if why := misread(words, forms, is_text=False):
        raise Malformed(position, why)
    if "length" not in forms[words[0]]:
        return words, b"", place
    end = place + int(words.pop(3))
    if end >= len(octets):
        raise Malformed(position, "the octets end inside it")
    if octets[end : end + 1] != b"\n":
        raise Malformed(position, "no line feed stands after its octets")
    return words, octets[place:end], end + 1


def text_of(octets):
    """The text of a transcript or a script."""
    opening, place, position = octets[:4].decode("latin-1"), 5, 1
    if opening not in FORMS or octets[4:5] != b"\n":
        raise Malformed(0, NO_OPENING)
    lines = [opening]
    if opening == SCRIPT:
        words, _, place = record_at(octets, place, 0, SETTINGS)
        lines.append(" ".join(words))
    while place < len(octets):
        words, held, place = record_at(octets, place, position, FORMS[opening])
        lines += ["", " ".join(words), *lines_under(held)]
        position += 1
    return "".join(f"{line}\n" for line in lines).encode("utf-8")


# -- From a text to octets


class Block:
    """An unindented line of a text, by its words, and the indented lines under it, each with its number."""

    def __init__(self, number, words):
        self.number, self.words, self.lines = number, words, []


def filled(lines):
    """The lines without the empty ones before the first that isn't and after the last."""
    places = [at for at, (_, line) in enumerate(lines) if line]
    return lines[places[0] : places[-1] + 1] if places else []


def check_letters(text):
    """Refuses what can't be seen, and what isn't UTF-8."""
    found, at = UNSEEN.search(text), None
    if found:
        at, what = found.start(), "can't be seen"
    else:
        try:
            text.decode("utf-8")
        except UnicodeDecodeError as why:
            at, what = why.start, "isn't UTF-8"
    if at is not None:
        raise Malformed(text.count(b"\n", 0, at) + 1, rf"it has an octet that {what}: write \x{text[at]:02x}")


def blocks_of(text):
    """The blocks of a text, without comments."""
    check_letters(text)
    blocks, indent = [Block(1, [""])], INDENT.encode()
    for number, line in enumerate(text.split(b"\n"), 1):
        if line.startswith(b"#"):
            continue
        if not line.strip(b" \t"):
            blocks[-1].lines.append((number, b""))
        elif line.startswith(indent):
            blocks[-1].lines.append((number, line[len(indent) :]))
        elif line.startswith(b" "):
            raise Malformed(number, "it begins with spaces, but not with four")
        else:
            blocks.append(Block(number, [word.decode("utf-8") for word in line.split()]))
    nothing, *blocks = blocks
    for number, _ in filled(nothing.lines):
        raise Malformed(number, NO_OPENING)
    return blocks


def read_line(number, line):
    """The octets that an indented line says."""

    def meant(found):
        said = found[1]
        if len(said) == 3:
            return bytes([int(said[1:], 16)])
        if said not in MEANT:
            raise Malformed(number, NO_ESCAPE)
        return MEANT[said]

    return ESCAPE.sub(meant, line) if b"\\" in line else line


def read_octets(lines):
    """Lines between which line feeds stand."""
    return b"\n".join(read_line(*line) for line in filled(lines))


def read_message(lines):
    """A head, and after an empty line a body; nothing where there are no lines."""
    lines = filled(lines)
    size = next((at for at, (_, line) in enumerate(lines) if not line), len(lines))
    head = [read_line(*line) + b"\r\n" for line in lines[:size]]
    return b"".join([*head, b"\r\n" if head else b"", read_octets(lines[size:])])


def read_base64(lines):
    lines = [(number, line.strip(b" \t")) for number, line in lines if line]
    for at, (number, line) in enumerate(lines, 1):
        if not BASE64.fullmatch(line) or line.endswith(b"=") and at < len(lines):
            raise Malformed(number, "it isn't base64")
    try:
        return base64.b64decode(b"".join(line for _, line in lines), validate=True)
    except binascii.Error:
        raise Malformed(lines[-1][0], "the base64 that ends here isn't whole") from None


READ = {"message": read_message, "octets": read_octets, "base64": read_base64}


class Writer:
    """Writes the records of a text, one after the other, as octets."""

    def __init__(self, opening):
        self.forms, self.pieces, self.moment = FORMS[opening], [opening.encode() + b"\n"], None
        self.words, self.held = [], []  # of the record that isn't written yet

    def write(self):
        """Writes the record that was begun."""
        line, held = self.words, b"".join(self.held)
        if line and "length" in self.forms[line[0]]:
            line = [*line[:3], str(len(held)), *line[3:]]
            held += b"\n"
        self.pieces += [" ".join(line).encode() + b"\n", held] if line else []

    def begin(self, block):
        """Begins a record."""
        self.write()
        if why := misread(block.words, self.forms, is_text=True):
            is_known = block.words[0] in self.forms
            raise Malformed(block.number, why if is_known else f"{why}; before lines of octets stand four spaces")
        kind, number, moment, *cause = block.words
        self.moment = self.moment_of(block.number, moment)
        self.words, self.held = [kind, number, str(self.moment), *cause], []

    def moment_of(self, number, word):
        if not LATER.fullmatch(word):
            return int(word)
        if self.moment is None:
            raise Malformed(number, f"{word!r} is counted from the moment before, and there is none")
        moment = self.moment + int(word)
        if not DECIMAL.fullmatch(str(moment)):
            raise Malformed(number, f"by {word!r} the moment has more than 12 digits")
        return moment

    def take(self, block):
        read = READ.get(block.words[0])
        if not read:
            self.begin(block)
        elif len(block.words) > 1:
            raise Malformed(block.number, f"{block.words[0]!r} takes nothing else")
        elif not self.words:
            raise Malformed(block.number, "there is no record before it")
        for number, _ in filled(block.lines):
            if "length" not in self.forms[self.words[0]]:
                raise Malformed(number, f"{self.words[0]!r} has no octets")
        self.held.append((read or read_message)(block.lines))


def take_line(blocks, known, why):
    """Takes the first block away and returns it. It has to begin with a known word, and to have nothing under it."""
    if not blocks or blocks[0].words[0] not in known:
        raise Malformed(blocks[0].number if blocks else 1, why)
    for number, _ in filled(blocks[0].lines):
        raise Malformed(number, f"nothing stands under {blocks[0].words[0]!r}")
    return blocks.pop(0)


def octets_of(text):
    """The transcript or the script of a text."""
    blocks = blocks_of(text)
    opening = take_line(blocks, FORMS, NO_OPENING)
    if len(opening.words) > 1:
        raise Malformed(opening.number, NO_OPENING)
    writer = Writer(opening.words[0])
    if opening.words == [SCRIPT]:
        settings = take_line(blocks, SETTINGS, NO_SETTINGS)
        if why := misread(settings.words, SETTINGS, is_text=True):
            raise Malformed(settings.number, why)
        writer.pieces.append(" ".join(settings.words).encode() + b"\n")
    for block in blocks:
        writer.take(block)
    writer.write()
    return b"".join(writer.pieces)
