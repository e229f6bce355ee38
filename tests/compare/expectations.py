#!/usr/bin/env python3
"""Writes crates/compare/data/expected.txt: what the text reader is to say of each published file.

    python3 tests/compare/expectations.py        from the repository's root

For each file a line with four fields, tabs between them: the file, the verdict by the rules of docs/RULES.md
(closes, or refused N at P), how that stands to XML 1.0 by expat (same, or the class of the difference), and the
element names in order where it closes. The rules are written here once more, by hand and not as a machine; expat is
an independent reader. A difference that has no class stops the script.
"""
import pathlib
import re
import sys
import xml.parsers.expat

WHITE = b" \t\r\n"
START = b"abcdefghijklmnopqrstuvwxyzABCDEFGHIJKLMNOPQRSTUVWXYZ_:"
INNER = START + b"0123456789-."


class Refused(Exception):
    pass


class Tag:
    """The bytes of one tag, judged from left to right."""

    def __init__(self, message, less):
        self.message, self.less, self.at = message, less, less + 1

    def peek(self):
        if self.at >= len(self.message):
            raise Refused(34, self.less)
        return self.message[self.at]

    def one(self, allowed):
        if self.peek() not in allowed:
            raise Refused(35, self.at)
        self.at += 1

    def many(self, allowed):
        begin = self.at
        while self.peek() in allowed:
            self.at += 1
        return self.at - begin

    def name(self):
        begin = self.at
        self.one(START)
        self.many(INNER)
        return self.message[begin:self.at]

    def attributes(self):
        while True:
            white = self.many(WHITE)
            if self.peek() in b"/>" or not white:
                return
            self.name()
            self.many(WHITE)
            self.one(b"=")
            self.many(WHITE)
            quote = self.peek()
            self.one(b"'\"")
            self.many(bytes(b for b in range(256) if b != quote and b != 0x3C))
            self.one(bytes([quote]))


def verdict(message):
    """The names of the elements in order, or Refused(number, place)."""
    if len(message) > 1048576:
        raise Refused(31, 0)
    names, opened, ended, at = [], [], False, 0
    while at < len(message):
        if message[at] != 0x3C:
            if not opened and message[at] not in WHITE:
                raise Refused(32, at)
            at += 1
            continue
        rest = message[at + 1:at + 4]
        if rest in (b"", b"!", b"!-"):
            raise Refused(34, at)
        if rest == b"!--" or rest[:1] == b"?":
            stop, skip = (b"-->", 4) if rest[:1] == b"!" else (b"?>", 2)
            found = message.find(stop, at + skip)
            if found < 0:
                raise Refused(34, at)
            at = found + len(stop)
            continue
        tag = Tag(message, at)
        if rest[:1] == b"/":
            tag.at += 1
            name = tag.name()
            tag.many(WHITE)
            tag.one(b">")
            if not opened or opened.pop() != name:
                raise Refused(38, at)
            ended = not opened
        elif rest[0] in START:
            name = tag.name()
            tag.attributes()
            empty = tag.peek() == 0x2F
            if empty:
                tag.at += 1
            tag.one(b">")
            if ended:
                raise Refused(36, at)
            if len(opened) >= 32:
                raise Refused(37, at)
            names.append(name)
            if empty:
                ended = not opened
            else:
                opened.append(name)
        else:
            raise Refused(33, at)
        at = tag.at
    if not ended:
        raise Refused(39, len(message))
    return names


def by_expat(message):
    names = []
    parser = xml.parsers.expat.ParserCreate()
    parser.StartElementHandler = lambda name, attributes: names.append(name.encode())
    try:
        parser.Parse(message, True)
    except xml.parsers.expat.ExpatError as error:
        return None, xml.parsers.expat.ErrorString(error.code)
    return names, ""


# what this subset skips unread or does not ask, by what expat complains of
CLASSES = {
    "undefined entity": "entity-undeclared",
    "reference to invalid character number": "character-reference",
    "duplicate attribute": "attribute-twice",
    "XML or text declaration not at start of entity": "declaration-elsewhere",
    "XML declaration not well-formed": "declaration-form",
    "unknown encoding": "encoding",
    "encoding specified in XML declaration is incorrect": "encoding",
    "reference to external entity in attribute": "entity-undeclared",
}


def skipped(message, complaint):
    """The class of a file that closes here and is not well formed in XML 1.0."""
    if complaint in CLASSES:
        return CLASSES[complaint]
    comments = re.findall(rb"<!--(.*?)-->", message, re.S)
    bare = re.sub(rb"<!--.*?-->|<\?.*?\?>", b"", message, flags=re.S)
    if any(b"--" in c or c.endswith(b"-") for c in comments):
        return "comment-with-two-hyphens"
    if re.search(rb"&(?!(#[0-9]+|#x[0-9a-fA-F]+|[A-Za-z_:][-A-Za-z0-9_:.]*);)", bare):
        return "bare-ampersand"
    if b"]]>" in bare:
        return "section-end-in-text"
    if re.search(rb"[\x00-\x08\x0b\x0c\x0e-\x1f]", message):
        return "control-character"
    if re.search(rb"[\x80-\xff]", message):
        return "character-outside-ascii"
    if re.search(rb"<\?(?![A-Za-z_:])|<\?[^\s?]*[^-A-Za-z0-9_:.\s?]", message):
        return "instruction-target"
    if re.search(rb"<\?xml[\s?]", message, re.I):
        return "declaration-form"
    return ""


def line(root, path):
    message = path.read_bytes()
    theirs, complaint = by_expat(message)
    try:
        ours, told = verdict(message), "closes"
    except Refused as refused:
        ours, told = None, "refused %d at %d" % refused.args
    if ours == theirs:
        standing = "same"
    elif theirs is None:
        standing = skipped(message, complaint)
    else:
        standing = "outside-the-subset"
    if not standing:
        sys.exit(f"{path}: {told}, but expat says {complaint or 'well formed'}")
    names = b" ".join(ours or []).decode()
    return f"{path.relative_to(root)}\t{told}\t{standing}\t{names}"


def main():
    root = pathlib.Path("crates/compare/data")
    files = sorted((root / "w3c-xmlconf").rglob("*.xml"))
    (root / "expected.txt").write_text("".join(line(root, p) + "\n" for p in files))


main()
