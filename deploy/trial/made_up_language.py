"""A made-up language for the trial, in which each text is the English one between two marks, and what finds texts that are not
in it."""

import re
import subprocess
from html.parser import HTMLParser
from pathlib import Path

import polib

from stand import DEPLOY, PYTHON

CODE, NAME = "qq", "«Qhoti»"
OPEN, CLOSE = "«", "»"
TEXTS = DEPLOY.parent / "tools" / "office-texts"
# Words that no catalogue has: who signs in, zones by their names, files, and what the program calls kinds of lists.
DATA = re.compile(r"https?://\S+|\b(?:anna|bert|root|keeper|UTC|[A-Z][a-z]+/[A-Z]\w+|people|rooms|grades|choices|moves|CSV)\b")
LATIN = re.compile("[A-Za-z]{2,}")
# What is data as a whole: code, what a clerk has written, and pictures.
SILENT = {"code", "textarea", "style", "svg", "script"}
INLINE = {"a", "abbr", "b", "br", "code", "em", "i", "kbd", "small", "span", "strong", "time"}
EMPTY = {"br", "input", "link", "meta", "img", "hr"}
ATTRIBUTES = {"aria-label", "placeholder", "title", "alt"}


def between(text):
    """A text of the made-up language."""
    return f"{OPEN}{text}{CLOSE}"


def all_texts():
    """All texts of the office as an empty catalogue."""
    printed = subprocess.run([PYTHON, TEXTS], stdout=subprocess.PIPE, text=True, check=True).stdout
    return polib.pofile(printed)


def write_language(folder, without=(), code=CODE):
    """Writes the language into a folder, but for some texts, and gives the catalogue."""
    catalogue = all_texts()
    catalogue.metadata = {"Content-Type": "text/plain; charset=utf-8", "Plural-Forms": "nplurals=2; plural=(n != 1);",
                          "X-Language-Name": NAME, "X-Direction": "rtl"}
    for entry in list(catalogue):
        if entry.msgid in without:
            catalogue.remove(entry)
        elif entry.msgid_plural:
            entry.msgstr_plural = {0: between(entry.msgid), 1: between(entry.msgid_plural)}
        else:
            entry.msgstr = between(entry.msgid)
    folder.mkdir(exist_ok=True)
    catalogue.save(str(Path(folder) / f"{code}.po"))
    return catalogue


def outside(text):
    """The words of a text that are outside of the marks. A mark without its other one is such a word, too."""
    depth, words = 0, []
    for part in re.split(f"([{OPEN}{CLOSE}])", text):
        depth += {OPEN: 1, CLOSE: -1}.get(part, 0)
        if depth < 0:
            words.append(part)
            depth = 0
        elif depth == 0:
            words += LATIN.findall(DATA.sub(" ", part))
    return words + ([OPEN] if depth else [])


class Texts(HTMLParser):
    """The texts of a page, each with all the inline tags in it, and its attributes that people read."""

    def __init__(self):
        super().__init__()
        self.found, self.run, self.silent = [], "", []

    def end_run(self):
        """The end of a text."""
        self.found.append(self.run)
        self.run = ""

    def handle_starttag(self, tag, attrs):
        values = dict(attrs)
        if not self.silent:
            self.found += [value or "" for name, value in attrs if name in ATTRIBUTES]
        if tag not in INLINE:
            self.end_run()
        other_language = "lang" in values and tag != "html" and values["lang"] != CODE
        if tag not in EMPTY and (self.silent or tag in SILENT or other_language):
            self.silent.append(tag)

    def handle_endtag(self, tag):
        if tag not in INLINE:
            self.end_run()
        if self.silent and tag not in EMPTY:
            self.silent.pop()

    def handle_data(self, data):
        if not self.silent:
            self.run += data


def texts_in(page):
    """The texts of a page."""
    texts = Texts()
    texts.feed(page)
    texts.end_run()
    return [" ".join(text.split()) for text in texts.found if text.strip()]


def not_in_it(page):
    """The texts of a page that are not in the made-up language, or not whole."""
    return [text for text in texts_in(page) if outside(text)]


def parts_of(catalogue):
    """What stands in each text of a catalogue between its values and tags, with the files of the text."""
    texts = [(text, [file for file, _ in entry.occurrences]) for entry in catalogue
             for text in ([entry.msgid, entry.msgid_plural] if entry.msgid_plural else [entry.msgid])]
    return [([part for part in re.split(r"\{[^{}]*\}|</?\d+/?>", between(text)) if part.strip()], files) for text, files in texts]
