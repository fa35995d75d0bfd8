"""Pages of the office as a reader has them, and their forms as a browser sends them."""

import html
import re


def flat(text):
    """A page as a reader has it: without marks, and with one space in place of many."""
    return " ".join(html.unescape(re.sub(r"<[^>]*>", " ", text)).split())


def seen_at(page, path):
    """The text of a page."""
    return flat(page.get(path)[2])


def boxes(text):
    """The boxes of a form: name, value, and whether each is ticked."""
    found = re.findall(r'<input type="checkbox" name="(\w+)" value="(\w+)"([^>]*)>', text)
    return {(name, value): "checked" in more for name, value, more in found}


def filled_in(page, path, sure=True, but=""):
    """A form with the boxes that are ticked by themselves, but for one person, the one that says that the clerk has looked, and
    yes to the lists, if the form asks for it."""
    shown = page.get(path)[2]
    ticked = [(name, value) for (name, value), on in boxes(shown).items() if on and value != but]
    said = [("lists", "yes")] if '<input type="radio" name="lists" value="yes" required>' in shown else []
    return [*page.hidden(path, path.partition("?")[0]).items(), *ticked, *said, *([("sure", "yes")] if sure else [])]


def send_as_it_is(page, path, sure=True, but=""):
    """Sends such a form, and gives the address of the next page."""
    return page.post(path.partition("?")[0], filled_in(page, path, sure, but))[1]["location"]
