"""The findings of the independent audit in the language of the reader.

The audit itself is one file in English, which works without this page. So its sentences are recognized here by their forms.
"""

import functools
import re

from languages import N_, _

# A name in braces stands for a code, such as a room's. But `how` stands for one of HOW, and `links` and `gains` for several
# sentences.
SENTENCES = (
    N_("{person} has no word"),
    N_("{person} has no result"),
    N_("{person} has a word or a result, and takes no part"),
    N_("{person} has {room}, and by the definition gets {right}: {how}"),
    N_("{person} has {room}, and by the definition gets no room: {how}"),
    N_("{person} has no room, and by the definition gets {right}: {how}"),
    N_("{room} was given twice: to {person} and to {other}"),
    N_("{person} has {room}, which takes no part in the round"),
    N_("{person} has {room}, which is less than the own room {home}"),
    N_("{person} has no room, which is less than the own room {home}"),
    N_("{person} has {room}, which is not on the list"),
    N_("{person} would rather have {room}, which nobody got"),
    N_("all of these would gain by passing on their rooms: {gains}"),
)
HOW = (
    N_("in step {step} nothing was left to ask for"),
    N_("in step {step} nothing was left to ask for but the own room"),
    N_("in step {step} {links}"),
)
LINKS = (
    N_("{person}, the first in the order of those left, asked for {room}"),
    N_("{person} asked for {room}, which came from {giver}, who lived there"),
    N_("{person} asked for {room}, which came from {giver}, the first in the order of those left"),
)
GAINS = (N_("{person} would rather have {room}, which {other} has"),)
LISTS = {"links": LINKS, "gains": GAINS}
BETWEEN = "; "  # two sentences of a list


@functools.cache
def form_of(sentence: str) -> re.Pattern[str]:
    """What a sentence looks like with its values."""
    def group(name: re.Match[str]) -> str:
        return f"(?P<{name[1]}>{'.+' if name[1] in ('how', *LISTS) else '[A-Z0-9-]+'})"
    return re.compile(re.sub(r"\\\{(\w+)\\\}", group, re.escape(sentence)))


def told(text: str, sentences: tuple[str, ...] = SENTENCES) -> str:
    """A sentence of the audit in the language that is spoken. One that is unknown stays as it is."""
    for sentence in sentences:
        if found := form_of(sentence).fullmatch(text):
            return _(sentence, **{name: part_of(name, value) for name, value in found.groupdict().items()})
    return text


def part_of(name: str, value: str) -> str:
    """A part of a sentence: a code, or sentences again."""
    if name == "how":
        return told(value, HOW)
    if name in LISTS:
        return BETWEEN.join(told(one, LISTS[name]) for one in value.split(BETWEEN))
    return value
