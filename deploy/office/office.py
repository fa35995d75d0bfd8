"""The office's parts, put together."""

from backups import Backups
from copies import Copies
from figures_kept import Kept
from journal import Journal
from languages_kept import Languages
from placing import beside, part_of
from program import Program
from settings import Settings
from told import Told


class Office:  # pylint: disable=too-few-public-methods  # a place for the parts
    """The file with its copies, its journal, and the program that works on it."""

    def __init__(self, settings: Settings) -> None:
        self.settings, self.program, self.copies = settings, Program(settings), Copies(settings)
        self.journal, self.backups = Journal(settings.journal), Backups(settings, self.copies)
        self.told = Told(settings.told, self.journal)
        self.figures = Kept(settings.figures)
        self.languages = Languages(settings.languages)

    def clear(self) -> None:
        """Puts away what a killed keeper left, and notes of its unfinished changes that their answers are not known."""
        self.copies.clear()
        beside(self.settings.file, ".watch").unlink(missing_ok=True)
        self.copies.place.finish()
        part_of(self.settings.figures).unlink(missing_ok=True)
        self.backups.clear()
        self.journal.end_unfinished()
        self.told.clear()
