"""What was seen of the rows, kept in the file beside the page, so that a page can be made of rows that were played one by one."""
import csv
import datetime
import hashlib
import io
import pathlib

from .table import ROWS

COLUMNS = ("Row", "Sizes", "Server", "Seen", "Missed", "Times", "Load", "Day", "Build", "Profile")


class Line:
    """What was seen of one server in a row; a Line is kept by the names of its columns, each a text."""

    def __init__(self, **texts):
        self.__dict__.update({name.lower(): texts.get(name) or "" for name in COLUMNS})

    def texts(self):
        return [getattr(self, name.lower()) for name in COLUMNS]


def build_of(program, words):
    """Which build a program is: these words, and the beginning of its checksum."""
    return f"{words}, sha256 {hashlib.sha256(pathlib.Path(program).read_bytes()).hexdigest()[:8]}"


class Kept:
    """The lines of the file, by row; a row that is played again takes the place of what was seen of it before."""

    def __init__(self, file, build):
        self.file, self.build, self.rows = pathlib.Path(file), build, {}
        if self.file.exists():
            for it in csv.DictReader(io.StringIO(self.file.read_text())):
                self.rows.setdefault(it["Row"], []).append(Line(**it))

    def keep(self, row, played, profile):
        """What was seen of a row, and where our server's time went where it is missed."""
        same = {
            "Row": row.letter, "Sizes": sizes(row.sizes), "Missed": played.missed, "Times": f"{played.times}", "Load": f"{played.load:.1f}",
            "Day": datetime.date.today().isoformat(), "Build": self.build,
        }
        lines = [Line(**same, Server=name, Seen=it.words, Profile=profile if name == "ours" else "") for name, it in played.seen.items()]
        self.rows[row.letter] = lines
        self.file.write_text(self.text())

    def text(self):
        text = io.StringIO()
        lines = csv.writer(text, lineterminator="\n")
        lines.writerow(COLUMNS)
        for row in ROWS:
            lines.writerows(it.texts() for it in self.rows.get(row.letter, []))
        return text.getvalue()


def sizes(them):
    """The sizes of a row, as a person reads them."""
    return ", ".join(f"{name} {listed(value)}" for name, value in them.items())


def listed(value):
    if isinstance(value, dict):
        return f"({sizes(value)})"
    if isinstance(value, tuple):
        return " and ".join(map(listed, value))
    if isinstance(value, bool):
        return "yes" if value else "no"
    return f"{value:,}" if isinstance(value, int) else str(value)
