"""An archive of mails, notes and files that a server keeps searchable: what the command `archive` is made of, and how texts are read."""
import os


def version() -> str:
    """The version of this checkout, or of what was installed."""
    here = os.path.dirname(os.path.abspath(__file__))
    for place in (os.path.join(here, os.pardir), os.path.join(here, os.pardir, os.pardir)):
        path = os.path.join(place, "VERSION")
        if os.path.isfile(path):
            with open(path, encoding="ascii") as file:
                return file.read().strip()
    return "of unknown version"
