"""The files of a folder, and of the folders in it."""
import os


def files_below(folder, report, skipped=None):
    """The path of each file in turn. Folders that can't be read, those behind a link and those to be skipped are left out."""

    def unreadable(error):
        report.unread("folders that can't be read", error.filename)

    for place, folders, files in os.walk(folder, onerror=unreadable):
        folders.sort()
        if skipped:
            folders[:] = [name for name in folders if not skipped(os.path.join(place, name))]
        for name in folders:
            if os.path.islink(os.path.join(place, name)):
                report.leave_out("folders behind a link", os.path.join(place, name))
        for name in sorted(files):
            yield os.path.join(place, name)


def is_text(content):
    return b"\0" not in content
