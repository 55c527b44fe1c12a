"""The statuses that a command ends with, and what is raised for them."""
from __future__ import annotations

from .report import Unreadable

# 0 is done; 129, 130, 141 and 143 are signals
REFUSED = 1  # something couldn't be read or was refused, or a query can't be understood
WORDS = 2  # the words of the command, the folder or a path
LINK = 5  # nobody listens at the server's address, or what does isn't a server
DISK = 6  # a file of this machine can't be read or written
MEMORY = 7
COLLISION = 8
OTHER_SERVER = 9  # the server has what this archive didn't send
NO_JOURNAL = 10  # the journal was lost or is damaged
OTHER_KEY = 11
LOCKED = 12  # another command works in the folder
NO_KEY = 13
KEY_COMMAND = 14
OLDER_JOURNAL = 15  # the folder was put back from a copy
OLDER_SERVER = 16  # the server lacks what it had acknowledged
BUSY = 17  # the server serves another connection, or is silent
SERVER_ENDED = 18  # the server ended within an exchange: its disk is full, or it was stopped
NO_TEXTS = 19  # the names of the texts were lost
NO_STATE = 20  # this machine knows nothing of the archive
OTHER_ANSWER = 21  # the server answered a search with other documents than those that this archive sent
NOT_STORED = 22  # texts that are indexed aren't at the vault yet
FORGED = 23  # the vault handed out a text that isn't the one that was put there


class Trouble(Unreadable):
    """Why a command can't go on and what to do about it, in a line, and the status that it ends with."""

    def __init__(self, status: int, line: str) -> None:
        super().__init__(line)
        self.status = status
