"""Mails: their header fields and their texts, decoded.

A mail above LARGE bytes is read without the parts that aren't text, line by line, and of each text the first
TEXT_BYTES bytes: so an attachment takes no memory, however large it is.
"""
import datetime
import email
import email.errors
import email.header
import email.utils
import email.parser
import io
import re
from email.message import Message  # noqa: F401

# what a person reads of a header
FIELDS = ("from", "to", "cc", "subject", "date")
LARGE = 2**20
TEXT_BYTES = 2**22
LINE_BYTES = 2**16
# names of character sets that mails have and Python hasn't
OTHER_CHARSETS = {
    "iso-8859-8-i": "iso-8859-8",
    "iso-8859-8-e": "iso-8859-8",
    "windows-874": "cp874",
    "x-windows-949": "cp949",
    "x-gbk": "gbk",
    "x-sjis": "shift_jis",
    "x-euc-jp": "euc_jp",
    "x-mac-roman": "mac_roman",
    "x-mac-cyrillic": "mac_cyrillic",
    "x-user-defined": "latin-1",
    "unicode-1-1-utf-7": "utf-7",
    "unicode-1-1-utf-8": "utf-8",
}
# codecs of Python that no mail is written in; the first two take minutes for a long text
NO_CHARSETS = {"idna", "punycode", "undefined"}


class AsTheyStand(type(Message().policy)):
    """Hands out header fields as they stand, for `field_text`. The standard policies are slow, and raise errors of
    many kinds at malformed fields."""

    def header_fetch_parse(self, name, value):
        return value


AS_THEY_STAND = AsTheyStand()


def message_in(file, place, report):
    """The mail in a file that is open at its begin."""
    content = file.read(LARGE + 1)
    if len(content) > LARGE:
        file.seek(0)
        content = b"".join(Lightened(file, place, report).lines())
    return email.message_from_bytes(content, policy=AS_THEY_STAND)


def message_as_it_stands(file):
    """The mail in a file with its body as one text, for one that can't be taken apart."""
    message = email.parser.BytesHeaderParser(policy=AS_THEY_STAND).parsebytes(file.read(TEXT_BYTES))
    for name in ("content-type", "content-transfer-encoding"):
        del message[name]
    return message


class Raw(io.RawIOBase):
    """A file to be read in pieces: those that the mailbox module hands out are slow when they are read by lines."""

    def __init__(self, file):
        super().__init__()
        self.file = file

    def readable(self):
        return True

    def readinto(self, buffer):
        piece = self.file.read(len(buffer))
        buffer[: len(piece)] = piece
        return len(piece)


class Lightened:
    """A mail's lines without the bodies of parts that aren't text."""

    def __init__(self, file, place, report):
        self.file, self.place, self.report = io.BufferedReader(Raw(file), LINE_BYTES), place, report
        self.boundaries = []  # of the parts that are open, the outermost first
        self.header = []  # its lines so far; None in a body
        self.left = TEXT_BYTES  # how much of a body, or of a header, still counts

    def lines(self):
        while True:
            line = self.file.readline(LINE_BYTES)
            if not line:
                return
            if line.startswith(b"--") and self.is_boundary(line):
                yield line
            elif len(line) <= self.left:
                self.left -= len(line)
                yield line
                self.take(line)
            elif self.left:
                self.left = 0
                self.report.leave_out(f"what mails have beyond {TEXT_BYTES} bytes of a text", self.place)

    def is_boundary(self, line):
        text = line.rstrip()
        for place, boundary in enumerate(self.boundaries):
            if text == b"--" + boundary:
                del self.boundaries[place + 1 :]
                self.header, self.left = [], TEXT_BYTES
                return True
            if text == b"--" + boundary + b"--":
                del self.boundaries[place:]
                self.header, self.left = None, 0
                return True
        return False

    def take(self, line):
        """A line of a header; with its last one it is known what the body is."""
        if self.header is None:
            return
        self.header.append(line)
        if line.strip(b"\r\n"):
            return
        part = email.message_from_bytes(b"".join(self.header), policy=AS_THEY_STAND)
        kind, boundary = part.get_content_maintype(), part.get_boundary()
        if kind == "multipart" and boundary:
            self.boundaries.append(boundary.encode("utf-8", "surrogateescape"))
        self.header = [] if kind == "message" else None
        self.left = TEXT_BYTES if kind in ("text", "message") else 0


def field_text(value, place, report):
    """A header field with its encoded words decoded (RFC 2047)."""
    value = report.decoded(value.encode("utf-8", "surrogateescape"), place)
    try:
        pieces = email.header.decode_header(value)
        return "".join(
            piece if isinstance(piece, str) else piece.decode(known(charset) if charset else "raw-unicode-escape")
            for piece, charset in pieces
        )
    except (email.errors.HeaderParseError, LookupError, ValueError):
        report.leave_out("header fields that can't be decoded, taken as they stand", place)
        return value


def known(charset):
    """The name that Python has for a character set. Raises LookupError for what is none."""
    charset = charset.lower()
    if charset in NO_CHARSETS:
        raise LookupError(charset)
    return OTHER_CHARSETS.get(charset, charset)


def shown_in(text):
    """The text that a reader of HTML sees; what finds it is loaded only where there is HTML."""
    from .shown import shown_in as shown  # pylint: disable=import-outside-toplevel

    return shown(text)


def pieces_of(message, place, report, fields=None):
    """The header fields and texts of a mail, and of the mails in it: a name and a value, or "" and a text. Of the fields
    all, or those that are named."""
    for part in message.walk():
        for name, value in part.items():
            if fields is None or name.lower() in fields:
                yield name, field_text(value, place, report)
        if part.is_multipart():
            continue
        # a part of several without their boundary is one text
        if part.get_content_maintype() not in ("text", "multipart"):
            report.leave_out("parts of mails that aren't text", place)
            continue
        text = decoded(part, place, report)
        yield "", shown_in(text) if part.get_content_subtype() == "html" else text


def decoded(part, place, report):
    content = part.get_payload(decode=True)
    if part.defects:
        report.leave_out("what can't be read of damaged parts of mails", place)
    try:
        return report.decoded(content, place, known(part.get_content_charset("utf-8")))
    except (LookupError, ValueError, TypeError):
        report.leave_out("character sets that aren't known, taken for UTF-8", place)
        return report.decoded(content, place)


def subject_of(message, place, report):
    return " ".join(field_text(message["subject"] or "(no subject)", place, report).split())


def label_of(message, place, report):
    """A mail in a line: its day, who wrote it, and its subject."""
    name, address = email.utils.parseaddr(field_text(message["from"] or "", place, report))
    writer = " ".join((name or address or "(no sender)").split())
    return f"{day_of(message['date'] or '')} {writer}: {subject_of(message, place, report)}"


def day_of(field):
    """A Date field's day as 2009-11-17."""
    try:
        year, month, day = email.utils.parsedate_tz(field)[:3]
        return datetime.date(year, month, day).isoformat()
    except (TypeError, ValueError, IndexError, OverflowError):
        return "(no date)"


def time_of(message):
    """When a mail was written, in seconds since 1970, and that day where it was written; None if it doesn't say."""
    try:
        fields = email.utils.parsedate_tz(message["date"] or "")
        return int(email.utils.mktime_tz(fields)), datetime.date(*fields[:3]).isoformat()
    except (TypeError, ValueError, IndexError, OverflowError):
        return None


def begins_a_mail(content):
    """Whether a file that begins so is a mail: its header's first lines are fields, and two of them are those that a mail has."""
    header = re.split(rb"\r?\n\r?\n", content, 1)[0]
    if not re.match(rb"[!-9;-~]+[ \t]*:", header):
        return False
    return len(set(re.findall(rb"^(from|to|date|subject|message-id|received|return-path)[ \t]*:", header.lower(), re.MULTILINE))) > 1


def begins_an_mbox(content):
    return re.match(rb"From [^\n]*\n[!-9;-~]+[ \t]*:", content) is not None
