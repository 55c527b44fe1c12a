"""The rows of a CSV file."""
import csv
import io
import textwrap


def rows_in(text):
    """Each row as its number from 1 and its fields. Raises csv.Error with the number of the row before it."""
    outside_quotes = "".join(text.partition("\n")[0].split('"')[::2])
    separator = max(",;\t", key=outside_quotes.count)
    csv.field_size_limit(len(text) + 1)
    number = 0
    try:
        for number, row in enumerate(csv.reader(io.StringIO(text, newline=""), delimiter=separator), 1):
            yield number, row
    except csv.Error as error:
        raise csv.Error(f"is no CSV after row {number}: {error}") from error


def shortened(text):
    """The text on a line of at most 72 characters."""
    line = " ".join(text.split())
    return line if len(line) <= 72 else textwrap.shorten(line[:80], 72, placeholder=" ..")
