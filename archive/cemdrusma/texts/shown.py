"""The text that a reader of HTML sees."""
import html.parser


class Shown(html.parser.HTMLParser):
    """Gathers the text that a reader of HTML sees."""

    def __init__(self):
        super().__init__()
        self.pieces = []
        self.hidden = None

    def handle_starttag(self, tag, attrs):
        if tag in ("script", "style"):
            self.hidden = tag

    def handle_endtag(self, tag):
        if tag == self.hidden:
            self.hidden = None

    def handle_data(self, data):
        if self.hidden is None:
            self.pieces.append(data)


def shown_in(text):
    parser = Shown()
    try:
        parser.feed(text)
        parser.close()
    except AssertionError:
        # what the parser answers to a declaration that it doesn't know: its words are taken with the tags
        return text
    return " ".join(parser.pieces)
