"""Texts as a terminal may show them: a mark that it would obey, or that turns the writing, is written out."""

import codecs
import json

# What ends a line, or stands between words, as it is.
KEPT = "\n\r\t"


def written_out(text):
    """A text in which each mark that is not printed stands as JSON writes it."""
    return "".join(it if it.isprintable() or it in KEPT else json.dumps(it)[1:-1] for it in text)


class Screen:
    """Bytes in UTF-8 that come in blocks, as a terminal may show them."""

    def __init__(self):
        self.decoder = codecs.getincrementaldecoder("utf-8")("replace")

    def of(self, block):
        return written_out(self.decoder.decode(block)).encode()
