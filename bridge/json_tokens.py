"""What is meant by a word in JSON that is none there: a number as others write it, or a truth value of Python."""

import re

from entries import hint

TOKEN = re.compile(r"[-+.0-9A-Za-z_/]+")
FRACTION = re.compile(r"-?[0-9]+/[0-9]+", re.ASCII)
OF_JSON = re.compile(r"-?(?:0|[1-9][0-9]*)(?:\.[0-9]+)?(?:[eE][-+]?[0-9]+)?|true|false|null", re.ASCII)
WORDS = {"true": "true", "false": "false"}
TRAILING = re.compile(r",\s*[\]}]")

# How many digits a whole number has that the program surely takes without quotes, and one more.
MOST_PLAIN = 19


def token_at(text, at):
    """The word that a place stands in or behind, without quotes before it, or None."""
    for found in TOKEN.finditer(text):
        if found.start() <= at <= found.end() and text[found.start() - 1 : found.start()] != '"':
            return found
    return None


def meant(word):
    """What is meant by a word, or None where nothing is known that comes near."""
    if OF_JSON.fullmatch(word):
        return None
    if FRACTION.fullmatch(word):
        return f'{word} without quotes: a fraction is a text, "{word}"'
    if word.lower() in WORDS:
        return f"{word} is {WORDS[word.lower()]} in JSON"
    if word == "None":
        return "None is no value: leave the property out"
    number = hint(word)
    written = number if number.lstrip("-").isdigit() and len(number) < MOST_PLAIN else f'"{number}"'
    return f"{word} is no number of JSON: write {written}" if number else None


def meant_at(text, at):
    """What is meant by the word at this place, and where that begins; or None and the place itself."""
    comma = at if text[at : at + 1] == "," else len(text[:at].rstrip()) - 1
    if comma >= 0 and TRAILING.match(text, comma):
        return "a comma stands before the closing bracket", at
    found = token_at(text, at)
    told = meant(found[0]) if found else None
    return (told, found.start()) if told else (None, at)
