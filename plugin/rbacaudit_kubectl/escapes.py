"""The characters that aren't to be seen, and how they are escaped wherever a text is shown: one table for all.

Texts are those of bytes in UTF-8, in which a byte that is none is a surrogate (Python's surrogateescape).
"""

from __future__ import annotations

import json
import re

# Controls, formats, separators and blanks but the space; what Unicode 15 calls ignorable; surrogates; and the blank of
# Braille. (A table and no call of unicodedata, so that each Python escapes the same.)
UNSEEN = (
    (0x00, 0x1f), (0x7f, 0xa0), (0xad, 0xad), (0x34f, 0x34f), (0x600, 0x605), (0x61c, 0x61c), (0x6dd, 0x6dd),
    (0x70f, 0x70f), (0x890, 0x891), (0x8e2, 0x8e2), (0x115f, 0x1160), (0x1680, 0x1680), (0x17b4, 0x17b5),
    (0x180b, 0x180f), (0x2000, 0x200f), (0x2028, 0x202f), (0x205f, 0x206f), (0x2800, 0x2800), (0x3000, 0x3000),
    (0x3164, 0x3164), (0xd800, 0xdfff), (0xfe00, 0xfe0f), (0xfeff, 0xfeff), (0xffa0, 0xffa0), (0xfff0, 0xfffb),
    (0x110bd, 0x110bd), (0x110cd, 0x110cd), (0x13430, 0x1343f), (0x1bca0, 0x1bca3), (0x1d173, 0x1d17a),
    (0xe0000, 0xe0fff))
_ABOVE = ''.join('%s-%s' % (chr(first), chr(last)) for first, last in UNSEEN[1:])
_HIDDEN = re.compile('[%s]' % _ABOVE)
_ANY = re.compile('[\\x00-\\x1f%s]' % _ABOVE)
_CONTROLS = re.compile('[\\x00-\\x08\\x0b-\\x1f\\x7f]')


def bytes_of(text: str) -> bytes:
    """The bytes that a text was read from."""
    try:
        return text.encode('utf-8', 'surrogateescape')
    except UnicodeEncodeError:  # a surrogate of JSON, which no bytes in UTF-8 stand for
        return text.encode('utf-8', 'surrogatepass')


def text_of(data: bytes) -> str:
    """The text of some bytes, whatever they are."""
    return data.decode('utf-8', 'surrogateescape')


def escaped(text: str, as_json: bool = False) -> str:
    """Text as a terminal may get it: what is unseen above U+001F as `\\x` and two digits for each of its bytes. JSON has
    `\\u` and four digits instead, so it means what it meant."""
    if text.isascii() and '\x7f' not in text:
        return text
    return _HIDDEN.sub((lambda found: json.dumps(found[0])[1:-1]) if as_json else _octets, text)


def printable(text: str) -> str:
    """What others say: escaped, and controls of ASCII but tabs and newlines are question marks."""
    return escaped(_CONTROLS.sub('?', text))


def on_one_line(text: str) -> str:
    """The same, with `\\n` for each newline, so no line of what others say begins as one of ours."""
    return printable(text).replace('\n', '\\n')


def _octets(found: re.Match[str]) -> str:
    return ''.join('\\x%02x' % byte for byte in bytes_of(found[0]))


def escape_title(text: str) -> str:
    """A text of the page: what is unseen by its code, as in [U+202E]."""
    return _ANY.sub(lambda one: '[U+%04X]' % ord(one[0]), text)


def script_class() -> str:
    """The inside of a class of characters of a regular expression in JavaScript, with the flag u."""
    return ''.join('\\u{%x}-\\u{%x}' % ends for ends in UNSEEN)
