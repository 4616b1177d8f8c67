"""JSON documents that others wrote: what stands where in them, and how messages name it."""

from __future__ import annotations

import json
import os
from collections.abc import Iterable, Iterator, Sequence
from contextlib import suppress
from typing import Any

from .escapes import bytes_of, text_of

MOST_BYTES = 500    # of a text in a message


def text_in(value: Any, *names: str) -> str:
    """The text at this place in an object, or '' if there is none."""
    for name in names:
        value = value.get(name) if isinstance(value, dict) else None
    return value if isinstance(value, str) else ''


def list_in(value: Any, name: str) -> list[Any]:
    """A list in an object, or none."""
    found = value.get(name) if isinstance(value, dict) else None
    return found if isinstance(found, list) else []


def told(text: str) -> str:
    """A text in a message: as JSON has it, and cut where it is long. A character that is cut in two is dropped."""
    data = bytes_of(json.dumps(text, ensure_ascii=False)[1:-1])
    return text_of(data) if len(data) <= MOST_BYTES else data[:MOST_BYTES].decode('utf-8', 'ignore') + '..'


def first_of(names: Sequence[str], most: int = 3) -> str:
    """The first of some names, and how many more there are."""
    return ', '.join(names[:most]) + (' and %d more' % (len(names) - most) if len(names) > most else '')


def first_three(names: Iterable[str]) -> str:
    """The first three of some names in order, each once, and how many more there are."""
    return first_of(sorted(set(names), key=bytes_of))


def read_text(path: str) -> str:
    """What is in a file. Nothing of a pipe, which can't be read again, nor of a file that nobody can read."""
    with suppress(OSError):
        if os.path.isfile(path):
            with open(path, 'rb') as file:
                return text_of(file.read())
    return ''


def read_document(path: str) -> Any:
    """The JSON value in such a file, or None."""
    return read_json(read_text(path))


def read_json(text: str) -> Any:
    """The JSON value of a text, or None."""
    with suppress(ValueError, RecursionError):
        return json.loads(text)
    return None


def objects_in(*paths: str) -> Iterator[dict[str, Any]]:
    """The objects in files: the items of lists, with the kind and the version that these imply, and documents alone."""
    for document in map(read_document, paths):
        implied = {'apiVersion': text_in(document, 'apiVersion'), 'kind': text_in(document, 'kind').removesuffix('List')}
        # (a null counts as missing)
        yield from ({**implied, **{name: value for name, value in item.items() if value is not None}}
                    for item in list_in(document, 'items') or [document] if isinstance(item, dict))


def item_of(document: Any, item: int) -> tuple[Any, str]:
    """An item of a list, counted from 1, or the document itself for 0; and its kind, which that of its list may imply."""
    if not item:
        return document, text_in(document, 'kind')
    items = list_in(document, 'items')
    found = items[item - 1] if item <= len(items) else None
    return found, text_in(found, 'kind') or text_in(document, 'kind').removesuffix('List')
