"""The classes of a configuration's text and the order of their labels, for the tools of this folder."""
import re
from dataclasses import dataclass

CLASS = re.compile(r"class (\S+) (\S+)")
LABEL = re.compile(r"(\d+)\{(.*)\}/(\d+)\{(.*)\}")


@dataclass(frozen=True)
class Label:
    """Levels and categories of secrecy and of integrity."""

    secrecy: int
    secret_categories: frozenset
    integrity: int
    integrity_categories: frozenset


@dataclass(frozen=True)
class Class:
    """A class of a configuration: its number, its name, its label as it is written, and what that says."""

    number: int
    name: str
    written: str
    label: Label


def categories(text):
    return frozenset(text.split(",")) - {""}


def label_of(text):
    """The label that a text spells, None where it spells none."""
    found = LABEL.fullmatch(text)
    return Label(int(found[1]), categories(found[2]), int(found[3]), categories(found[4])) if found else None


def at_or_below(low, high):
    """Whether information may flow from the one label to the other."""
    secrecy = low.secrecy <= high.secrecy and low.secret_categories <= high.secret_categories
    return secrecy and high.integrity <= low.integrity and high.integrity_categories <= low.integrity_categories


def classes_of(lines):
    """The classes of a configuration, in their order. A line whose label can't be read is left out."""
    rows = [found.groups() for found in map(CLASS.match, lines) if found and label_of(found[2])]
    return [Class(number, name, written, label_of(written)) for number, (name, written) in enumerate(rows)]
