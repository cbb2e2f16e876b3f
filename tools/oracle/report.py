"""The report: the whole text that the report program prints of one sheet."""

import fetch
import numbers
import pins
import sheet
import word


def text(given, after=(0, 0)):
    """The report of a sheet's bytes. Its writes are played from reset.

    Where an operation on the record was refused, `after` is its number and place; the sheet's own refusal stands first.
    """
    found = sheet.read(given)
    played = word.play(word.RESET, found.writes)
    number, place = judge(found, played)
    if number == 0:
        number, place = after
    if number == 11:
        lines = refusal(number, place)
    elif number != 0:
        lines = refusal(number, place) + [field("deed", found.deed)] + notes(found)
    else:
        lines = success(found, played[2])
    return b"".join(line + b"\n" for line in lines)


def judge(found, played):
    """Number and place, in the report's order."""
    lent = numbers.Lent(
        sheet_number=found.number,
        sheet_place=found.place,
        played_number=played[0],
        played_place=played[1],
        pins=found.pins,
        word=played[2],
    )
    return numbers.told(numbers.REPORT, lent)


def field(name, value):
    """A line of the report."""
    return name.encode() + b"=" + value


def refusal(number, place):
    """The first two lines of a refused report."""
    return [field("status", b"%d" % number), field("place", b"%d" % place)]


def notes(found):
    """The number of annotations and their lines."""
    return [field("annotations", b"%d" % len(found.annotations))] + found.annotations


def success(found, control):
    """The lines of a report with status 0. `start` is the first address."""
    start = fetch.addresses(control, found.pins, found.rule)[0]
    return [
        field("status", b"0"),
        field("deed", found.deed),
        field("pins", b"%02X" % found.pins),
        field("control", b"%04X" % control),
        field("rule", b"%d" % found.rule),
        field("mode", pins.mode(found.pins).encode()),
        field("start", b"%04X" % start),
    ] + notes(found)
