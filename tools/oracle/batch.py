"""CR 10, the batch: a line for every record, done or refused, in the order of the input, and after the last one the tally."""

import numbers
import png
import report
import sheet
import tally
import word

# Four paths of 4,095 bytes, and three tabs.
LONGEST_LINE = 16383


def is_bad(line):
    """Whether a line names no record: it is too long, has not four parts, or has no name or one with byte 13, as of a Windows line end."""
    parts = line.split(b"\t")
    return len(line) > LONGEST_LINE or len(parts) != 4 or parts[3] == b"" or b"\r" in parts[3]


def copy_of(given, image, font):
    """What is told of a record, its number and place, and its copy: what each file holds, or None where it is refused."""
    found = sheet.read(given)
    played = word.play(word.RESET, found.writes)
    number, place = report.judge(found, played)
    if number != 0:
        return number, place, None
    strip, frame = bytearray(6144), bytearray(49152)
    number, place, border = numbers.show(played[2], found.pins, image, font, strip, frame, found.rule)
    if number != 0:
        return number, place, None
    length = numbers.LINES * numbers.width(found.pins)
    return 0, 0, {b".strip": bytes(strip[:length]), b".png": png.picture(border, bytes(frame)), b".report": report.text(given)}


def kept(name, copy, files):
    """Whether the files of a copy are there as they would be made, whether one of their names is taken, or neither. Then they are made."""
    there = {suffix: files.get(name + suffix) for suffix in copy}
    if there == copy:
        return b"whole"
    if any(content is not None for content in there.values()):
        return b"taken"
    files.update({name + suffix: copy[suffix] for suffix in copy})
    return None


def told(line, number, files):
    """What is told of one line of the input: the status or a word instead of it, the place, and the name. A bad line's place is its number, from 1."""
    if is_bad(line):
        return b"bad-line", number, b"-"
    sheet_path, image_path, font_path, name = line.split(b"\t")
    paths = [path for path in (sheet_path, image_path, font_path) if (path, path) != (font_path, b"-")]
    if any(path not in files for path in paths):
        return b"unread", 0, name
    status, place, copy = copy_of(files[sheet_path], files[image_path], b"" if font_path == b"-" else files[font_path])
    if status != 0:
        return b"%d" % status, place, name
    return kept(name, copy, files) or b"0", 0, name


def tally_lines(counts):
    """A line for each status that occurred, and one with the sum."""
    for status, count in enumerate(counts):
        if count:
            yield b"tally\t%d\t%d" % (status, count)
    yield b"tally\tsum\t%d" % sum(counts)


def lines(given, files):
    """All lines that the batch prints. Where an entry finds the tally full it is printed, behind the lines that it counts, and another is begun."""
    counts = tally.empty()
    for number, line in enumerate(given.removesuffix(b"\n").split(b"\n") if given else [], 1):
        status, place, name = told(line, number, files)
        if status.isdigit():
            if tally.refusal(counts, int(status)) == 22:
                yield from tally_lines(counts)
                counts = tally.empty()
            tally.enter(counts, int(status))
        yield b"%s\t%d\t%s" % (status, place, name)
    yield from tally_lines(counts)


def program(given, files):
    """What the batch prints of its input, with the files that are there, to which it adds those that it makes."""
    return b"".join(line + b"\n" for line in lines(given, files))
