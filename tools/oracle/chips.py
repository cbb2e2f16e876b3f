"""Images straight from the chips (CR 4): both directions, and what the program prints."""

# By k, the number of address pins: how many banks there may be.
BANKS = {6: (1, 2), 7: (1, 2), 8: (1,)}


def chip_place(k, address):
    """Where the byte of an address in its bank lies when the chip is read row by row."""
    return address % 2 ** k * 2 ** k + address // 2 ** k


def lengths(k):
    """The lengths that are accepted: so many banks of 2^k × 2^k places. None for another k."""
    return [banks * 4 ** k for banks in BANKS.get(k, ())]


def refusal(k, lent, room):
    """13 for another k or length, then 14 for a short destination, or 0."""
    if len(lent) not in lengths(k):
        return 13
    if len(room) < len(lent):
        return 14
    return 0


def to_image(k, chip, image):
    """From what was read off the chips to an image, bank by bank, told as (number, place, value)."""
    number = refusal(k, chip, image)
    if number == 0:
        for bank in range(0, len(chip), 4 ** k):
            for address in range(4 ** k):
                image[bank + address] = chip[bank + chip_place(k, address)]
    return number, 0, 0


def to_chip(k, image, chip):
    """From an image to what would be read off the chips, bank by bank, told as (number, place, value)."""
    number = refusal(k, image, chip)
    if number == 0:
        for bank in range(0, len(image), 4 ** k):
            for address in range(4 ** k):
                chip[bank + chip_place(k, address)] = image[bank + address]
    return number, 0, 0


def program(arguments, given):
    """What the program prints of its arguments, k and a direction, and of standard input. A refusal prints nothing there."""
    ways = {b"image": to_image, b"chip": to_chip}
    if len(arguments) != 2 or not arguments[0].isdigit() or arguments[1] not in ways:
        return b""
    if len(arguments[0]) > 64:
        return b""
    room = bytearray(len(given))
    number, _, _ = ways[arguments[1]](int(arguments[0]), given, room)
    return bytes(room) if number == 0 else b""
