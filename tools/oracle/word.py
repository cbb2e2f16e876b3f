"""The control word: its sixteen bits, and what writes to $FFC0-$FFDF do to them."""

# Bit 0 first.
BITS = ("V0", "V1", "V2", "F0", "F1", "F2", "F3", "F4", "F5", "F6", "P", "R0", "R1", "M0", "M1", "TY")

RESET = 0x0000

FIRST_ADDRESS = 0xFFC0
LAST_ADDRESS = 0xFFDF


def bit(word, name):
    """One bit of a word, by its name."""
    return word >> BITS.index(name) & 1


def sam_mode(word):
    """V2-V0 as a number."""
    return bit(word, "V0") + 2 * bit(word, "V1") + 4 * bit(word, "V2")


def is_control(address):
    """Whether a write to this address is a control write."""
    return FIRST_ADDRESS <= address <= LAST_ADDRESS


def write(word, address):
    """The word after one control write: an even address clears its bit, an odd one sets it."""
    mask = 1 << (address - FIRST_ADDRESS) // 2
    if address % 2 == 0:
        return word & ~mask
    return word | mask


def play(word, writes):
    """Plays a list of writes from a word, told as (number, place, word). An address elsewhere refuses the whole list."""
    for place, address in enumerate(writes):
        if not is_control(address):
            return 10, place, word
    for address in writes:
        word = write(word, address)
    return 0, 0, word
