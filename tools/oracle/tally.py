"""CR 10, the batch tally: one count for each status, the refusals in their order, and the tally after a history of entries."""

TOP_STATUS = 22
FULL = 65535


def empty():
    """A tally in which nothing is entered."""
    return [0] * (TOP_STATUS + 1)


def refusal(counts, status):
    """The number: 21 for a status above the top one, then 22 where the counts already sum to 65,535 or more, or 0."""
    if status > TOP_STATUS:
        return 21
    if sum(counts) >= FULL:
        return 22
    return 0


def enter(counts, status):
    """Enters a status, and tells (number, place, value). Refused, the tally stays."""
    number = refusal(counts, status)
    if number == 0:
        counts[status] += 1
    return number, 0, 0


def accepted(history):
    """The entries of a history from an empty tally that are accepted: of those with a count the first 65,535."""
    return [status for status in history if status <= TOP_STATUS][:FULL]


def after(history):
    """The tally after a history from an empty one: each count is the number of accepted entries with that status."""
    taken = accepted(history)
    return [taken.count(status) for status in range(TOP_STATUS + 1)]
