"""The table of endings."""

ENDINGS = {
    0: "finished",
    1: "wrong size",
    2: "broken layout",
    3: "count out of range",
    4: "variable level out of range",
    5: "parent rule broken",
    6: "tree rule broken",
    7: "command or field out of range",
    8: "blocks do not match",
    9: "budget out of range",
    10: "buffers do not fit",
    11: "follow-on not whole",
    12: "spare byte not zero",
    13: "node out of order",
    14: "area too short",
    15: "no place free",
    21: "flow rule broken",
    22: "node does not exist",
    23: "table full",
    24: "board full",
    25: "budget used up",
    27: "result out of range",
}
FINISHED, FLOW, ABSENT, FULL_TABLE, FULL_BOARD, USED_UP, OVERFLOW = 0, 21, 22, 23, 24, 25, 27

REFUSALS = [number for number in ENDINGS if 0 < number < FLOW]
STOPS = [number for number in ENDINGS if number >= FLOW]


def refused(number):
    """Whether the number turns a job or a script back; from 21 on, a run has stopped."""
    return 0 < number < FLOW


def ending_text(number):
    return f"{number} ({ENDINGS.get(number, 'unknown')})"
