"""Words of scripts that the models share."""
import itertools

# The longest line.
WIDTH = 140


def runs(data):
    """Bytes as runs, `aa*3 00`, and `-` for none."""
    words = []
    for value, group in itertools.groupby(data):
        count = len(list(group))
        words.append(f"{value:02x}" if count == 1 else f"{value:02x}*{count}")
    return " ".join(words) or "-"


def reads(data, start, end):
    """Lines that read a range of a file, as many as are needed, past its end too."""
    at = start
    while at < end:
        length = end - at
        while True:
            found = data[at:at + length]
            line = f"read {at} {length} = {runs(found + bytes(length - len(found)))}"
            if len(line) <= WIDTH:
                break
            length = length // 2
        yield line
        at += length


def rounded_up(n, unit):
    return -(-n // unit) * unit
