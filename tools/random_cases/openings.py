"""What opening a file by its bytes answers, by the rules of the formats alone: an image, or why it is refused."""
import re

from random_cases.images import DAMAGED, GREATEST, Qcow2, Vmdk, number

DAMAGED_HEADER, DAMAGED_DESCRIPTOR, UNSUPPORTED, LIMIT = "error 4", "error 6", "error 7", "error 12"
FORMAT_NAME, DATA_FILE_NAME = 0xE2792ACA, 0x44415441


class Refused(Exception):
    """A rule is broken, with the answer that tells of it."""


def check(holds, answer):
    if not holds:
        raise Refused(answer)


def is_text(data):
    try:
        data.decode("utf-8")
    except UnicodeDecodeError:
        return False
    return True


def taken(data, at, length):
    """Bytes at a place; past the end all are 0."""
    found = data[at:at + length]
    return found + bytes(length - len(found))


def check_extensions(first, start, end):
    """Extensions from a place of the first cluster on, up to the end of their area."""
    at = start
    while end - at >= 8:
        kind, length = number(first, at, 4), number(first, at + 4, 4)
        if kind == 0:
            return
        check(at + 8 + length <= end, DAMAGED_HEADER)
        if kind in (FORMAT_NAME, DATA_FILE_NAME):
            check(is_text(first[at + 8:at + 8 + length]), DAMAGED_HEADER)
        at += 8 + -(-length // 8) * 8


def opened_qcow2(data):
    """The image that is opened for reading."""
    def field(at, width):
        return number(data, at, width)

    version, bits = field(4, 4), field(20, 4)
    check(field(0, 4) == 0x514649FB, DAMAGED_HEADER)
    check(version in (2, 3), UNSUPPORTED)
    order, length = (field(96, 4), field(100, 4)) if version == 3 else (4, 72)
    check(9 <= bits <= 21 and order <= 6, DAMAGED_HEADER)
    cluster = 1 << bits
    check(version == 2 or 104 <= length <= cluster, DAMAGED_HEADER)
    incompatible = field(72, 8) if version == 3 else 0
    check(field(32, 4) == 0 and incompatible < 16, UNSUPPORTED)
    check(field(24, 8) < 1 << 63 and field(36, 4) <= 1 << 22 and field(56, 4) * cluster // 8 <= 1 << 20, LIMIT)
    for at in (40, 48):
        check(field(at, 8) % cluster == 0 and field(at, 8) <= GREATEST, DAMAGED_HEADER)
    first, name, name_length = taken(data, 0, cluster), field(8, 8), field(16, 4)
    is_named = name != 0 and name_length != 0
    if is_named:
        check(name_length <= 1023 and name + name_length <= cluster, DAMAGED_HEADER)
        check(is_text(first[name:name + name_length]), DAMAGED_HEADER)
    if version == 3:
        check_extensions(first, length, name if is_named and name >= length else cluster)
    check(not incompatible & 4, UNSUPPORTED)
    for index in range(field(36, 4)):
        word = field(field(40, 8) + 8 * index, 8)
        place = word & 0x00FF_FFFF_FFFF_FE00
        check(not word & 0x7F00_0000_0000_01FF and place % cluster == 0, DAMAGED)
    return Qcow2(data, is_named)


def extent(words):
    """The extent of a line of these words: access, sectors, file and sector."""
    access, *rest = words
    check(rest and rest[0].isascii() and rest[0].isdecimal(), DAMAGED_DESCRIPTOR)
    sectors, rest = int(rest[0]), rest[1:]
    check(rest, DAMAGED_DESCRIPTOR)
    check(rest[0] in ("FLAT", "ZERO"), UNSUPPORTED)
    if rest[0] == "ZERO":
        check(len(rest) == 1, DAMAGED_DESCRIPTOR)
        return access, sectors, None, 0
    check(len(rest) in (2, 3) and re.fullmatch('"[^"]*"', rest[1]), DAMAGED_DESCRIPTOR)
    check(len(rest) == 2 or rest[2].isascii() and rest[2].isdecimal(), DAMAGED_DESCRIPTOR)
    return access, sectors, rest[1][1:-1], int(rest[2]) if len(rest) == 3 else 0


def check_key(line):
    """A line `key=value`."""
    check("=" in line, DAMAGED_DESCRIPTOR)
    key, value = (it.strip(" \t") for it in line.split("=", 1))
    check(key != "version" or value in ("1", "2", "3"), UNSUPPORTED)
    check(key != "parentCID" or value.lower() == "ffffffff", UNSUPPORTED)


def opened_vmdk(data, files):
    """The disk of a descriptor, whose files are opened by their names. Names have no blanks here."""
    text = data.split(b"\0")[0]
    check(len(text) <= 1 << 20 and is_text(text), DAMAGED_DESCRIPTOR)
    lines = [line.removesuffix("\r") for line in text.decode("utf-8").split("\n")]
    check(lines[0] == "# Disk DescriptorFile", DAMAGED_DESCRIPTOR)
    extents = []
    for line in (line.strip(" \t") for line in lines[1:]):
        words = re.split("[ \t]+", line)
        if words[0] in ("RW", "RDONLY", "NOACCESS"):
            extents.append(extent(words))
        elif line and not line.startswith("#"):
            check_key(line)
    return Vmdk([(access, sectors, None if name is None else files[name], sector) for access, sectors, name, sector in extents])
