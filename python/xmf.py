"""Questions about XMF files, answered by the proved reader: ctypes over libxmf.so.0, no other dependency.
Python 3.10 or newer.

    import xmf
    data = open("tune.xmf", "rb").read()
    try:
        print(xmf.sheet(data), end="")
    except xmf.Refusal as refusal:
        print(refusal.number, refusal.place, refusal.meaning)

Each function takes the bytes of a file and reads it afresh; nothing is kept between calls but on a Shelf, and threads may call at the same
time. What is refused raises Refusal. Places count from 0 at the first byte. What resource, retitle, mend, to_utf8 and frames give may hold
hidden data: it is not for a ticket.

The library is the one that XMF_LIBRARY names; that of the installation that this file belongs to; or, in a checkout, target/lib/libxmf.so.0,
which `tools/build.sh so` makes. A copy of this file elsewhere takes the one that the dynamic linker finds.
"""

from __future__ import annotations

import array
import ctypes
import functools
import os
import pathlib
import threading
from dataclasses import dataclass, field
from typing import Iterator, Optional, Union

# tables.py: begin (made of share/version, share/refusals.tsv and share/checks.tsv)
__version__ = "0.1.0"

#: The refusals: number, then name and meaning.
REFUSALS = {
    1: ("notXmf", "fewer than 8 bytes, or not an XMF file"),
    2: ("badVersion", "the version is not 1.00, 1.01 or 2.00"),
    3: ("cutShort", "a field runs past the part that holds it"),
    4: ("badNumber", "a number has more than four bytes, or a GUID more than nineteen"),
    5: ("wrongLength", "the length in the header is not the number of bytes received"),
    6: ("badType", "the types table has a type twice, or more than 32 entries"),
    7: ("badTree", "the tree begins inside the header, or ends before it begins or past the file"),
    8: ("badNode", "a node does not fit its holder (the root: does not fill the tree), its header does not fit the node, or metadata or unpackers run past the header"),
    9: ("tooDeep", "a node at depth 17"),
    10: ("noRowLeft", "no row left: more than 256 nodes or 1,024 item rows, or the lent tables are smaller"),
    11: ("badContents", "a universal content of length 0, or a type that the file does not declare"),
    12: ("badUnpacker", "an unpacker of an unknown kind"),
    13: ("badReference", "reference 0, or above 4"),
    14: ("badFolder", "a folder that is packed, or whose contents do not follow in it"),
    15: ("bytesLeft", "bytes left between a part's last field and its end"),
    16: ("badTarget", "a reference leads into the header, past the file's end, or into the tree where no node starts"),
    17: ("tooLarge", "more than 268,435,455 bytes"),
    18: ("noSuchRow", "the row asked for is not there"),
    19: ("endsAtFolder", "resolving ends at a folder"),
    20: ("endsAtUri", "resolving ends at a URI"),
    21: ("tooManyHops", "a fifth reference would be followed"),
    22: ("noRoom", "the sheet, a resource, a converted text or the new file is longer than its buffer"),
    23: ("noSuchItem", "no such item"),
    24: ("badDetached", "a detached node is a folder, or shares a byte with another detached node; placed at the number that refers to it"),
    25: ("badDescription", "a content description is not readable: a field is cut short, a number has more than four bytes, a kind is above 5, or bytes are left over"),
    26: ("badText", "UTF-16 of odd length or with half of a surrogate pair, or bad UTF-8"),
    27: ("noSuchCard", "call 0, or the shelf has no card with this desk, call and boat"),
    28: ("noFreeCard", "all cards of the shelf are taken"),
    29: ("alreadyThere", "the shelf has a card with this desk, call and boat already"),
    30: ("sheetTooLong", "the sheet is longer than a part of the shelf"),
    31: ("badSheet", "the sheet is not well formed; the place is a line's number, counted from 1"),
    32: ("tooManyFiles", "a 1,001st file"),
    33: ("notATag", "fewer than ten bytes, not an ID3 tag, or not version 4 of it"),
    34: ("badTag", "the tag is cut short, has a size byte of 80h or more, or too small an extended size"),
    35: ("unsynchronised", "the tag or a frame is unsynchronised"),
    36: ("refersElsewhere", "a node has reference 2 or 3"),
    37: ("notATitle", "the content to be corrected is hidden, or one of several versions"),
    38: ("resultTooLarge", "the file with the new title would have more than 268,435,455 bytes"),
    39: ("damagedShelf", "the shelf has more than 16 cards, or a taken card that is faulty"),
}

#: The checks of the verdict; at 0 that all hold.
CHECKS = (
    "it is a Mobile XMF file: all checks hold",
    "not version 2.00 with type 2 and revision 1",
    "the root is not a folder with file nodes only",
    "a node has a reference other than 1 and 2",
    "a node has unpackers",
    "a child does not have exactly one own field 3 (resource format), universal, format 6 or 7, that names a tune or an instrument bank",
    "there is not exactly one tune, or there is more than one instrument bank, or the bank comes after the tune",
    "field 13 (what the tune needs) is missing on the tune, stands elsewhere, or is not readable",
    "a header, metadata or universal length above 65,535, or a field number or a name's length above 256",
)
# tables.py: end

#: The standard fields by name.
FILE_TYPE, NODE_NAME, NODE_NUMBER, RESOURCE_FORMAT, FILENAME, FILENAME_EXTENSION, MAC_OS_TYPE, MIME_TYPE = range(8)
TITLE, COPYRIGHT, COMMENT, AUTOSTART, PRELOAD, CONTENT_DESCRIPTION, ID3 = range(8, 15)

#: The calls of the library, with the parameters of crates/capi_c; tools/declarations.py compares them. A slice is a pointer and a length.
_CALLS = {
    "xmf_read_tree": "file: &[u8], nodes: &mut [u64], items: &mut [u64], answer: &mut [u64]",
    "xmf_find": "file: &[u8], nodes: &mut [u64], items: &mut [u64], row: usize, kind: u64, number: u64, name: &[u8], answer: &mut [u64]",
    "xmf_find_own": "file: &[u8], nodes: &mut [u64], items: &mut [u64], row: usize, kind: u64, number: u64, name: &[u8], answer: &mut [u64]",
    "xmf_resolve": "file: &[u8], nodes: &mut [u64], items: &mut [u64], row: usize, answer: &mut [u64]",
    "xmf_resource": "file: &[u8], nodes: &mut [u64], items: &mut [u64], row: usize, out: &mut [u8], answer: &mut [u64]",
    "xmf_voice_count": "file: &[u8], nodes: &mut [u64], items: &mut [u64], item_row: usize, channel: u64, resource: u64, answer: &mut [u64]",
    "xmf_judge": "file: &[u8], nodes: &mut [u64], items: &mut [u64], answer: &mut [u64]",
    "xmf_account": "file: &[u8], nodes: &mut [u64], items: &mut [u64], totals: &mut [u64], answer: &mut [u64]",
    "xmf_write_sheet": "file: &[u8], nodes: &mut [u64], items: &mut [u64], sheet: &mut [u8], answer: &mut [u64]",
    "xmf_write_sheet2": "file: &[u8], nodes: &mut [u64], items: &mut [u64], sheet: &mut [u8], answer: &mut [u64]",
    "xmf_correct_title": "file: &[u8], nodes: &mut [u64], items: &mut [u64], item_row: usize, title: &[u8], out: &mut [u8], answer: &mut [u64]",
    "xmf_mend": "file: &[u8], nodes: &mut [u64], items: &mut [u64], copy: &mut [u8], lines: &mut [u8], answer: &mut [u64]",
    "xmf_utf16_to_utf8": "data: &[u8], text: &mut [u8], answer: &mut [u64]",
    "xmf_utf8_to_utf16": "text: &[u8], data: &mut [u8], answer: &mut [u64]",
    "xmf_move_sheet": "sheet: &[u8], out: &mut [u8], answer: &mut [u64]",
    "xmf_id3_count": "tag: &[u8], answer: &mut [u64]",
    "xmf_id3_frame": "tag: &[u8], number: usize, answer: &mut [u64]",
    "xmf_shelf_put": "cards: &mut [u64], text: &mut [u8], desk: u64, call: u64, boat: u64, sheet: &[u8], answer: &mut [u64]",
    "xmf_shelf_get": "cards: &[u64], text: &[u8], desk: u64, call: u64, boat: u64, out: &mut [u8], answer: &mut [u64]",
    "xmf_shelf_drop": "cards: &mut [u64], text: &mut [u8], desk: u64, call: u64, boat: u64, answer: &mut [u64]",
}

_NODE_WORDS, _ITEM_WORDS, _ANSWER_WORDS, _TOTAL_WORDS = 13, 10, 13, 11
_ALL_NODES, _ALL_ITEMS = 256, 1024
_MOST_CARDS, _CARD_WORDS = 16, 4
_NO_ROOM, _NO_SUCH_ITEM = 22, 23
#: Enough for the lines of mend: two, in which a number has at most nine digits.
_LINES_ROOM = 80
#: The longest file there may be, which is also more than any other result can have.
_LONGEST = 268_435_455

Bytes = Union[bytes, bytearray, memoryview]


class Refusal(Exception):
    """Why a question is refused: number and place, and the table's meaning and name of the number."""

    def __init__(self, number: int, place: int = 0, meaning: Optional[str] = None):
        self.number = number
        self.place = place
        self.name, listed = REFUSALS.get(number, ("unlisted", "not in the list"))
        self.meaning = listed if meaning is None else meaning
        super().__init__(number, place, self.meaning)

    def __str__(self) -> str:
        return f"refusal {self.number} at {self.place}: {self.meaning}"


@dataclass(frozen=True)
class Node:
    """A node. Its parent is None for the root and for a detached node; the depth of a detached node is 0.

    The reference is 1 (the contents are in the node), 2 (from a place in the file on), 3 (those of another node) or 4 (a URI). Target and
    extent are the place and the length of the contents, of the bytes to the file's end, or of the URI; for 3 the node's place, and 0.
    """

    row: int
    start: int
    length: int
    header_length: int
    contained: int
    parent: Optional[int]
    depth: int
    reference: int
    target: int
    extent: int
    unpackers: int
    unpacker_count: int
    items: int
    detached: bool


@dataclass(frozen=True)
class Item:
    """A metadata item, or one of its versions.

    The field is the number of a standard one, or the bytes of a custom name. The version is 0 for a universal content, and so is the type.
    The data is not in the representation, so that hidden data is not printed by mistake.
    """

    row: int
    node: int
    number: int
    field: Union[int, bytes]
    version: int
    type: int
    format: int
    place: int
    data: bytes = field(repr=False)

    @property
    def hidden(self) -> bool:
        """Whether it is hidden: its format is odd."""
        return self.format % 2 == 1


@dataclass(frozen=True)
class File:
    """A file's version (100, 101 or 200), nodes and items, in the order of their rows."""

    version: int
    nodes: tuple[Node, ...]
    items: tuple[Item, ...]

    def items_of(self, row: int) -> Iterator[Item]:
        """The items of the node of a row."""
        return (item for item in self.items if item.node == row)


@dataclass(frozen=True)
class Resource:
    """Where a resource lies, the node row whose unpackers apply, and the number of references followed."""

    place: int
    length: int
    row: int
    references: int


@dataclass(frozen=True)
class Verdict:
    """0, or the number of the first check that fails, with its meaning. It is true for a Mobile XMF file."""

    check: int
    meaning: str

    def __bool__(self) -> bool:
        return self.check == 0


@dataclass(frozen=True)
class Need:
    """What a content description, an item row, says that the tune needs for a channel and a resource."""

    item_row: int
    channel: int
    resource: int
    count: int


@dataclass(frozen=True)
class Kinds:
    """Numbers of bytes by kind."""

    header: int = 0
    nodes: int = 0
    metadata: int = 0
    visible: int = 0
    hidden: int = 0
    unpackers: int = 0
    references: int = 0
    inline: int = 0
    rest: int = 0


@dataclass
class Totals:
    """Sums over files for account; they begin all zero."""

    files: int = 0
    refused: int = 0
    kinds: Kinds = Kinds()


@dataclass(frozen=True)
class Change:
    """A field of the header that was changed: its name (FileLength or TreeEnd), its place, its old and its new value."""

    field: str
    place: int
    old: int
    new: int


@dataclass(frozen=True)
class Mended:
    """A file whose header is mended, and a line for each field that was changed: its name, its place, its old and its new value, with tabs
    between. A file that is accepted as it is has no line. The file, which holds the hidden data of the old one, is not in the representation.
    """

    data: bytes = field(repr=False)
    lines: str

    @property
    def changes(self) -> tuple[Change, ...]:
        """The fields that were changed, in file order."""
        words = (text.split("\t") for text in self.lines.splitlines())
        return tuple(Change(name, *map(int, numbers)) for name, *numbers in words)


@dataclass(frozen=True)
class Frame:
    """A frame of an ID3 tag. The data is not in the representation."""

    name: bytes
    place: int
    data: bytes = field(repr=False)


# ---- the library


def _path() -> str:
    here = pathlib.Path(__file__).resolve().parent
    if "XMF_LIBRARY" in os.environ:
        return os.environ["XMF_LIBRARY"]
    if here.parts[-3:] == ("share", "xmf", "python"):
        return str(here.parents[2] / "lib/libxmf.so.0")
    if (here.parent / "crates.txt").exists():
        return str(here.parent / "target/lib/libxmf.so.0")
    return "libxmf.so.0"


@functools.lru_cache(maxsize=None)
def _library() -> ctypes.CDLL:
    path = _path()
    try:
        return ctypes.CDLL(path)
    except OSError as error:
        raise OSError(f"{error}: XMF_LIBRARY names the library; in a checkout tools/build.sh so makes it; ./install PREFIX installs it") from None


def _parameters(text: str) -> list[tuple[str, str]]:
    """Names and types of a call."""
    return [tuple(part.split(": ")) for part in text.split(", ")]  # type: ignore[misc]


@functools.lru_cache(maxsize=None)
def _function(name: str):
    function = getattr(_library(), name)
    types: list = []
    for _, kind in _parameters(_CALLS[name]):
        if kind.startswith("&"):
            types += [ctypes.c_void_p, ctypes.c_size_t]
        else:
            types.append({"usize": ctypes.c_size_t, "u64": ctypes.c_uint64}[kind])
    function.argtypes, function.restype = types, None
    return function


def _call(name: str, *arguments) -> list[int]:
    """Calls a function with all arguments but the answer, and gives the answer's values."""
    words: list = []
    answer = (ctypes.c_uint64 * _ANSWER_WORDS)()
    for (parameter, kind), argument in zip(_parameters(_CALLS[name]), [*arguments, answer], strict=True):
        if kind.startswith("&"):
            words += [argument, len(argument)]
        elif 0 <= argument < 1 << 64:
            words.append(argument)
        else:
            raise ValueError(f"{parameter} is out of range: {argument}")
    _function(name)(*words)
    if answer[0]:
        raise Refusal(answer[0], answer[1])
    return answer[2:]


class _Tables:
    """Both tables at full size."""

    def __init__(self) -> None:
        self.nodes = (ctypes.c_uint64 * (_ALL_NODES * _NODE_WORDS))()
        self.items = (ctypes.c_uint64 * (_ALL_ITEMS * _ITEM_WORDS))()

    def ask(self, name: str, data: bytes, *more) -> list[int]:
        return _call(name, data, self.nodes, self.items, *more)


def _written(call, least: int) -> bytes:
    """What a call writes into room of this size, or of twice and so on where that is too short."""
    size = max(least, 1)
    while True:
        room = (ctypes.c_uint8 * size)()
        try:
            length = call(room)
        except Refusal as refusal:
            if refusal.number != _NO_ROOM or size > _LONGEST:
                raise
            size *= 2
        else:
            return ctypes.string_at(room, length)


# ---- the questions about a file


def _item(data: bytes, row: int, words: list[int]) -> Item:
    node, number, kind, name, name_length, version, type_, form, place, length = words
    of = name if kind == 0 else data[name : name + name_length]
    return Item(row, node, number, of, version, type_, form, place, data[place : place + length])


def read(data: Bytes) -> File:
    """Reads the tree, and the detached nodes that references lead to."""
    data, tables = bytes(data), _Tables()
    version, node_count, item_count = tables.ask("xmf_read_tree", data)[:3]
    nodes = []
    for row in range(node_count):
        words = tables.nodes[row * _NODE_WORDS : (row + 1) * _NODE_WORDS]
        parent = None if words[4] == row else words[4]
        nodes.append(Node(row, *words[:4], parent, *words[5:12], words[12] == 1))
    items = [_item(data, row, tables.items[row * _ITEM_WORDS : (row + 1) * _ITEM_WORDS]) for row in range(item_count)]
    return File(version, tuple(nodes), tuple(items))


def sheet(data: Bytes, edition: int = 1) -> str:
    """The support sheet, in edition 1 or 2."""
    if edition not in (1, 2):
        raise ValueError(f"there is no edition {edition}")
    data, tables, name = bytes(data), _Tables(), "xmf_write_sheet" if edition == 1 else "xmf_write_sheet2"
    return _written(lambda room: tables.ask(name, data, room)[0], 1 << 16).decode("utf-8")


def verdict(data: Bytes) -> Verdict:
    """Whether it is a Mobile XMF file."""
    check = _Tables().ask("xmf_judge", bytes(data))[0]
    return Verdict(check, CHECKS[check])


def find(data: Bytes, row: int, of: Union[int, str, bytes], own: bool = False) -> Item:
    """Finds the first item of a field on the node of a row, or (unless own) on the nearest node above it that has one.

    The field is the number of a standard one, or the name of a custom one; a name in str is taken as UTF-8. Hidden items are found too.
    """
    data = bytes(data)
    kind, number, name = (0, of, b"") if isinstance(of, int) else (1, 0, of.encode() if isinstance(of, str) else bytes(of))
    found, *words = _Tables().ask("xmf_find_own" if own else "xmf_find", data, row, kind, number, name)
    return _item(data, found, words)


def resolve(data: Bytes, row: int) -> Resource:
    """Says where the resource of a row's node lies, following at most four references."""
    return Resource(*_Tables().ask("xmf_resolve", bytes(data), row)[:4])


def resource(data: Bytes, row: int) -> bytes:
    """The bytes of the resource of a row's node. They may hold hidden data: not for a ticket."""
    data, tables = bytes(data), _Tables()
    return _written(lambda room: tables.ask("xmf_resource", data, row, room)[1], resolve(data, row).length)


def need(data: Bytes, item_row: int, channel: int, resource: int) -> int:
    """The count that a content description, an item row, gives for a channel and a resource, both numbered from 0."""
    return _Tables().ask("xmf_voice_count", bytes(data), item_row, channel, resource)[0]


def needs(data: Bytes, item_row: Optional[int] = None) -> list[Need]:
    """All counts of a content description, an item row, or without one of every visible description."""
    data = bytes(data)
    if item_row is None:
        rows = [item.row for item in read(data).items if item.field == CONTENT_DESCRIPTION and item.version == 0 and item.format == 6]
        return [one for row in rows for one in needs(data, row)]
    counts: list[Need] = []
    channel = resource = 0
    while True:
        try:
            counts.append(Need(item_row, channel, resource, need(data, item_row, channel, resource)))
            resource += 1
        except Refusal as refusal:
            # past the last resource of a channel, or the last channel
            if refusal.number != _NO_SUCH_ITEM or not counts:
                raise
            if resource == 0:
                return counts
            channel, resource = channel + 1, 0


def account(data: Bytes, totals: Optional[Totals] = None) -> Kinds:
    """Counts the bytes of a file by kind, and adds them to the totals, in which a refused file is counted too."""
    totals = Totals() if totals is None else totals
    words = [totals.files, totals.refused, *vars(totals.kinds).values()]
    if not all(0 <= word < 1 << 64 for word in words):
        raise ValueError("a total is out of range")
    sums = (ctypes.c_uint64 * _TOTAL_WORDS)(*words)
    try:
        return Kinds(*_Tables().ask("xmf_account", bytes(data), sums)[:9])
    finally:
        totals.files, totals.refused, totals.kinds = sums[0], sums[1], Kinds(*sums[2:])


def retitle(data: Bytes, item_row: int, title: Union[str, Bytes]) -> bytes:
    """The file with a title as the data of an item row, which must be visible and universal. It holds the hidden data of the old one.

    A title in str is converted for a row in UTF-16 (format 2), and is taken as UTF-8 for one of format 0; any other visible row wants bytes.
    """
    data, tables = bytes(data), _Tables()
    if isinstance(title, str):
        items = read(data).items
        form = items[item_row].format if 0 <= item_row < len(items) else 0
        # a hidden row is refused whatever the title is
        if form > 3 and form % 2 == 0:
            raise ValueError(f"item row {item_row} has format {form}: its data is given as bytes")
        title = to_utf16(title) if form == 2 else title.encode()
    new = bytes(title)
    return _written(lambda room: tables.ask("xmf_correct_title", data, item_row, new, room)[0], len(data) + len(new) + 64)


def mend(data: Bytes) -> Mended:
    """The file with FileLength and TreeEnd set right in the bytes that they have, and what was changed. No other byte differs.

    Refused, as the unchanged file is, where either cannot be read as a number, or where no values of the two, in their bytes, make a file
    that is accepted. A file whose bytes are missing cannot be mended.
    """
    data = bytes(data)
    copy, lines = (ctypes.c_uint8 * len(data))(), (ctypes.c_uint8 * _LINES_ROOM)()
    length, of_lines = _Tables().ask("xmf_mend", data, copy, lines)[:2]
    return Mended(ctypes.string_at(copy, length), ctypes.string_at(lines, of_lines).decode("ascii"))


# ---- without a file


def to_utf8(data: Bytes) -> str:
    """The text of UTF-16, high byte first. One leading FEFF is dropped."""
    data = bytes(data)
    return _written(lambda room: _call("xmf_utf16_to_utf8", data, room)[0], 2 * len(data)).decode("utf-8")


def to_utf16(text: Union[str, Bytes]) -> bytes:
    """A text in UTF-16, high byte first. Bytes are taken as UTF-8."""
    data = text.encode("utf-8", "surrogatepass") if isinstance(text, str) else bytes(text)
    return _written(lambda room: _call("xmf_utf8_to_utf16", data, room)[0], 2 * len(data))


def other_edition(text: Union[str, Bytes]) -> str:
    """A sheet moved to its other edition. The place of a refusal is the number of a line, from 1."""
    data = text.encode("utf-8", "surrogateescape") if isinstance(text, str) else bytes(text)
    return _written(lambda room: _call("xmf_move_sheet", data, room)[0], len(data) + 1).decode("utf-8", "surrogateescape")


def frames(tag: Bytes) -> list[Frame]:
    """The frames of an ID3v2.4 tag, such as the data of an item of field ID3."""
    tag, found = bytes(tag), []
    for number in range(_call("xmf_id3_count", tag)[0]):
        name, place, length = _call("xmf_id3_frame", tag, number)[:3]
        found.append(Frame(name.to_bytes(4, "big"), place, tag[place : place + length]))
    return found


class Shelf:
    """A shelf that desks share. It keeps sheets, each under a desk, a call and a boat, all numbers; call 0 is none.

    The cards are words, four for each card: desk, call (0 where the card is free), boat, and the length of the sheet. The text has 16 equal
    parts, and the sheet of a card is in the part with the card's number. Without either, the shelf is fresh: 16 free cards, and 65,536 bytes
    for each. With both it is that of these, which are changed in place: keep them, or send them, to have the shelf again. One that has more
    than 16 cards, or whose cards do not fit together, is refused with 39; no calls on a fresh one lead there.

    What a desk is answered depends on its own calls, and on which of them meet 28 (no free card), alone. What is refused changes nothing.
    Threads may share a shelf: one call is made at a time.
    """

    def __init__(self, cards: Optional[array.array[int]] = None, text: Optional[bytearray] = None):
        self.cards = array.array("Q", bytes(8 * _MOST_CARDS * _CARD_WORDS)) if cards is None else cards
        self.text = bytearray(_MOST_CARDS << 16) if text is None else text
        if self.cards.typecode != "Q":
            raise ValueError("cards are words: an array of type Q")
        self._lock = threading.Lock()

    def put(self, desk: int, call: int, boat: int, sheet: Union[str, Bytes]) -> None:
        """Puts a sheet into the lowest free card. Refused where there is one already (29), it is longer than a part (30), or no card is free."""
        data = sheet.encode("utf-8", "surrogateescape") if isinstance(sheet, str) else bytes(sheet)
        self._ask("xmf_shelf_put", desk, call, boat, data)

    def get(self, desk: int, call: int, boat: int) -> str:
        """The sheet that was put; 27 where there is none. Bytes that are no UTF-8 come back as other_edition has them, by surrogateescape."""
        got = _written(lambda room: self._ask("xmf_shelf_get", desk, call, boat, room)[0], len(self.text) // _MOST_CARDS)
        return got.decode("utf-8", "surrogateescape")

    def drop(self, desk: int, call: int, boat: int) -> None:
        """Drops a sheet; 27 where there is none."""
        self._ask("xmf_shelf_drop", desk, call, boat)

    def _ask(self, name: str, *arguments) -> list[int]:
        with self._lock:
            cards = (ctypes.c_uint64 * len(self.cards)).from_buffer(self.cards)
            text = (ctypes.c_uint8 * len(self.text)).from_buffer(self.text)
            return _call(name, cards, text, *arguments)
