"""The machine of an ARINC 429 data concentrator, by its C interface (a429.h).

    with a429.Station(open("table.toml", "rb").read()) as station:
        station.arrive(station.receiver("r"), 0x600000C1)
        for sent in station.cells(station.group("g")):
            print(sent)

`encode` and `decode` are for words, without a station.

The library is liba429.so.0: that of the archive or prefix that this file is in; without it, the one that the loader finds. The
variable A429_LIBRARY names another file. A call that is refused raises `Refused`. One thread at a time uses a station.
"""
import ctypes
import functools
import os
from typing import Iterator, List, NamedTuple, Optional

(OK, NO_SUCH, PARITY, FILTERED, NO_SOURCE, COUNT_SPENT, FRAME_END, MID_FRAME, SLOTS_SPENT, STATION_DIFFERS, CLOSED, MEMORY,
 TABLE, UNFIT, TOO_MANY_BUSES, TOO_LARGE, NO_ROOM, FIELD, PLAN_LINE) = range(19)

NAME_ROOM = 16
REFUSAL_ROOM = 92


class _Station(ctypes.Structure):
    _fields_ = [("held", ctypes.c_void_p), ("refusal_length", ctypes.c_uint32), ("refusal_text", ctypes.c_uint8 * REFUSAL_ROOM)]


class _Sent(ctypes.Structure):
    _fields_ = [("slot", ctypes.c_uint64), ("bus", ctypes.c_uint32), ("filled", ctypes.c_uint32), ("word", ctypes.c_uint32)]


class _Place(ctypes.Structure):
    _fields_ = [("bus", ctypes.c_uint32), ("offset", ctypes.c_uint32), ("period", ctypes.c_uint32)]


class _Fields(ctypes.Structure):
    _fields_ = [("data", ctypes.c_uint32), ("label", ctypes.c_uint8), ("sdi", ctypes.c_uint8), ("ssm", ctypes.c_uint8),
                ("parity", ctypes.c_uint8)]


class Sent(NamedTuple):
    """A cell that was sent. The slot is absolute: the first cell of each group is in the first slot that the station was opened with. The word is None if no word was sent in the cell."""
    bus: int
    slot: int
    word: Optional[int]


class Place(NamedTuple):
    """The place of an output: in each frame of its group it has the slots offset, offset + period, offset + 2 * period .. of one bus. The period is in slots."""
    bus: int
    offset: int
    period: int


class Fields(NamedTuple):
    """The fields of a word: label 0 to 255, SDI 0 to 3, data 0 to 524287, SSM 0 to 3. 0o203 is the label that is written 203."""
    label: int
    sdi: int
    data: int
    ssm: int


class Refused(Exception):
    """A refused call: its status, and its reason as a text."""

    def __init__(self, status: int, text: str):
        super().__init__(text)
        self.status = status


_TEXT = [ctypes.c_char_p, ctypes.c_size_t]
_ROOM = [ctypes.c_void_p, ctypes.c_size_t, ctypes.POINTER(ctypes.c_size_t)]
_SIZE = ctypes.POINTER(ctypes.c_size_t)
_CALLS = {
    "open": _TEXT + [ctypes.c_uint64],
    "open_planned": _TEXT + _TEXT + [ctypes.c_uint64],
    "arrive": [ctypes.c_size_t, ctypes.c_uint32, _SIZE],
    "cell": [ctypes.c_size_t, ctypes.POINTER(_Sent)],
    "frame": [ctypes.c_size_t, ctypes.POINTER(ctypes.c_uint64)],
    "publish": _TEXT + [ctypes.POINTER(ctypes.c_uint64)],
    "receiver": _TEXT + [_SIZE],
    "group": _TEXT + [_SIZE],
    "receiver_name": [ctypes.c_size_t] + _ROOM,
    "group_name": [ctypes.c_size_t] + _ROOM,
    "source_name": [ctypes.c_size_t] + _ROOM,
    "receivers": [_SIZE],
    "groups": [_SIZE],
    "buses": [ctypes.c_size_t, ctypes.POINTER(ctypes.c_uint32)],
    "frame_slots": [ctypes.c_size_t, ctypes.POINTER(ctypes.c_uint32)],
    "places": [ctypes.c_size_t, ctypes.c_size_t, ctypes.POINTER(_Place)],
    "refusal": _ROOM,
}
# These take no station.
_WORD_CALLS = {
    "encode": [ctypes.c_uint8, ctypes.c_uint8, ctypes.c_uint32, ctypes.c_uint8, ctypes.POINTER(ctypes.c_uint32)],
    "decode": [ctypes.c_uint32, ctypes.POINTER(_Fields)],
}


def _library_file():
    """The file of the library. In an archive or a prefix, this file is in lib/python3/dist-packages, and the library in lib."""
    near = os.path.join(os.path.dirname(os.path.realpath(__file__)), "..", "..", "liba429.so.0")
    return os.environ.get("A429_LIBRARY") or (near if os.path.exists(near) else "liba429.so.0")


@functools.lru_cache(maxsize=None)
def _load(file):
    library = ctypes.CDLL(file)
    for calls, first in ((_CALLS, [ctypes.POINTER(_Station)]), (_WORD_CALLS, [])):
        for name, arguments in calls.items():
            call = getattr(library, "a429_" + name)
            call.argtypes, call.restype = first + arguments, ctypes.c_uint32
    library.a429_close.argtypes, library.a429_close.restype = [ctypes.POINTER(_Station)], None
    return library


def _check_range(name, words, kinds):
    # ctypes would cut a number that is out of range
    for word, kind in zip(words, kinds):
        if isinstance(word, int) and not 0 <= word < 256 ** ctypes.sizeof(kind):
            raise OverflowError(f"{name}: {word} is out of range")


def encode(label: int, sdi: int, data: int, ssm: int) -> int:
    """The word of these fields, with the parity bit that makes the number of its ones odd. If the SDI or the SSM is above 3, or the data above 524287, it is refused with FIELD."""
    word = ctypes.c_uint32()
    _check_range("encode", (label, sdi, data, ssm), _WORD_CALLS["encode"])
    status = _load(_library_file()).a429_encode(label, sdi, data, ssm, word)
    if status:
        raise Refused(status, "refused field")
    return word.value


def decode(word: int) -> Fields:
    """The fields of a word. If an even number of its 32 bits are ones, it is refused with PARITY."""
    fields = _Fields()
    _check_range("decode", (word,), _WORD_CALLS["decode"])
    status = _load(_library_file()).a429_decode(word, fields)
    if status:
        raise Refused(status, "refused parity")
    return Fields(fields.label, fields.sdi, fields.data, fields.ssm)


class Station:
    """A station in operation, by the table's own plan or by that of a plan text. Receivers, groups and sources are numbered from 0 in table order."""

    def __init__(self, table: bytes, first_slot: int = 0, plan: Optional[bytes] = None):
        self._library, self._own = _load(_library_file()), _Station()
        if plan is None:
            self._call("open", table, len(table), first_slot)
        else:
            self._call("open_planned", table, len(table), plan, len(plan), first_slot)

    def __enter__(self):
        return self

    def __exit__(self, *_why):
        self.close()

    def __del__(self):
        if hasattr(self, "_own"):
            self.close()

    def close(self):
        """Closes the station. Each later call is refused with CLOSED."""
        self._library.a429_close(self._own)

    def arrive(self, receiver: int, word: int) -> int:
        """A word of 32 bits comes in at a receiver: the number of the source that keeps it."""
        return self._give("arrive", ctypes.c_size_t, receiver, word).value

    def cell(self, group: int) -> Sent:
        """The next cell of a group."""
        sent = self._give("cell", _Sent, group)
        return Sent(sent.bus, sent.slot, sent.word if sent.filled else None)

    def cells(self, group: int) -> Iterator[Sent]:
        """The cells of a group up to the end of its frame."""
        while True:
            try:
                yield self.cell(group)
            except Refused as refused:
                if refused.status != FRAME_END:
                    raise
                return

    def frame(self, group: int) -> int:
        """A group goes on to its next frame: the number of the plan that is in force for it."""
        return self._give("frame", ctypes.c_uint64, group).value

    def publish(self, table: bytes) -> int:
        """Proposes the plan of a newer table of the same station: its number."""
        return self._give("publish", ctypes.c_uint64, table, len(table)).value

    def receiver(self, name) -> int:
        """The number of the receiver with this name."""
        return self._numbered("receiver", name)

    def group(self, name) -> int:
        """The number of the group with this name."""
        return self._numbered("group", name)

    def receiver_name(self, receiver: int) -> str:
        return self._named("receiver_name", receiver)

    def group_name(self, group: int) -> str:
        return self._named("group_name", group)

    def source_name(self, source: int) -> str:
        return self._named("source_name", source)

    def receivers(self) -> int:
        """How many receivers the station has."""
        return self._give("receivers", ctypes.c_size_t).value

    def groups(self) -> int:
        """How many groups the station has."""
        return self._give("groups", ctypes.c_size_t).value

    def buses(self, group: int) -> int:
        """How many buses a group has by the plan in force."""
        return self._give("buses", ctypes.c_uint32, group).value

    def frame_slots(self, group: int) -> int:
        """How many slots a group's frame has by the plan in force."""
        return self._give("frame_slots", ctypes.c_uint32, group).value

    def place(self, group: int, output: int) -> Place:
        """The place of an output of a group by the plan in force. Outputs are numbered from 0 in table order."""
        place = self._give("places", _Place, group, output)
        return Place(place.bus, place.offset, place.period)

    def places(self, group: int) -> List[Place]:
        """The place of each output of a group, in table order, by the plan in force."""
        self.buses(group)  # refused if there is no such group
        places = []
        while True:
            try:
                places.append(self.place(group, len(places)))
            except Refused as refused:
                if refused.status != NO_SUCH:
                    raise
                return places

    def _call(self, name, *words):
        _check_range(name, words, _CALLS[name])
        status = getattr(self._library, "a429_" + name)(self._own, *words)
        if status:
            raise Refused(status, self._refusal())

    def _refusal(self) -> str:
        room, length = ctypes.create_string_buffer(REFUSAL_ROOM), ctypes.c_size_t()
        self._library.a429_refusal(self._own, room, REFUSAL_ROOM, length)
        return room.raw[:length.value].decode()

    def _give(self, name, kind, *words):
        place = kind()
        self._call(name, *words, place)
        return place

    def _numbered(self, name, text) -> int:
        text = text.encode() if isinstance(text, str) else text
        return self._give(name, ctypes.c_size_t, text, len(text)).value

    def _named(self, name, number) -> str:
        room, length = ctypes.create_string_buffer(NAME_ROOM), ctypes.c_size_t()
        self._call(name, number, room, NAME_ROOM, length)
        return room.raw[:length.value].decode()
