"""What calls write: the structs of cupdaisy.h."""
from ctypes import c_bool, c_int32, c_size_t, c_uint32, c_uint64, c_void_p

from .kernel import DecodeParams, Pps, Record, ScalingMatrix, SliceParams, Sps


class Handle(Record):
    """A session, or none. It is never copied."""
    _fields_ = [("at", c_void_p), ("full", c_bool)]


class Receipt(Record):
    """What an accepted edit is told: how many edits and groups were accepted, with this one; how many steps of the fold it made; how
    many bytes were hashed for it; the least range of places that has each unit which it changed; and which unit was inserted, deleted
    or replaced."""
    number: int
    steps: int
    hashed: int
    changed_from: int
    changed_count: int
    id: int
    _fields_ = [("number", c_uint64), ("steps", c_uint64), ("hashed", c_uint64), ("changed_from", c_uint64),
                ("changed_count", c_uint64), ("id", c_uint32)]


class GroupReceipt(Record):
    """The same of a group; `index` is which edit is refused."""
    number: int
    steps: int
    hashed: int
    changed_from: int
    changed_count: int
    index: int
    _fields_ = [("number", c_uint64), ("steps", c_uint64), ("hashed", c_uint64), ("changed_from", c_uint64),
                ("changed_count", c_uint64), ("index", c_uint64)]


class LoadReceipt(Record):
    """The same of a load: its units have the ids first, first + 1 and so on; `index` is which access unit is refused."""
    number: int
    steps: int
    hashed: int
    units: int
    changed_from: int
    changed_count: int
    index: int
    first: int
    _fields_ = [("number", c_uint64), ("steps", c_uint64), ("hashed", c_uint64), ("units", c_uint64), ("changed_from", c_uint64),
                ("changed_count", c_uint64), ("index", c_uint64), ("first", c_uint32)]


class Outcome(Record):
    """A unit's outcome: PLAN, FAULT with its number, or EMPTY; and the counts of a valid unit's picture."""
    kind: int
    fault: int
    top: int
    bottom: int
    order: int
    begins_period: int
    slices: int
    _fields_ = [("kind", c_uint32), ("fault", c_uint32), ("top", c_int32), ("bottom", c_int32), ("order", c_int32),
                ("begins_period", c_uint32), ("slices", c_uint64)]


class Doubt(Record):
    """What is told of a unit behind a damage: the unit that shows the damage, 0 where there is none, and 1 where this one's picture may be
    made of other frames than were meant."""
    follows: int
    in_doubt: int
    _fields_ = [("follows", c_uint32), ("in_doubt", c_uint32)]


class LeftOut(Record):
    """Bytes that are left out of a text that is mended: the place of the first, how many they are, the number of the reason, which
    `why_name` names, and of a NAL unit of a type that isn't read that type, else 0."""
    byte: int
    bytes: int
    why: int
    unit_type: int
    _fields_ = [("byte", c_uint64), ("bytes", c_uint64), ("why", c_uint32), ("unit_type", c_uint32)]


class Job(Record):
    """A job that was taken: a picture to decode, by its number, and a unit that has it."""
    number: int
    unit: int
    _fields_ = [("number", c_uint64), ("unit", c_uint32)]


class JobInput(Record):
    """What a job is made of: the unit whose requests it has, and how many slices and references."""
    unit: int
    slices: int
    references: int
    _fields_ = [("unit", c_uint64), ("slices", c_uint64), ("references", c_uint64)]


class JobReference(Record):
    """A picture that a job may refer to, by its timestamp, and its surface's handle."""
    timestamp: int
    surface: int
    _fields_ = [("timestamp", c_uint64), ("surface", c_uint64)]


class Edit(Record):
    """An edit of a group: its kind, the id that it names, and where its text lies among all of the group."""
    _fields_ = [("kind", c_uint32), ("id", c_uint32), ("begin", c_size_t), ("count", c_size_t)]


class JournalEdit(Record):
    """An edit of the journal: its kind, the id that it names, and how many bytes its text has."""
    kind: int
    id: int
    bytes: int
    _fields_ = [("kind", c_uint32), ("id", c_uint32), ("bytes", c_uint64)]


class Request(Record):
    """The request of a slice: the kernel's controls but the weights. cupdaisy.h says what a host with a driver knows."""
    timestamp: int
    bytes: int
    unit_begins: int
    hold: int
    has_weights: int
    pps: Pps
    sps: Sps
    scaling_matrix: ScalingMatrix
    slice_params: SliceParams
    decode_params: DecodeParams
    _fields_ = [("timestamp", c_uint64), ("bytes", c_uint64), ("unit_begins", c_uint32), ("hold", c_uint32),
                ("has_weights", c_uint32), ("pps", Pps), ("sps", Sps), ("scaling_matrix", ScalingMatrix),
                ("slice_params", SliceParams), ("decode_params", DecodeParams)]


class Frame(Record):
    """The request of a whole picture, for drivers that take one for all slices."""
    timestamp: int
    bytes: int
    slices: int
    sps: Sps
    pps: Pps
    scaling_matrix: ScalingMatrix
    decode_params: DecodeParams
    _fields_ = [("timestamp", c_uint64), ("bytes", c_uint64), ("slices", c_uint64), ("sps", Sps), ("pps", Pps),
                ("scaling_matrix", ScalingMatrix), ("decode_params", DecodeParams)]
