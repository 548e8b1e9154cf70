"""The session."""
import weakref
from ctypes import byref, c_size_t, c_uint32, c_uint64
from types import TracebackType
from typing import Any, Generic, Iterator, NamedTuple, Optional, Sequence, TypeVar, Union

from .kernel import PredWeights
from .library import (DONE, HAS_FAULT, NO_PICTURE, NO_SUCH_PLACE, NO_WEIGHTS, NOT_HELD, NOTHING_DUE, PENDING, STALE, Refused,
                      called, filled, text_of)
from .records import (Doubt, Edit, Frame, GroupReceipt, Handle, Job, JobInput, JobReference, JournalEdit, LoadReceipt, Outcome,
                      Receipt, Request)

T = TypeVar("T")
Out = TypeVar("Out", bound=Any)
Number = Union[c_size_t, c_uint32, c_uint64]


class Reference(NamedTuple):
    """A picture that a job's requests may refer to: what `reference_ts` of the decoded picture buffer has for it, and its surface;
    none where the host has taken that back by `drop` or `uncache` since the job was taken."""
    timestamp: int
    surface: Any


class Session(Generic[T]):
    """A session over a stream, which keeps the surfaces that were landed, objects of any kind, until it gives them back. It is closed
    at the end of a `with`."""

    def __init__(self, cache: int = 64) -> None:
        self.surfaces: dict[int, T] = {}    # by their handles
        self.given = 0                      # handles, none of them twice
        self.handle = Handle()
        self.done("open", cache)
        self.closing = weakref.finalize(self, called, "close", byref(self.handle))

    def __enter__(self) -> "Session[T]":
        return self

    def __exit__(self, kind: Optional[type[BaseException]], raised: Optional[BaseException],
                 trace: Optional[TracebackType]) -> None:
        self.close()

    def close(self) -> list[T]:
        """Closes the session: the surfaces that it had. Any later call is refused."""
        self.closing()
        had, self.surfaces = list(self.surfaces.values()), {}
        return had

    # How calls are made.

    def call(self, name: str, *operands: Any) -> int:
        """The status of a call."""
        return called(name, byref(self.handle), *operands)

    def done(self, name: str, *operands: Any) -> None:
        """Makes a call, whose refusal is raised."""
        status = self.call(name, *operands)
        if status != DONE:
            raise Refused(status)

    def written(self, out: Out, name: str, *operands: Any) -> Out:
        """What a call writes into its last parameter."""
        self.done(name, *operands, byref(out))
        return out

    def found(self, absent: Sequence[int], out: Out, name: str, *operands: Any) -> Optional[Out]:
        """The same; None where its status is one of the absent ones."""
        status = self.call(name, *operands, byref(out))
        if status in absent:
            return None
        if status != DONE:
            raise Refused(status)
        return out

    def number(self, kind: type[Number], name: str, *operands: Any) -> int:
        """The number that a call writes into its last parameter."""
        return self.written(kind(), name, *operands).value

    def found_number(self, absent: Sequence[int], kind: type[Number], name: str, *operands: Any) -> Optional[int]:
        out = self.found(absent, kind(), name, *operands)
        return None if out is None else out.value

    def bytes_told(self, name: str, *operands: Any) -> bytes:
        status, text = filled(name, byref(self.handle), *operands)
        if status != DONE:
            raise Refused(status)
        return text

    # Edits. A refused one changes nothing and spends no id.

    def insert_first(self, text: bytes) -> Receipt:
        return self.written(Receipt(), "insert_first", *text_of(text))

    def insert_after(self, unit: int, text: bytes) -> Receipt:
        return self.written(Receipt(), "insert_after", unit, *text_of(text))

    def insert_last(self, text: bytes) -> Receipt:
        return self.written(Receipt(), "insert_last", *text_of(text))

    def delete(self, unit: int) -> Receipt:
        return self.written(Receipt(), "delete", unit)

    def replace(self, unit: int, text: bytes) -> Receipt:
        return self.written(Receipt(), "replace", unit, *text_of(text))

    def group(self, edits: Sequence[tuple[int, int, bytes]]) -> tuple[GroupReceipt, list[int]]:
        """Makes edits as one step, each a kind, an id and a text: the receipt and the ids."""
        asked, texts = (Edit * max(len(edits), 1))(), b"".join(text for _, _, text in edits)
        begin = 0
        for place, (kind, unit, text) in enumerate(edits):
            asked[place] = Edit(kind, unit, begin, len(text))
            begin += len(text)
        ids, receipt = (c_uint32 * max(len(edits), 1))(), GroupReceipt(index=len(edits))
        status = self.call("group", asked, len(edits), *text_of(texts), ids, len(edits), byref(receipt))
        if status != DONE:
            raise Refused(status, receipt.index if receipt.index < len(edits) else None)
        return receipt, list(ids)[:len(edits)]

    def load(self, text: bytes) -> LoadReceipt:
        """Inserts the access units of a byte stream after the last one."""
        receipt = LoadReceipt()
        status = self.call("load", *text_of(text), byref(receipt))
        if status != DONE:
            raise Refused(status, receipt.index)
        return receipt

    # Questions about the stream as it is now.

    def __len__(self) -> int:
        return self.number(c_size_t, "units")

    def __iter__(self) -> Iterator[int]:
        """The units in decoding order."""
        place = 0
        while (unit := self.id_at(place)) is not None:
            yield unit
            place += 1

    def ids(self) -> list[int]:
        """The units in decoding order."""
        return list(self)

    def in_output_order(self) -> Iterator[int]:
        """The valid units in output order."""
        position = 0
        while (unit := self.unit_at(position)) is not None:
            yield unit
            position += 1

    def id_at(self, place: int) -> Optional[int]:
        """The unit at a place; None past the end."""
        return self.found_number((NO_SUCH_PLACE,), c_uint32, "id_at", place)

    def place(self, unit: int) -> int:
        return self.number(c_size_t, "place", unit)

    def position(self, unit: int) -> int:
        """The position of a valid unit in output order."""
        return self.number(c_size_t, "position", unit)

    def unit_at(self, position: int) -> Optional[int]:
        """The unit at a position in output order; None where no unit has it."""
        return self.found_number((NO_SUCH_PLACE,), c_uint32, "unit_at", position)

    def outcome(self, unit: int) -> Outcome:
        return self.written(Outcome(), "outcome_of", unit)

    def doubts(self, place: int, count: int) -> list[Doubt]:
        """Which of so many units from a place on follow a damage, and which of them are in doubt; fewer where the stream ends before."""
        count_written, capacity = c_size_t(), min(count, len(self))
        doubts = (Doubt * max(capacity, 1))()
        self.done("doubts", place, doubts, capacity, byref(count_written))
        return list(doubts[:count_written.value])

    def key(self, unit: int) -> int:
        """The number of a valid unit's key: of all that its picture is made of."""
        return self.number(c_uint64, "key", unit)

    def in_use(self, key: int) -> bool:
        """Whether some unit has the key of this number."""
        return self.number(c_uint32, "in_use", key) == 1

    def mark(self) -> None:
        """Remembers what the valid units are made of now, in place of an earlier mark."""
        self.done("mark")

    def is_altered(self, unit: int) -> bool:
        """Whether a valid unit is made of something of which no unit was at the mark."""
        return self.number(c_uint32, "is_altered", unit) == 1

    def unit_request(self, unit: int, slice: int) -> Request:
        return self.written(Request(), "unit_request", unit, slice)

    def unit_requests(self, unit: int) -> Iterator[Request]:
        """The requests of a valid unit, one a slice."""
        return (self.unit_request(unit, slice) for slice in range(self.outcome(unit).slices))

    def unit_weights(self, unit: int, slice: int) -> Optional[PredWeights]:
        """The weights of a slice; None where it has none."""
        return self.found((NO_WEIGHTS,), PredWeights(), "unit_weights", unit, slice)

    def unit_bytes(self, unit: int, slice: int) -> bytes:
        """The bytes of a slice: its NAL unit after a start code of three bytes."""
        return self.bytes_told("unit_bytes", unit, slice)

    def unit_frame(self, unit: int) -> Frame:
        """The request of a valid unit's whole picture."""
        return self.written(Frame(), "unit_frame", unit)

    def unit_frame_bytes(self, unit: int, start_codes: bool = True) -> bytes:
        """The bytes of all its slices, each after its start code; or those of the only one, without it."""
        return self.bytes_told("unit_frame_bytes", unit, start_codes)

    def journal(self) -> list[list[tuple[int, int, bytes]]]:
        """The accepted edits: for each, or each group, a list of kinds, ids and texts."""
        entries = range(self.number(c_size_t, "journal"))
        return [[self.journal_edit(entry, index) for index in range(self.number(c_size_t, "journal_entry", entry))]
                for entry in entries]

    def journal_edit(self, entry: int, index: int) -> tuple[int, int, bytes]:
        edit = self.written(JournalEdit(), "journal_edit_at", entry, index)
        return edit.kind, edit.id, self.bytes_told("journal_text", entry, index)

    # Pictures.

    def show(self, unit: int) -> Optional[T]:
        """The surface with the unit's picture as the stream is now; None where there is none now."""
        surface = self.found_number((PENDING, HAS_FAULT, NO_PICTURE), c_uint64, "show", unit)
        return None if surface is None else self.surfaces[surface]

    def take(self) -> Optional[Job]:
        """A job: the earliest picture that isn't held or out, and whose references are all held; None where none is due."""
        return self.found((NOTHING_DUE,), Job(), "take")

    def take_for(self, unit: int) -> Optional[Job]:
        """A job for what the unit's picture needs."""
        return self.found((NOTHING_DUE,), Job(), "take_for", unit)

    def jobs(self) -> Iterator[Job]:
        """Jobs that are taken as they are asked for, until none is due. Each is to be landed or given back."""
        while (job := self.take()) is not None:
            yield job

    def jobs_for(self, unit: int) -> Iterator[Job]:
        """The same for what the unit's picture needs."""
        while (job := self.take_for(unit)) is not None:
            yield job

    def land(self, job: int, surface: T) -> bool:
        """Lands a job by its number: the host's decoder made this surface's picture of the job's requests and of the surfaces of its
        references. False where the picture is wanted no more, and the surface is the caller's."""
        handle = self.given + 1
        status = self.call("land", job, handle)
        if status == STALE:
            return False
        if status != DONE:
            raise Refused(status)
        self.given, self.surfaces[handle] = handle, surface
        return True

    def give_back(self, job: int) -> None:
        """Gives a job back, so that its picture is given to decode again."""
        self.done("give_back", job)

    def drop(self, unit: int) -> Optional[T]:
        """The surface of a unit's picture, which is the host's again: the picture has to be made anew. None where it isn't held."""
        return self.taken("drop_picture", unit)

    def uncache(self) -> Optional[T]:
        """The same of the picture that was cached first. None where none is cached."""
        return self.taken("uncache")

    def taken(self, name: str, *operands: Any) -> Optional[T]:
        surface = self.found_number((NOT_HELD,), c_uint64, name, *operands)
        return None if surface is None else self.surfaces.pop(surface)

    def released(self) -> Iterator[T]:
        """The surfaces that edits let go and that no job which is out refers to: they are the host's again. Those that aren't asked
        for stay."""
        surface, count = c_uint64(), c_size_t()
        while True:
            self.done("released", byref(surface), 1, byref(count))
            if count.value == 0:
                return
            yield self.surfaces.pop(surface.value)

    def job_input(self, job: int) -> JobInput:
        return self.written(JobInput(), "job_input_of", job)

    def job_references(self, job: int) -> list[Reference]:
        """The pictures that a job's requests may refer to."""
        found = (self.written(JobReference(), "job_reference", job, index) for index in range(self.job_input(job).references))
        return [Reference(each.timestamp, self.surfaces.get(each.surface)) for each in found]

    def job_request(self, job: int, slice: int) -> Request:
        return self.written(Request(), "job_request", job, slice)

    def job_requests(self, job: int) -> Iterator[Request]:
        """The requests of a job, one a slice."""
        return (self.job_request(job, slice) for slice in range(self.job_input(job).slices))

    def job_weights(self, job: int, slice: int) -> Optional[PredWeights]:
        return self.found((NO_WEIGHTS,), PredWeights(), "job_weights", job, slice)

    def job_bytes(self, job: int, slice: int) -> bytes:
        return self.bytes_told("job_bytes", job, slice)

    def job_frame(self, job: int) -> Frame:
        """The request of a job's whole picture."""
        return self.written(Frame(), "job_frame", job)

    def job_frame_bytes(self, job: int, start_codes: bool = True) -> bytes:
        """The bytes of all its slices, each after its start code; or those of the only one, without it."""
        return self.bytes_told("job_frame_bytes", job, start_codes)
