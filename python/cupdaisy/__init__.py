"""A session over a stream of H.264 access units under edits, which keeps the surfaces of the host's decoder.

    with cupdaisy.Session() as session:
        session.load(stream)
        for job in session.jobs():
            session.land(job.number, decode(session, job))
        for unit in session.in_output_order():
            display(session.show(unit))

Edits insert, delete and replace access units. After an edit the session asks for those pictures anew that the edit changed, and for no
others. A surface is any object: what a decoder of the host made of a job's requests. A refused call raises Refused; a call that finds
nothing (a place past the end, no job due, a pending picture) answers None. cupdaisy.h says what each call does. A session is used by one
thread at a time.

CUPDAISY_LIBRARY in the environment names a library in the place of the one that is found.
"""
from . import kernel
from .library import (DELETE, EMPTY, FAULT, INSERT_AFTER, INSERT_FIRST, PLAN, REPLACE, Refused, fault_name, status_name,
                      version, why_name)
from .mending import Mended, mend
from .records import Doubt, Frame, GroupReceipt, Job, JobInput, LeftOut, LoadReceipt, Outcome, Receipt, Request
from .session import Reference, Session

__all__ = ["DELETE", "EMPTY", "FAULT", "INSERT_AFTER", "INSERT_FIRST", "PLAN", "REPLACE", "Doubt", "Frame", "GroupReceipt", "Job",
           "JobInput", "LeftOut", "LoadReceipt", "Mended", "Outcome", "Receipt", "Reference", "Refused", "Request", "Session",
           "fault_name", "kernel", "mend", "status_name", "version", "why_name"]
