"""Is the list of tags that a reader claims complete?

    >>> import vicinity
    >>> answer = vicinity.check(b"vicinity-log 1\\nT 260100F60A\\nS\\n")
    >>> answer.is_complete, answer.count
    (True, 0)

The log text and the answers are the same as for the program `vicinity`.
The answers come from the shared library libvicinity.so.2: nothing is judged in Python.
It is loaded on the first call; LIBVICINITY may name its file.

`python3 -m vicinity FILE ..` answers for many files in one process;
`python3 -m vicinity show LOG` and `page LOG` draw one;
`python3 -m vicinity collection CATALOGUE LOG ..` compares many with what should be there.
"""
__version__ = "2.0.8"

from ._answers import (Answer, Explanation, Fault, Finding, FindingKind, Kind, Margin, Mask, Report,
                       Simulation, Weakest)
from ._calls import (check, check_listed, explain, explain_into, margin, margin_listed, page,
                     report, simulate, simulate_into)
from ._collections import Collection, CollectionRefused, Found, Item, Least, Log, collection, survey
from ._run import Written, run
from .frames import (HEADER_LINE, FrameFault, Reply, Request, add_crc, parse_uid, read_request,
                     read_response, slot_mask, uid_text, write_inventory, write_line,
                     write_response, write_stay_quiet)

__all__ = ["Answer", "Collection", "CollectionRefused", "Explanation", "Fault", "Finding",
           "FindingKind", "Found", "FrameFault", "HEADER_LINE", "Item", "Kind", "Least", "Log",
           "Margin", "Mask", "Reply", "Report", "Request", "Simulation", "Weakest", "Written",
           "add_crc", "check", "check_listed", "collection", "explain", "explain_into", "margin",
           "margin_listed", "page", "parse_uid", "read_request", "read_response", "report", "run",
           "simulate", "simulate_into", "slot_mask", "survey", "uid_text", "write_inventory",
           "write_line", "write_response", "write_stay_quiet"]
