"""Which call of the system failed at a site's file, as the program tells it on standard error."""

from __future__ import annotations

import errno
import re
from typing import NamedTuple, Optional

_FULL = (errno.ENOSPC, errno.EDQUOT)
_BARRED = (errno.EPERM, errno.EACCES)
_UNOPENED = re.compile(r"/([^/:\n]+): [^\n]*\(os error (\d+)\)")
_TOLD = re.compile(r"/([^/:\n]+): device fault: (read|write|cut|sync): ([^\n]*) \(os error (\d+)\): ")


class DeviceFault(NamedTuple):
    """A call of the system that failed: at which file of the folder (`log`, `trace`), whether it was to read, write, cut
    or sync, and the system's words and number for why, as `Input/output error` and 5 (EIO)."""

    file: str
    call: str
    reason: str
    number: int

    @property
    def lacks_room(self) -> bool:
        """Whether it is want of room. A sync that failed never is: what was written may be lost."""
        return self.call != "sync" and self.number in _FULL


def remedy(told: str) -> str:
    """What there is to add to what the program told as it ended with status 5. A call that was asked of an open file tells that
    itself, but for what a supervisor has to know; of one at a start the program tells the file and why alone."""
    found = None if device_fault(told) is not None else _UNOPENED.search(told)
    if found is not None and found[1] == "log.new":
        return ": move it away, or let this user do so: nothing in it counts"
    if found is not None and int(found[2]) in _BARRED:
        return ": this user may not: serve the site as the owner of its files, or let this user read and write them"
    return ": make room or mend the disk; after a sync that failed start the machine anew before the site"


def device_fault(told: str) -> Optional[DeviceFault]:
    """The first such fault that a text of the program tells, if it tells one."""
    found = _TOLD.search(told)
    return None if found is None else DeviceFault(found[1], found[2], found[3], int(found[4]))
