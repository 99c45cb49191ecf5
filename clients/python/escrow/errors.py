"""What a call of a site raises, each with what to do then."""

from __future__ import annotations

import enum
from collections.abc import Sequence
from typing import Any, Optional

from .device import DeviceFault, device_fault
from .values import Kind


class Refusal(enum.IntEnum):
    """The numbers of the refusals."""

    DOWN = 1
    NO_SITE = 2
    NO_FIELD = 3
    NO_TRANSACTION = 4
    ZERO = 5
    TOO_LARGE = 6
    SHORT = 7
    SELF_GIFT = 8
    LEDGER_FULL = 9
    NOT_YOURS = 10
    FORGED = 11
    TOO_MANY_OPEN = 12
    TOO_MANY_ESCROWS = 13
    NUMBERS_FULL = 14
    NOTHING_GIVEN = 15

    @property
    def reason(self) -> str:
        """The words of the refusal."""
        return self.name.lower().replace("_", " ")

    @property
    def advice(self) -> str:
        """What to do."""
        return _ADVICE[self]


_ADVICE = {
    Refusal.DOWN: "wait until the site stands again",
    Refusal.NO_SITE: "name a site of the schema: they are numbered from 0",
    Refusal.NO_FIELD: "name a field of the schema",
    Refusal.NO_TRANSACTION: "begin anew: the transaction has ended, or the site was restarted",
    Refusal.ZERO: "ask for at least 1",
    Refusal.TOO_LARGE: "ask for at most 2 * 10^15",
    Refusal.SHORT: "ask for at most the share, or get rights of other sites",
    Refusal.SELF_GIFT: "name another site",
    Refusal.LEDGER_FULL: "settle the world and begin a new one: more than 10^18 were given to that site",
    Refusal.NOT_YOURS: "hand the statement to the site that it is for",
    Refusal.FORGED: "raise an alarm: no site of this world can have issued this statement",
    Refusal.TOO_MANY_OPEN: "end a transaction: a site has at most 64 open",
    Refusal.TOO_MANY_ESCROWS: "commit, and begin another: a transaction sets aside at most 16 times",
    Refusal.NUMBERS_FULL: "restart the site: a new epoch counts from 1",
    Refusal.NOTHING_GIVEN: "there is nothing to state: nothing was given yet",
}


def _made_again(kind: type[EscrowError], words: tuple[object, ...], told: dict[str, object]) -> EscrowError:
    fault = kind.__new__(kind)
    fault.args = words
    fault.__dict__.update(told)
    return fault


class EscrowError(Exception):
    """Any trouble with a site. Each can be copied and pickled."""

    def __reduce__(self) -> tuple[Any, ...]:
        return _made_again, (type(self), self.args, dict(self.__dict__))

    @property
    def device(self) -> Optional[DeviceFault]:
        """Which call of the system failed at the site's files, and why, where the trouble came of that and the program
        told it."""
        return device_fault(str(self))


class Refused(EscrowError):
    """The site refused, and nothing was changed.

    `number` is the refusal's, `reason` its words, `advice` what to do, `told` the quantity that some refusals tell, and
    `asked` the line that was refused.
    """

    def __init__(self, number: Refusal, told: Optional[int], asked: str) -> None:
        self.number = number
        self.reason = number.reason
        self.advice = number.advice
        self.told = told
        self.asked = asked
        tail = "" if told is None else f" {told}"
        super().__init__(f"{asked}: refused {int(number)} {self.reason}{tail}: {self.advice}")


class Short(Refused):
    """The site has too few free rights of the kind."""

    @property
    def share(self) -> int:
        """How many it has, in quantities: less than was asked for."""
        return self.told or 0

    @property
    def field(self) -> str:
        """The field."""
        return self._words()[0]

    @property
    def kind(self) -> Kind:
        """The kind of rights that it has too few of."""
        told = self._words()[1]
        if told in ("lower", "raise"):
            return Kind(told)
        return Kind.LOWER if told.startswith("-") else Kind.RAISE

    def _words(self) -> list[str]:
        words = self.asked.split(" ")
        return words[2:] if words[1] == "tighten" else words[3:]


class Forged(Refused):
    """A statement that no site can have issued: it tells more than there is room for."""


class NothingGiven(Refused):
    """There is nothing to state: nothing was given to that site yet, of that kind, on that field."""


class Lost(EscrowError):
    """A stop of the site came before the commit: the transaction isn't committed, and never will be. Begin anew, with the
    same key where there was one.

    `id` is that of the transaction, and `key` the one that it was to be committed with.
    """

    def __init__(self, why: str, id: Optional[str] = None, key: Optional[str] = None) -> None:
        self.id, self.key = id, key
        super().__init__(_of_transaction(why, id, key))


def _of_transaction(why: str, id: Optional[str], key: Optional[str]) -> str:
    of_key = "" if key is None else f"key {key}: "
    return f"{of_key}{why}" if id is None else f"transaction {id}: {of_key}{why}"


class Cause(enum.Enum):
    """What ended a transaction that is `Over`."""

    ENDED = "it was committed or aborted"
    """Its caller did, or a call of it that was `Unknown`."""
    EXPIRED = "its time was up"
    """That of `transaction(seconds)`."""
    STOPPED = "a stop of the site aborted it"


class Over(EscrowError):
    """The transaction has ended: it was committed or aborted, its time was up, or a stop of the site aborted it. Begin
    anew.

    `cause` tells which of these; `id` is that of the transaction, where it had begun.
    """

    def __init__(self, why: str, id: Optional[str] = None, cause: Cause = Cause.ENDED) -> None:
        self.id, self.cause = id, cause
        super().__init__(why)


class Busy(EscrowError):
    """Its time was up before it was asked, or too many others wait: nothing was begun by it, and nothing was changed.
    Ask again later, or tell the customer to. So too where only what is there was asked about."""


class Unknown(EscrowError):
    """It was asked, and what happened can't be told now: a stop of the site left the answer out, or its time was up. Tell
    the customer nothing yet, and don't ask for the same anew: both may happen. **Where it had a key, do, with the same
    key**: then it happens once.

    `id` is that of the transaction, where there is one: `Site.outcome` tells of it once the site answers again. `key` is
    the one that it was to be committed with: `Site.kept_key` tells of it. Where it is `Forgotten` neither can.
    """

    def __init__(self, why: str, id: Optional[str] = None, key: Optional[str] = None) -> None:
        self.id, self.key = id, key
        super().__init__(_of_transaction(why, id, key))


class Forgotten(Unknown):
    """An `Unknown` that the site itself can't decide any more: its log was shortened, and what would tell may be among what it
    has let go of. **Never ask for the same anew, with a key or without**: it may have happened. Look into your own books, or
    into the archive of the log.

    `id` is that of the transaction that was asked about; of a key `key` alone, which an earlier commit may have, and where a
    stop left this one's answer out the `id` of this one too. A key that was told with its position, `since`, is forgotten only
    where the log was shortened beyond that.
    """

    def __init__(self, id: Optional[str] = None, key: Optional[str] = None) -> None:
        super().__init__(_FORGOTTEN.format(_OF_AN_ID if key is None else _OF_A_KEY), id, key)


_FORGOTTEN = (
    "the log was shortened, and {} may be among what it has let go of: look into your own books, or into the archive of the log, "
    "and never ask for the same anew"
)
_OF_AN_ID, _OF_A_KEY = "its commit", "a commit with this key"


class Down(EscrowError):
    """The site isn't served. What was called was never asked of it, and nothing was changed.

    `status` is the one with which the program ended, where it did; with 5 `device` tells the fault of the disk.
    """

    def __init__(self, why: str, status: Optional[int] = None) -> None:
        self.status = status
        super().__init__(why)


class OtherSite(EscrowError, ValueError):
    """The id is of another site of this world: nothing was asked, since this one would tell of a transaction of its own.

    `id` is the one that was asked about, `site` the number of its site, and `own` that of the one that was asked.
    """

    def __init__(self, id: str, site: int, own: int) -> None:
        self.id, self.site, self.own = id, site, own
        super().__init__(f"{id}: this id is of site {site}, and this is site {own}: ask that one")


class OtherWorld(EscrowError, ValueError):
    """The id is of another world than the site, as one that was settled: nothing was asked, since this site would tell of
    a transaction of its own.

    `id` is the one that was asked about, `world` the first digits of its world's name, and `own` those of the site's. Of a
    position no `commit` is told, the epoch and number of one to look for.
    """

    def __init__(self, id: str, world: str, own: str, commit: Optional[tuple[int, int]] = None) -> None:
        self.id, self.world, self.own = id, world, own
        super().__init__(f"{id}: {_OTHER_POSITION.format(world, own) if commit is None else _OTHER_ID.format(world, own, *commit)}")


_OTHER_POSITION = "this position is of another world ({}), and this site of {}: nothing was asked"
_OTHER_ID = (
    "this id is of another world ({}), and this site of {}: where that world was settled, look in its site's old folder: "
    "grep '^C {} {} ' FOLDER/log finds what was committed, of what the log still holds; where it let go of some (escrow_site show "
    "tells gone) ask your own books, or its archive"
)


class NoKeys(EscrowError):
    """The program is one that doesn't know keys of callers: nothing was committed. Use a newer `escrow_site`."""

    def __init__(self) -> None:
        super().__init__("this escrow_site doesn't know keys of callers, so nothing was committed: use a newer escrow_site")


class ProgramError(EscrowError):
    """A run of the program, as `create` or `show`, ended with this status and told why."""

    def __init__(self, status: int, why: str) -> None:
        self.status = status
        super().__init__(why)


class Interrupted(EscrowError):
    """A stop left the answer out. The calls of a site look up what happened, so this never reaches who called."""


class EpochFull(EscrowError):
    """The epoch has no number left for a transaction. The process is ended and started again, so this never reaches who
    called."""


class Faulty(EscrowError):
    """What the program answered doesn't fit what it was asked. The process is ended, and what it did is looked up."""


class OddWord(Faulty):
    """A question was answered with a word that this client doesn't know, as that of a newer program: so it isn't known what is
    there. The lines fit, so the process goes on; the same would be answered again, so it isn't asked again."""

    def __init__(self, asked: str, told: str) -> None:
        super().__init__(f"{asked!r} was answered {told!r}, which this client doesn't know: use the client of this program")


_CLASSES = {Refusal.SHORT: Short, Refusal.FORGED: Forged, Refusal.NOTHING_GIVEN: NothingGiven}


def refused(words: Sequence[str], asked: str) -> Refused:
    """The exception for a reply `refused NUMBER WORDS`, and a quantity where one is told."""
    number = Refusal(int(words[1]))
    told = int(words[-1]) if len(words) > 2 and words[-1].isdigit() else None
    return _CLASSES.get(number, Refused)(number, told, asked)


def over(cause: Cause, id: Optional[str]) -> Over:
    """What a transaction is told that has ended by this; without an id it had not begun."""
    return Over(f"the transaction has ended: {cause.value}", id or None, cause)


def gone(id: Optional[str]) -> Over:
    """What a transaction is told that a stop has ended."""
    return over(Cause.STOPPED, id)
