"""What can be asked of a served site: the lines that go out, and what their answers mean. An id is here what lines name a
transaction by, `EPOCH.NUMBER`."""

from __future__ import annotations

import enum
from collections.abc import Callable, Sequence
from typing import ClassVar, Generic, Optional, Protocol, TypeVar

from .errors import Busy, EscrowError, Faulty, Forgotten, OddWord, Over, Unknown, gone, refused
from .numbers import read_id
from .values import Command, Mark, Outcome
from .waiters import Awaited

T = TypeVar("T")
ARROW = " -> "
LATE = "it was asked, and its answer didn't come in time"
FORGOTTEN = "forgotten"
"""What is answered of a commit that may be among what a shortened log has let go of."""


class Run(Protocol):
    """The process as it now stands."""

    number: int
    """The number of the site."""
    epoch: int
    is_door: bool
    """Whether lines go to a door, which aborts by itself what a commit with a key leaves open."""
    may_forget: bool
    """Whether its log was shortened, or may be."""

    run: int
    """Which process it is, or which connection: later ones have greater numbers."""

    def new_id(self) -> str:
        """What lines name the transaction by that the next begin opens, where its line goes out next. Raises `EpochFull`."""

    def change_id(self) -> str:
        """The same of a change in one trip; nothing where that is told later."""

    def standing(self, id: str) -> Standing:
        """Where a transaction stands in this process, by the lines that went out."""


class Standing(enum.Enum):
    """Where a transaction stands in a process."""

    LATER = enum.auto()
    """Its epoch isn't begun yet."""
    UNBEGUN = enum.auto()
    """It isn't begun yet."""
    OPEN = enum.auto()
    ENDED = enum.auto()


class Call(Awaited, Generic[T]):
    """Lines that go out together, and who waits for what their answers mean.

    `plan` is asked in the order of the lines, under the pipeline's lock. It leaves in `text` the lines, and in
    `expected` the one text of answers for which `told` needn't be asked, whose result is None; empty where there is
    none.
    """

    __slots__ = ("text", "expected", "began")

    text: str
    expected: str
    began: float

    command: ClassVar[Command]
    field: ClassVar[str] = ""
    again: ClassVar[bool] = False
    """Whether it is made again after a stop that left its answer out: it changes nothing that counts twice."""
    opens: ClassVar[bool] = False
    """Whether it takes a place among the open transactions."""
    closes: ClassVar[bool] = False
    """Whether it leaves one."""
    bound: ClassVar[bool] = False
    """Whether it belongs to a transaction that ends with the process."""

    def plan(self, run: Run) -> None:
        """Sets `text`, lines each with its line feed, and `expected`. Raises what is wrong with asking it now: then
        nothing goes out."""
        raise NotImplementedError

    def stopped(self) -> Over:
        """The process stopped before it was asked, and it is bound to it: what to raise."""
        return gone(None)

    def door_text(self) -> str:
        """The line that goes out to a door in place of its lines."""
        return self.text

    def unasked(self) -> None:
        """Its time was up before its lines went out: they never will. Under the pipeline's lock."""

    def doubt(self, front: str) -> EscrowError:
        """What is raised where its lines went out, and its time was up before their answers came. Under the pipeline's
        lock; `front` is what stands in front of ids."""
        return Busy(f"{LATE}: it changes nothing, so ask again")

    def reply(self, answer: str, line: str) -> Reply:
        """What one of its lines was answered. Raises `Faulty` where that doesn't fit it."""
        if not answer.startswith(line + ARROW):
            raise Faulty(f"{answer!r} doesn't answer {line!r}")
        return Reply(line, answer[len(line) + len(ARROW) :])

    def told(self, replies: Sequence[Reply]) -> T:
        """What the replies mean, one for each line. Raises `Refused`."""
        raise NotImplementedError

    def take(self, buffer: str, at: int) -> int:
        """Takes its answers out of the buffer: where they end, or -1 where they haven't all come.

        Raises `Faulty` where they don't fit the lines.
        """
        replies: list[Reply] = []
        for line in self.text.split("\n")[:-1]:
            end = buffer.find("\n", at)
            if end < 0:
                return -1
            replies.append(self.reply(buffer[at:end], line))
            at = end + 1
        try:
            self.answer = self.told(replies)
        except OddWord as fault:
            self.answer = fault
        except Faulty:
            raise
        except Exception as fault:
            self.answer = fault
        return at


class Reply:
    """What one line was answered."""

    __slots__ = ("line", "text")

    def __init__(self, line: str, text: str) -> None:
        self.line, self.text = line, text

    def words(self, first: str) -> list[str]:
        """Its words, the first of which is to be this one. Raises `Refused` where it is a refusal, and `Faulty` where
        it is another."""
        told = self.text.split(" ")
        if told[0] == "refused":
            raise refused(told, self.line)
        if told[0] != first:
            raise Faulty(f"{self.line!r} was answered {self.text!r}")
        return told


class Line(Call[T]):
    """One line, and what is read from the words of its reply."""

    __slots__ = ("command", "field", "again", "_read")

    def __init__(
        self, command: Command, line: str, read: Callable[[list[str]], T], *, again: bool, field: str = ""
    ) -> None:
        self.command, self.field, self.again = command, field, again  # type: ignore[misc]
        self.text, self.expected = line + "\n", ""
        self._read = read

    def plan(self, run: Run) -> None:
        """It is the same at any time."""

    def doubt(self, front: str) -> EscrowError:
        return super().doubt(front) if self.again else Unknown(LATE)

    def told(self, replies: Sequence[Reply]) -> T:
        return self._read(replies[0].words(_FIRST[self.command]))


_FIRST = {
    Command.GIVE: "given",
    Command.SPARE: "spared",
    Command.RESTATE: "stated",
    Command.ACCEPT: "accepted",
    Command.TIGHTEN: "tightened",
    Command.READ: "between",
    Command.SHARE: "share",
}
"""The first words of the replies that aren't refusals."""


class Shape:
    """What the lines of one change of a field, and their answers, have in common: the pieces between the ids."""

    __slots__ = ("asked", "told", "line")

    def __init__(self, number: int, field: str, change: int) -> None:
        self.line = f"{number} change {field} {change}\n"
        """The line of it that a door takes."""
        self.asked = (f"{number} begin\n{number} escrow ", f" {field} {change}\n{number} commit ", "\n")
        self.told = (
            f"{number} begin -> begun ",
            f"\n{number} escrow ",
            f" {field} {change} -> granted\n{number} commit ",
            " -> committed\n",
        )


class Change(Call[None]):
    """A transaction of one change, in one trip: begin, escrow and commit. `id` is that of the last try.

    Whoever makes it sets `shape`: a class without `__init__` is made in half the time.
    """

    __slots__ = ("id", "shape")
    command = Command.CHANGE

    id: str
    shape: Shape

    @property
    def text(self) -> str:  # type: ignore[override]
        """The lines."""
        return self.id.join(self.shape.asked)

    @property
    def expected(self) -> str:  # type: ignore[override]
        """The answers where nothing is refused."""
        return self.id.join(self.shape.told)

    def plan(self, run: Run) -> None:
        self.id = run.change_id()

    def door_text(self) -> str:
        return self.shape.line

    def doubt(self, front: str) -> EscrowError:
        return Unknown(LATE, front + self.id if self.id else None)

    def told(self, replies: Sequence[Reply]) -> None:
        _begun(replies[0], self.id)
        replies[1].words("granted")
        replies[2].words("committed")


class Changes(Call[None]):
    """Changes of tasks of one loop that go out together: where none is refused, their answers are one text."""

    __slots__ = ("calls",)
    command = Command.CHANGE

    def __init__(self, changes: Sequence[Change]) -> None:
        self.calls, self.waiter = changes, changes[0].waiter
        self.expected = ""

    def name(self, ids: Sequence[str]) -> None:
        """They have these ids."""
        for change, id in zip(self.calls, ids):
            change.id = id
        shapes = [change.shape for change in self.calls]
        self.expected = _between(ids, shapes[0].told, [shape.told[2] for shape in shapes])

    def lines(self) -> str:
        """What goes out, once they have ids."""
        shapes = [change.shape for change in self.calls]
        return _between([change.id for change in self.calls], shapes[0].asked, [shape.asked[1] for shape in shapes])

    def door_text(self) -> str:
        return "".join([change.shape.line for change in self.calls])


def _between(ids: Sequence[str], pieces: Sequence[str], own: Sequence[str]) -> str:
    """Each id between these pieces, the last but one of which is each one's own: a join of all, which is the fastest."""
    count = 2 * len(pieces) - 1
    texts = [pieces[at // 2] for at in range(count)] * len(ids)
    for at in range(1, count, 2):
        texts[at::count] = ids
    texts[count - 3 :: count] = own
    return "".join(texts)


def _begun(reply: Reply, own: str) -> None:
    if reply.words("begun") != ["begun", own]:
        raise Faulty(f"{reply.text!r} where {own} was to be begun")


class Account(Protocol):
    """A transaction, as its calls see it: where it stands. Asked under the pipeline's lock."""

    line_id: str
    id: str

    @property
    def key(self) -> Optional[str]:
        """The key that it is to be committed with, where there is one."""

    def named(self, line_id: str) -> None:
        """The site names it so: told where its begin went out before that was known."""

    def displaced(self) -> Optional[Over]:
        """Its begin went out, and isn't made for want of a place: it waits for one. What to tell where it has ended."""

    def begins(self, run: Run) -> str:
        """It begins now: its id. Raises `Over` where it has ended meanwhile."""

    def goes_on(self, run: Run) -> str:
        """Its id, where it is still open. Raises `Over` where it isn't."""

    def ends(self, run: Run) -> str:
        """It ends now: its id. Raises `Over` where it has ended."""

    def stopped(self) -> None:
        """It was to end, and the process stopped before."""

    def unbegun(self) -> None:
        """It was to begin, and its begin won't go out."""

    def given_up(self) -> None:
        """What it has set aside is given back: nobody waits any more for whether it was."""


class Naming(Call[T]):
    """A call whose lines name a transaction: `own` is how they do, and stands between the pieces of them and of the answers
    where nothing is refused."""

    __slots__ = ("own", "asked", "granted")

    own: str
    asked: tuple[str, ...]
    granted: tuple[str, ...]

    @property
    def text(self) -> str:  # type: ignore[override]
        """The lines."""
        return self.own.join(self.asked)

    @property
    def expected(self) -> str:  # type: ignore[override]
        """The answers where nothing is refused."""
        return self.own.join(self.granted)

    def named(self, id: str) -> None:
        """The site names it so: told where the lines went out before that was known."""
        self.own = id


class First(Naming[None]):
    """The first call of a transaction: begin and escrow. `is_placed` tells a door that a place is kept for it."""

    __slots__ = ("_account", "_what", "is_placed")
    command = Command.ESCROW
    again = True
    opens = True

    def __init__(self, account: Account, field: str, change: int) -> None:
        self.waiter = None
        self.is_placed = False
        self._account, self._what = account, f"{field} {change}"

    def plan(self, run: Run) -> None:
        n, self.own = run.number, self._account.begins(run)
        self.asked = f"{n} begin\n{n} escrow ", f" {self._what}\n"
        self.granted = f"{n} begin -> begun ", f"\n{n} escrow ", f" {self._what} -> granted\n"

    def displaced(self) -> Optional[Over]:
        """There is no place for it yet: what to tell where nobody wants it any more."""
        return self._account.displaced()

    def door_text(self) -> str:
        number = self.asked[0].partition(" ")[0]
        return f"{number} {'enter' if self.is_placed else 'open'} {self._what}\n"

    def named(self, id: str) -> None:
        self.own = id
        self._account.named(id)

    def unasked(self) -> None:
        self._account.unbegun()

    def doubt(self, front: str) -> EscrowError:
        self._account.given_up()
        return Unknown(f"{LATE}: it is given back", self._account.id or None, self._account.key)

    def told(self, replies: Sequence[Reply]) -> None:
        _begun(replies[0], self.own)
        replies[1].words("granted")


class Later(Naming[None]):
    """A later escrow of a transaction."""

    __slots__ = ("_account", "_what")
    command = Command.ESCROW
    bound = True

    def __init__(self, account: Account, field: str, change: int) -> None:
        self._account, self._what = account, f"{field} {change}"

    def plan(self, run: Run) -> None:
        self.own, front = self._account.goes_on(run), f"{run.number} escrow "
        self.asked, self.granted = (front, f" {self._what}\n"), (front, f" {self._what} -> granted\n")

    def stopped(self) -> Over:
        return gone(self._account.id)

    def doubt(self, front: str) -> EscrowError:
        self._account.given_up()
        return Unknown(f"{LATE}: it is given back", self._account.id, self._account.key)

    def told(self, replies: Sequence[Reply]) -> None:
        replies[0].words("granted")


class Commit(Naming[None]):
    """The commit of a transaction."""

    __slots__ = ("_account",)
    command = Command.COMMIT
    closes = True
    bound = True

    def __init__(self, account: Account) -> None:
        self._account = account

    def plan(self, run: Run) -> None:
        self.own, front = self._account.ends(run), f"{run.number} commit "
        self.asked, self.granted = (front, "\n"), (front, " -> committed\n")

    def doubt(self, front: str) -> EscrowError:
        return Unknown(LATE, self._account.id)

    def stopped(self) -> Over:
        self._account.stopped()
        return gone(self._account.id)

    def told(self, replies: Sequence[Reply]) -> None:
        replies[0].words("committed")


class Abort(Naming[None]):
    """The abort of a transaction."""

    __slots__ = ("_account",)
    command = Command.ABORT
    closes = True
    bound = True

    def __init__(self, account: Account) -> None:
        self._account = account

    def plan(self, run: Run) -> None:
        self.own, front = self._account.ends(run), f"{run.number} abort "
        self.asked, self.granted = (front, "\n"), (front, " -> aborted\n")

    def stopped(self) -> Over:
        self._account.stopped()
        return gone(self._account.id)

    def told(self, replies: Sequence[Reply]) -> None:
        replies[0].words("aborted")


class GiveBack(Naming[None]):
    """The abort of a transaction whose time is up. Nobody waits for it."""

    __slots__ = ()
    command = Command.ABORT
    closes = True
    bound = True

    def __init__(self, id: str) -> None:
        self.waiter = None
        self.own = id

    def plan(self, run: Run) -> None:
        front = f"{run.number} abort "
        self.asked, self.granted = (front, "\n"), (front, " -> aborted\n")

    def told(self, replies: Sequence[Reply]) -> None:
        replies[0].words("aborted")


class Kept(Call[Outcome]):
    """What became of a transaction: by its id as callers have it, and as lines do."""

    __slots__ = ("_asked", "_id", "_is_open")
    command = Command.KEPT
    again = True

    def __init__(self, asked: str, id: str) -> None:
        self._asked, self._id, self._is_open = asked, id, False
        self.text, self.expected = f"kept {id}\n", ""

    def plan(self, run: Run) -> None:
        self._stands(run.standing(self._id))

    def _stands(self, standing: Standing) -> None:
        if standing is Standing.LATER:
            raise Unknown("its epoch is later than any of the log: an older log was put back", self._asked)
        if standing is Standing.UNBEGUN:
            raise ValueError(f"{self._asked}: no such transaction was begun yet")
        self._is_open = standing is Standing.OPEN

    def told(self, replies: Sequence[Reply]) -> Outcome:
        text = replies[0].text
        if text == "yes":
            return Outcome.COMMITTED
        if text == FORGOTTEN:
            raise Forgotten(self._asked)
        if text in BY_A_DOOR:
            self._stands(BY_A_DOOR[text])
        elif text != "no":
            raise OddWord(replies[0].line, text)
        return Outcome.OPEN if self._is_open else Outcome.NOT_COMMITTED


BY_A_DOOR = {"later": Standing.LATER, "unbegun": Standing.UNBEGUN, "open": Standing.OPEN}
"""What a door answers by itself of a transaction, and of a key's position."""


class Left(Call[None]):
    """Gives a place back to a door, that nobody wants any more."""

    __slots__ = ()
    command = Command.ABORT

    def __init__(self) -> None:
        self.waiter = None
        self.text, self.expected = "leave\n", "leave -> left\n"

    def plan(self, run: Run) -> None:
        """It is the same at any time."""

    def told(self, replies: Sequence[Reply]) -> None:
        """Any answer will do."""


class Position(Call[str]):
    """The newest transaction, as lines name it, or `EPOCH.0`: asked of a door, which knows of all."""

    __slots__ = ()
    command = Command.SHARE
    again = True

    def __init__(self) -> None:
        self.text, self.expected = "position\n", ""

    def plan(self, run: Run) -> None:
        """It is the same at any time."""

    def told(self, replies: Sequence[Reply]) -> str:
        try:
            return read_id(replies[0].text).line
        except ValueError as fault:
            raise OddWord(replies[0].line, replies[0].text) from fault


class Newest(Call[Mark]):
    """How far the log has come by now, asked of a door."""

    __slots__ = ()
    command = Command.SHARE
    again = True

    def __init__(self) -> None:
        self.text, self.expected = "mark\n", ""

    def plan(self, run: Run) -> None:
        """It is the same at any time."""

    def told(self, replies: Sequence[Reply]) -> Mark:
        epoch, _, length = replies[0].text.partition(" ")
        if not (epoch + length).isdecimal():
            raise Faulty(f"{replies[0].line!r} was answered {replies[0].text!r}")
        return Mark(int(epoch), int(length))
