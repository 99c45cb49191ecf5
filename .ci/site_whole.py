"""All records of a site since it was created, those that its log has let go too: what was answered, and what a stop left
unanswered, tell them, so that a log that was shortened is compared with itself as it would be had it never been."""
from __future__ import annotations

from gate_programs import Fault
from site_model import KINDS, Gone, Log, World, id_of

# A record that stands so many behind the last summary takes one with it.
SUMMED = 1_000
LETTERS = {kind: letter for letter, kind in KINDS.items()}


class Whole:
    """The records, told one by one."""

    def __init__(self, world: World, number: int) -> None:
        self.log = Log(world, number, world.log_head(number))
        self.names = [it.name for it in world.fields]
        self.text = bytearray()
        self.counted = 0  # records without summaries
        self.starts: dict[int, int] = {}  # where a summary begins, and how many records stand in front of it
        self.places: dict[str, int] = {}  # where the record of a commit begins
        self.orders: dict[str, str] = {}  # the transaction that was committed with a key
        self.gone: Gone | None = None
        self.seen = 0  # of the commits in order, so many were gone as the log was looked at last
        self.latest = (1, 0)

    def keep(self, record: str) -> None:
        self.log.take(record)
        if record.startswith("C"):
            epoch, number = record.split(" ", 3)[1:3]
            self.places[f"{epoch}.{number}"] = len(self.text)
        self.text += f"{record}\n".encode()
        self.counted += 1
        if self.counted % SUMMED == 0:
            self.starts[len(self.text)] = self.counted
            self.text += f"{self.log.summary()}\n".encode()
        self.log.length = len(self.text)

    def keep_commit(self, txn: str, changes: list[tuple[int, int]]) -> None:
        """What a transaction that is committed keeps: nothing, where no escrow was granted."""
        if changes:
            epoch, number = id_of(txn)
            self.keep(" ".join([f"C {epoch} {number}", *(f"{field} {change}" for field, change in changes)]))

    def keep_total(self, letter: str, site: str, name: str, kind: str, total: int) -> None:
        """A gift or an acceptance."""
        self.keep(f"{letter} {site} {self.names.index(name)} {LETTERS[kind]} {total}")

    def sell(self, key: str, txn: str) -> None:
        if key in self.orders:
            raise Fault(f"sold twice: {key}, by {self.orders[key]} and by {txn}")
        self.orders[key] = txn

    def kept(self, txn: str) -> str:
        return "yes" if txn in self.log.commits else "no"

    # ---- beside the log as it is

    def lines_behind(self, name: str, held: Log) -> list[str]:
        """The records of the log that stand behind all that are known here: the log has all known ones, but for those that its
        head tells to be gone, byte for byte."""
        place, known = held.length - sum(len(it) + 1 for it in held.records), len(self.text)
        text = "".join(f"{it}\n" for it in held.records).encode()
        if place > known or text[: known - place] != self.text[place:]:
            raise Fault(f"{name}: the log has other records than were answered, behind {place} of {known} bytes: {held.gone}")
        return text[known - place :].decode().splitlines()

    def look_at_head(self, name: str, held: Log) -> None:
        """What the head tells to be gone is so."""
        before, self.gone = self.gone, held.gone
        if held.gone is None:
            if before:
                raise Fault(f"{name}: nothing is gone, and before {before}")
            return
        is_on = before is None or before.bytes <= held.gone.bytes
        if not is_on or self.starts.get(held.gone.bytes) != held.gone.records:
            raise Fault(f"{name}: {held.gone}, and before {before}")
        self.look_at_horizon(name, held.gone)

    def look_at_horizon(self, name: str, gone: Gone) -> None:
        commits = list(self.places)
        while self.seen < len(commits) and self.places[commits[self.seen]] < gone.bytes:
            self.latest = max(self.latest, id_of(commits[self.seen]))
            self.seen += 1
        listed = [f"{gone.epoch}.{number}" for number in gone.open_then]
        if (gone.epoch, gone.number) != self.latest or any(self.places.get(it, gone.bytes) < gone.bytes for it in listed):
            raise Fault(f"{name}: {gone}, and the last commit that is gone is {self.latest}")

    def look_at_keys(self, name: str, held: Log) -> None:
        """The log has the key of each commit that is held, and no other."""
        place = held.gone.bytes if held.gone else 0
        wanted = {key: txn for key, txn in self.orders.items() if self.places[txn] >= place}
        has = {key: txn for key, txn in held.notes.items() if txn in held.commits}
        if has != wanted:
            odd = dict(set(has.items()) ^ set(wanted.items()))
            raise Fault(f"{name}: the log has other keys than were answered: {odd}")
