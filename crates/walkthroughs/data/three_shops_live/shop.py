#!/usr/bin/env python3
"""One shop: its site, the carrier that joins it to the others, and a seller. Shop 0 sells most, and shop 2 gets the
deliveries.

    shop.py FOLDER NUMBER PORT ESCROW_SITE

Ends at SIGTERM. What it sold, and why it couldn't, is told on standard output."""
import random
import signal
import sys
import threading

from escrow import EscrowError, Short, Site, Statement
from escrow_carrier import Carrier, Mqtt, Policy

PAUSES = (0.8, 1.6, 2.4)                                # seconds between two customers of each shop, in the mean
DELIVERIES = (0.0, 0.0, 0.4)                            # which part of them brings bikes
POLICY = Policy(quiet=3.0)


def tell(text: str) -> None:
    """A line of what happens."""
    print(text, flush=True)


class Shop:
    """Sells bikes, until it is told to stop."""

    def __init__(self, folder: str, number: int, site: Site, carrier: Carrier) -> None:
        self.folder, self.number, self.site, self.carrier = folder, number, site, carrier
        self.dice, self.stopped = random.Random(), threading.Event()
        site.on_start.append(self.started)
        site.on_statement.append(self.gave)
        self.started()

    def started(self) -> None:
        """Notes the process of the site, for who wants to kill it."""
        with open(f"{self.folder}/site{self.number}.pid", "w", encoding="ascii") as file:
            print(self.site.pid, file=file)
        tell(f"its site stands: epoch {self.site.epoch}, process {self.site.pid}")

    def gave(self, given: Statement) -> None:
        """Tells what it gave."""
        tell(f"gave rights to {given.kind.value} to shop {given.to}, {given.total} so far")

    def serve(self) -> None:
        """One customer after another."""
        while not self.stopped.wait(self.dice.random() * 2 * PAUSES[self.number]):
            is_delivery = self.dice.random() < DELIVERIES[self.number]
            count = self.dice.randint(8, 24) if is_delivery else self.dice.randint(1, 4)
            try:
                name = self.carrier.change("bikes", count if is_delivery else -count)
                tell(f"{'took in' if is_delivery else 'sold'} {count}: transaction {name}")
            except Short as short:
                what = "room" if is_delivery else "bikes"
                tell(f"no {what} for {count}: {short.share} here, and the others had too few")
            except EscrowError as fault:
                tell(f"a customer went away: {fault}")


def main(folder: str, number: str, port: str, program: str) -> None:
    """Serves the shop."""
    with open(f"{folder}/password{number}", encoding="ascii") as file:
        medium = Mqtt(port=int(port), user=f"site{number}", password=file.read())
    with Site(f"{folder}/shop{number}", program, trace=True) as site:
        with Carrier(site, medium, POLICY, refresh=2.0) as carrier:
            shop = Shop(folder, int(number), site, carrier)
            signal.signal(signal.SIGTERM, lambda *_: shop.stopped.set())
            shop.serve()
    tell("closed")


main(*sys.argv[1:])
