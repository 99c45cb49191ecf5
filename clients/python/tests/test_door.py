"""A door for many processes: whose transactions are whose, how places are shared, who is ended, and how one comes in."""

from __future__ import annotations

import asyncio
import os
import signal
import socket
import stat
import subprocess
import sys
import threading
import time
import unittest

from doors import Door, DoorTest, Hand, children_of
from programs import LARGE, LONG, PACKAGES, SHOP, commits, escrow_site, of_shop, stand_still, wait_until
import escrow
import escrow_carrier
from escrow import Kind, Outcome, Share
from escrow.door.places import Holder, Places

OTHERS = "another connection of the door began it, and each has its own"
HOLDS = """
import sys, time
import escrow
site = escrow.Site.connect(sys.argv[1], wait=60.0)
held = [site.transaction() for _ in range(3)]
for t in held:
    t.lower("stock", 2)
print("holds", flush=True)
time.sleep(600)
"""
"""A process that sets aside three times two."""
COMES = """
import os, sys
import escrow
if os.geteuid() == 0:
    os.setuid(65534)
try:
    escrow.Site.connect(sys.argv[1], wait=5.0)
except escrow.Down as fault:
    print(fault)
"""
"""A process of another user, where it can be one, that comes in."""


class OwnTest(DoorTest):
    """Each connection has its own transactions."""

    def test_one_of_another_connection_is_refused(self) -> None:
        door = self.door(SHOP)
        ours, others = self.hand(door), self.hand(door)
        self.assertEqual(ours.told("0 begin", "0 escrow .1 stock -3"),
                         ["0 begin -> begun 1.1", "0 escrow 1.1 stock -3 -> granted"])
        foreign = ("0 commit 1.1", "0 abort 1.1", "0 escrow 1.1 stock -1")
        told = others.told(*foreign, "0 commit .1", "0 commit 1.7", "kept 1.1")
        for line, name in zip(told, foreign):
            self.assertEqual(line, f"{name} -> refused 4 no transaction: {OTHERS}")
        for line in told[3:5]:
            self.assertIn(" -> refused 4 no transaction: it has ended, or was begun by no line of this connection", line)
        self.assertEqual(told[5], "kept 1.1 -> open")
        self.assertEqual(ours.told("0 commit .1"), ["0 commit 1.1 -> committed"])
        self.assertEqual(others.told("kept 1.1", "0 share stock"), ["kept 1.1 -> yes", "0 share stock -> share 17 33"])

    def test_what_a_killed_process_has_open_is_aborted(self) -> None:
        door = self.door(SHOP)
        site = self.connected(door)
        words = [sys.executable, "-S", "-c", HOLDS, door.path]
        with subprocess.Popen(words, cwd=PACKAGES, stdout=subprocess.PIPE) as process:
            assert process.stdout is not None
            self.assertEqual(process.stdout.readline(), b"holds\n")
            self.assertEqual(site.share("stock"), Share(14, 30))
            with site.transaction() as t:
                t.lower("stock", 14)
                process.kill()
                wait_until(lambda: site.share("stock") == Share(6, 30))
        self.assertEqual(site.outcome(t.id), Outcome.COMMITTED)
        door.close()
        self.assertEqual(list(commits(door.folder, SHOP).values()), [(("stock", -14),)])

    def test_a_line_is_the_doors_or_of_the_site(self) -> None:
        door = self.door(SHOP)
        hand = self.hand(door)
        bad = "bad line: the door takes no such line"
        for line in ("0 restart", "00 begin", "1 begin", "0  begin", "", "0", "0 begin 7", "0 change stock", "0 change stock 1.5",
                     "0 change none -1", "0 open stock 01", "0 enter stock -1", "leave", "0 commit", "0 stop", "begin"):  # fmt: skip
            self.assertEqual(hand.told(line), [bad], line)
        self.assertEqual(hand.told("0 change stock -3", many=3),
                         ["0 begin -> begun 1.1", "0 escrow 1.1 stock -3 -> granted", "0 commit 1.1 -> committed"])
        self.assertEqual(hand.told("kept 1.1", "kept 1.2", "kept 2.1", "kept 1"),
                         ["kept 1.1 -> yes", "kept 1.2 -> unbegun", "kept 2.1 -> later", "kept 1 -> no"])
        hand.ask("0 share " + "x" * 300)
        wait_until(lambda: hand.line().startswith("bad line "))
        hand.peer.sendall(b"x" * 300)
        self.assertEqual((hand.line(), hand.line()), ("door end a line is longer than 256 bytes", ""))

    def test_a_receipt_goes_before_what_it_tells_of(self) -> None:
        door = self.door(LARGE)
        hand = self.hand(door)
        serve = children_of(door.process.pid)[0]
        stand_still(serve)
        hand.ask("0 change stock -1", "0 share stock", "0 change stock -2")
        self.assertEqual(hand.line(), "door took 3 1.1")
        os.kill(serve, signal.SIGCONT)
        self.assertEqual([hand.line() for _ in range(7)][-1], "0 commit 1.2 -> committed")

    def test_an_input_that_ends_is_answered_first(self) -> None:
        door = self.door(SHOP)
        hand = self.hand(door)
        hand.ask("0 change stock -1", "0 begin", "0 escrow .1 stock -2")
        hand.peer.shutdown(socket.SHUT_WR)
        told = [hand.line() for _ in range(7)]
        self.assertEqual(told[-2:], ["0 escrow 1.2 stock -2 -> granted", ""])
        self.assertEqual(self.hand(door).told("0 share stock"), ["0 share stock -> share 19 31"])


class SharedTest(DoorTest):
    """The calls of a `Site` that came in."""

    def test_it_tells_what_a_site_tells(self) -> None:
        door = self.door(SHOP)
        site = self.connected(door)
        self.assertEqual((site.number, site.schema, site.epoch, site.up, site.open, site.pid), (0, SHOP, 1, True, 0, None))
        self.assertEqual(site.change("stock", -3), of_shop("1.1"))
        heard: list[escrow.Statement] = []
        site.on_statement.append(heard.append)
        self.assertEqual(site.give(1, "stock", Kind.LOWER, 2).total, 2)
        self.assertEqual(site.spare(1, "stock", Kind.LOWER, 100).statement.total, 10)
        self.assertEqual(site.tighten("stock", Kind.RAISE, 4), 4)
        self.assertEqual(site.share("stock"), Share(7, 29))
        self.assertEqual(site.accept(escrow.Statement(1, 0, "stock", Kind.LOWER, 5)), 5)
        with self.assertRaises(escrow.Short) as raised:
            site.change("stock", -13)
        self.assertEqual(raised.exception.share, 12)
        wait_until(lambda: [it.total for it in heard] == [2, 10])
        mark = site.newest_mark()
        door.close()
        self.assertEqual(mark, escrow.show(door.folder, escrow_site()).mark)

    def test_outcomes_of_others(self) -> None:
        door = self.door(SHOP)
        site, other = self.connected(door), self.connected(door)
        with other.transaction() as t:
            t.lower("stock", 1)
            self.assertEqual(site.outcome(t.id), Outcome.OPEN)
        self.assertEqual(site.outcome(t.id), Outcome.COMMITTED)
        with self.assertRaises(ValueError):
            site.outcome(of_shop("1.2"))
        with self.assertRaises(escrow.Unknown):
            site.outcome(of_shop("2.1"))
        other.close()
        escrow.Site.connect(door.path, last_id=t.id, wait=LONG).close()
        with self.assertRaises(escrow.Down) as raised:
            escrow.Site.connect(door.path, last_id=of_shop("1.9"))
        self.assertEqual(raised.exception.status, 3)
        with self.assertRaises(escrow.Down) as raised:
            escrow.Site.connect(door.path, not_before=escrow.Mark(1, 99_999))
        self.assertIn("older than", str(raised.exception))

    def test_tasks_and_threads_and_limits(self) -> None:
        door = self.door(LARGE)
        site = self.connected(door)
        told: list[str] = []
        threads = [threading.Thread(target=lambda: told.append(site.change("stock", -1))) for _ in range(8)]

        async def tasks() -> None:
            async with escrow.AsyncSite.connect(door.path, wait=LONG) as shop:
                told.extend(await asyncio.gather(*(shop.change("stock", -1) for _ in range(200))))
                await asyncio.gather(*(self.sets_aside(shop, told) for _ in range(100)))
                late = asyncio.ensure_future(shop.change("stock", -1))
                await asyncio.sleep(0)
                late.cancel()

        for thread in threads:
            thread.start()
        asyncio.run(tasks())
        for thread in threads:
            thread.join()
        with site.transaction(1.0) as t:
            t.lower("stock", 5)
            wait_until(lambda: site.open == 0)
            with self.assertRaises(escrow.Over):
                t.commit()
        wait_until(lambda: site.share("stock").lower in (500_000 - 308, 500_000 - 309))  # the cancelled one may be made
        door.close()
        self.assertEqual(set(told) - set(commits(door.folder, LARGE)), set())
        self.assertEqual(len(told), len(set(told)))

    async def sets_aside(self, shop: escrow.AsyncSite, told: list[str]) -> None:
        """A sale by a transaction."""
        async with shop.transaction() as t:
            await t.lower("stock", 1)
        told.append(t.id)

    def test_a_fork_has_none(self) -> None:
        door = self.door(SHOP)
        site = self.connected(door)
        pid = os.fork()
        if pid == 0:
            try:
                site.change("stock", -1)
                os._exit(1)
            except escrow.Down:
                os._exit(0)
            finally:
                os._exit(2)
        self.assertEqual(os.waitpid(pid, 0)[1], 0)
        self.assertEqual(site.change("stock", -1), of_shop("1.1"))


class PlacesTest(DoorTest):
    """The places of open transactions."""

    def test_the_rule(self) -> None:
        places = Places(7)
        first, second, third = Holder(), Holder(), Holder()
        self.assertEqual([places.take(first) for _ in range(5)], [True] * 4 + [False])  # it holds 4, and 3 are free
        places.ask(first)
        self.assertEqual([places.take(second) for _ in range(3)], [True, True, False])  # it holds 2, and 1 is free
        places.ask(second)
        self.assertEqual((places.free, places.grant()), (1, None))
        self.assertTrue(places.take(third))  # it holds none
        places.give_back(third)
        places.give_back(first)
        self.assertEqual((places.grant(), places.free), (None, 2))  # they hold 3 and 2
        places.give_back(first)
        self.assertFalse(places.take(third))  # it is another's turn
        self.assertIs(places.grant(), first)  # both hold 2 while 3 are free, and it asked before
        self.assertIsNone(places.grant())
        places.leave(first)
        self.assertEqual((places.grant(), places.grant(), places.free), (second, None, 4))

    def test_a_greedy_one_leaves_places_to_others(self) -> None:
        door = self.door(LARGE)
        greedy = self.hand(door)
        greedy.ask(*["0 open stock -1"] * 100)
        told = [greedy.line() for _ in range(1 + 68 + 64)]
        self.assertEqual((told[0], told[1:69]), ("door took 32 1.1", ["door busy"] * 68))
        site, began = self.connected(door), time.monotonic()
        with site.transaction(timeout=LONG) as t:
            t.lower("stock", 1)
        self.assertLess(time.monotonic() - began, LONG)
        # What the door hasn't answered in time ends the connection: it has the time for that also on a busy machine.
        held = [*(site.transaction(timeout=LONG) for _ in range(16)), site.transaction(timeout=3.0)]
        for t in held[:16]:
            t.lower("stock", 1)  # as long as it holds fewer than are free
        with self.assertRaises(escrow.Busy):
            held[16].lower("stock", 1)
        self.assertEqual((site.open, site.unanswered), (16, 0))
        greedy.close()
        held[16].lower("stock", 1, timeout=LONG)
        for t in held:
            t.commit(timeout=LONG)
        self.assertEqual(site.share("stock").lower, 500_000 - 18)

    def test_one_that_gave_up_takes_no_place(self) -> None:
        door = self.door(LARGE)
        others = [self.hand(door) for _ in range(6)]
        for other in others:
            other.ask(*["0 open stock -1"] * 40)
        wait_until(lambda: self.share_of(door) == 500_000 - 63)  # 32, 16, 8, 4, 2, 1
        site = self.connected(door)
        with self.assertRaises(escrow.Busy):
            site.transaction(timeout=0.1).lower("stock", 1)
        served: list[int] = []
        threads = [threading.Thread(target=self.takes, args=(site, served, number)) for number in range(3)]
        for number, thread in enumerate(threads):
            thread.start()
            wait_until(lambda number=number: site.unanswered == number + 1)  # type: ignore[misc]
        for other in others:
            other.close()
        for thread in threads:
            thread.join()
        self.assertEqual(sorted(served), [0, 1, 2])
        self.assertEqual((site.open, site.share("stock").lower), (0, 500_000 - 3))

    def share_of(self, door: Door) -> int:
        """How many are free, asked by a connection of its own."""
        hand = Hand(door.path)
        told = hand.told("0 share stock")[0].split(" ")
        hand.close()
        return int(told[5])

    def takes(self, site: escrow.Site, served: list[int], number: int) -> None:
        """Sells one, once there is a place."""
        with site.transaction() as t:
            t.lower("stock", 1)
            served.append(number)


class SlowTest(DoorTest):
    """Who doesn't read."""

    def test_a_reader_that_never_reads_holds_nobody_up(self) -> None:
        door = self.door(LARGE, "--slow", "10")
        slow, site = self.hand(door), self.connected(door)
        slow.told("0 begin", "0 escrow .1 seats -7")
        slow.peer.setblocking(False)
        pushed, longest, end = 0, 0.0, time.monotonic() + 2 * LONG
        while site.share("seats") != Share(500_000, 500_000):
            self.assertLess(time.monotonic(), end)
            pushed += self.push(slow)
            began = time.monotonic()
            site.change("stock", -1)
            longest = max(longest, time.monotonic() - began)
        self.assertLess(longest, 8.0)
        self.assertLess(pushed, 5_000_000)  # it isn't read from any more
        self.assertIn("it took no answer for 10 seconds", door.text())

    def push(self, slow: Hand) -> int:
        """As many bytes of lines as go out at once."""
        try:
            return slow.peer.send(b"0 share stock\n" * 4096)
        except OSError:
            return 0


class ComeInTest(DoorTest):
    """The socket: its mode, who is refused, and what is told."""

    def refused(self, *words: str) -> tuple[int, str]:
        """The status and the text of a door that doesn't open."""
        command = [sys.executable, "-S", "-m", "escrow.door", *words, "--program", escrow_site()]
        ran = subprocess.run(command, cwd=PACKAGES, capture_output=True, text=True, timeout=LONG, check=False)
        return ran.returncode, ran.stderr

    def test_modes(self) -> None:
        door = self.door(SHOP, "--mode", "0")
        os.chmod(self.place, 0o755)
        told = subprocess.run([sys.executable, "-S", "-c", COMES, door.path], cwd=PACKAGES, capture_output=True, text=True,
                              check=True)  # fmt: skip
        self.assertIn("this user may not come in", told.stdout)
        self.assertEqual(stat.S_IMODE(os.stat(door.path).st_mode), 0)
        door.close()
        others: list[tuple[list[str], int]] = [([], 0o600), (["--mode", "0660"], 0o660)]
        for words, mode in others:
            door.words = [it for it in door.words if it not in ("--mode", "0")] + words
            door.start()
            self.assertEqual(stat.S_IMODE(os.stat(door.path).st_mode), mode)
            door.close()

    def test_a_living_door_is_not_replaced_and_a_stale_socket_is(self) -> None:
        door = self.door(SHOP)
        site = self.connected(door)
        other = self.folder(SHOP, 1, "other")
        for still in (False, True):
            if still:
                door.stand_still()
            status, text = self.refused(other, "--socket", door.path)
            self.assertEqual((status, "in use: another door listens there" in text), (6, True), text)
        door.go_on()
        self.assertEqual(site.change("stock", -1), of_shop("1.1"))
        door.kill()
        self.assertTrue(os.path.exists(door.path))
        door.start()
        self.assertEqual(site.change("stock", -1), of_shop("2.1"))
        self.assertEqual(door.close(), 0)
        self.assertFalse(os.path.exists(door.path))

    def test_what_is_at_the_path_of_others_is_left(self) -> None:
        folder, path = self.folder(SHOP), os.path.join(self.place, "it")
        with socket.socket(socket.AF_UNIX) as listener:
            listener.bind(path)
            listener.listen()
            status, text = self.refused(folder, "--socket", path)
        self.assertEqual((status, "another program listens there" in text), (6, True), text)
        os.unlink(path)
        with open(path, "w", encoding="ascii"):
            pass
        status, text = self.refused(folder, "--socket", path)
        self.assertEqual((status, "is there, and is no socket" in text), (2, True), text)
        with self.assertRaises(escrow.Down) as raised:
            escrow.Site.connect(os.path.join(self.place, "none"), wait=0.1)
        self.assertIn("no door is there: start one: python3 -m escrow.door FOLDER --socket", str(raised.exception))

    def test_a_carrier_wants_the_folder(self) -> None:
        site = self.connected(self.door(SHOP))
        with self.assertRaisesRegex(ValueError, f"^{site.folder}: a carrier reads the folder of its site, and this one is behind a door: "):
            escrow_carrier.Carrier(site, escrow_carrier.Folder(f"{site.folder}.share"))

    def test_a_folder_is_served_once(self) -> None:
        door = self.door(SHOP)
        with self.assertRaises(escrow.Down) as raised:
            escrow.Site(door.folder, program=escrow_site())
        self.assertEqual(raised.exception.status, 6)
        self.assertEqual(self.refused(door.folder, "--socket", f"{door.path}2")[0], 6)
        status, text = self.refused(os.path.join(self.place, "nothing"), "--socket", f"{door.path}2")
        made = "isn't there: look whether its disk is: a site's folder is made by create, once"
        self.assertEqual((status, made in text), (3, True), text)
        status, text = self.refused(self.folder(SHOP, 1, "other"))
        self.assertEqual((status, "name one by --socket PATH" in text), (2, True), text)
        self.assertEqual(self.refused(self.folder(SHOP, 1, "third"), "--socket", "/none/at/all")[0], 2)

    def test_a_door_of_another_version(self) -> None:
        path = os.path.join(self.place, "it")
        with socket.socket(socket.AF_UNIX) as listener:
            listener.bind(path)
            listener.listen()
            peers: list[socket.socket] = []

            def answers() -> None:
                peer, _ = listener.accept()
                peer.sendall(b"escrow door 2\n" + b"what it is\n" * 9)
                peers.append(peer)

            thread = threading.Thread(target=answers)
            thread.start()
            with self.assertRaises(escrow.Down) as raised:
                escrow.Site.connect(path)
            thread.join()
            peers[0].close()
        self.assertIn("isn't a door of version 1, which alone this client knows: it began with 'escrow door 2'",
                      str(raised.exception))

    def test_a_door_that_answers_what_was_not_asked(self) -> None:
        """What it says behind that isn't read: so it may have taken the change."""
        path = os.path.join(self.place, "it")
        hello = f"escrow door 1\nnumber 0\nworld {'0' * 64}\n{SHOP.line()}\nready 1 1 4\n"
        with socket.socket(socket.AF_UNIX) as listener:
            listener.bind(path)
            listener.listen()

            def answers() -> None:
                peer, _ = listener.accept()
                with peer, open(os.devnull, "rb") as token:
                    socket.send_fds(peer, [hello.encode()], [token.fileno()])
                    peer.recv(4096)
                    peer.sendall(b"0 read seats -> between 1 2\ndoor took 1 1.1\n")
                    peer.recv(4096)

            thread = threading.Thread(target=answers)
            thread.start()
            with escrow.Site.connect(path, patience=0.1) as site:
                with self.assertRaises(escrow.Unknown) as raised:
                    site.change("stock", -1)
                listener.close()
            thread.join()
        self.assertIsNone(raised.exception.id)

    def test_by_systemd(self) -> None:
        folder, path = self.folder(SHOP), os.path.join(self.place, "it")
        with socket.socket(socket.AF_UNIX) as listener:
            listener.bind(path)
            listener.listen()
            door = ["exec", sys.executable, "-S", "-m", "escrow.door", folder, "--program", escrow_site()]
            script = f"LISTEN_PID=$$ LISTEN_FDS=1 {' '.join(door)} 3<&{listener.fileno()}"
            with open(f"{path}.told", "wb") as told:
                process = subprocess.Popen(["sh", "-c", script], cwd=PACKAGES, stderr=told, pass_fds=(listener.fileno(),))
            with escrow.Site.connect(path, wait=LONG) as site:  # it waits in the socket until the door takes it
                self.assertEqual(site.change("stock", -1), of_shop("1.1"))
                process.kill()
                process.wait()
                process = subprocess.Popen(["sh", "-c", script], cwd=PACKAGES, pass_fds=(listener.fileno(),),
                                           stderr=subprocess.DEVNULL)  # fmt: skip
                self.assertEqual(site.change("stock", -1), of_shop("2.1"))
            process.terminate()
            self.assertEqual(process.wait(), 0)
        self.assertTrue(os.path.exists(path))


if __name__ == "__main__":
    unittest.main()
