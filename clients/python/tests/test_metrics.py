"""Tests of `escrow.metrics`: the text is compared with what was typed by hand, and read by a reader of its own."""
from __future__ import annotations

import asyncio
import contextlib
import errno
import io
import math
import os
import re
import signal
import socket
import struct
import tempfile
import threading
import time
import unittest
import unittest.mock
import urllib.error
import urllib.request

import programs

import escrow
from escrow.metrics import CONTENT_TYPE, LONGEST, LOOK, Metrics, Type, serve, text_of, write
from escrow.page_server import PageServer

NAME = re.compile(r"[a-zA-Z_:][a-zA-Z0-9_:]*")
SAMPLE = re.compile(r"([a-zA-Z_:][a-zA-Z0-9_:]*)(?:\{(.*)\})? (\S+)")
LABEL = re.compile(r'([a-zA-Z_][a-zA-Z0-9_]*)="((?:[^"\\\n]|\\\\|\\"|\\n)*)"(?:,|$)')
ESCAPES = {"\\\\": "\\", '\\"': '"', "\\n": "\n"}


def labels_of(text: str) -> dict[str, str]:
    """The labels of a sample; an AssertionError where they are none."""
    labels, end = {}, 0
    for found in LABEL.finditer(text):
        assert found.start() == end, text
        end = found.end()
        labels[found[1]] = re.sub(r"\\.", lambda it: ESCAPES[str(it.group())], found[2])
    assert end == len(text), text
    return labels


def read(text: str) -> dict[str, dict[tuple[tuple[str, str], ...], float]]:
    """Samples by name and labels: each family has its help, then its type, then its samples and no others."""
    samples: dict[str, dict[tuple[tuple[str, str], ...], float]] = {}
    seen: set[str] = set()
    family = kind = ""
    assert text == "" or text.endswith("\n")
    for line in text.split("\n")[:-1]:
        if line.startswith("# HELP "):
            family = line.split(" ")[2]
            assert NAME.fullmatch(family) and family not in seen, line
            seen.add(family)
        elif line.startswith("# TYPE "):
            assert line.split(" ")[2] == family, line
            kind = line.split(" ")[3]
            assert kind in ("counter", "gauge", "histogram"), line
        else:
            found = SAMPLE.fullmatch(line)
            assert found, line
            ends = ("_bucket", "_sum", "_count") if kind == "histogram" else ("",)
            assert found[1] in [family + end for end in ends], line
            key = tuple(sorted(labels_of(found[2] or "").items()))
            assert key not in samples.setdefault(found[1], {}), line
            samples[found[1]][key] = math.inf if found[3] == "+Inf" else float(found[3])
    return samples


WHOLE = """\
# HELP escrow_answers_total Answers of the site, refusals included, by command.
# TYPE escrow_answers_total counter
escrow_answers_total{site="2",command="commit"} 2
escrow_answers_total{site="2",command="escrow"} 4
# HELP escrow_refusals_total Refusals, by command, number and reason.
# TYPE escrow_refusals_total counter
escrow_refusals_total{site="2",command="accept",number="2",reason="no site"} 0
escrow_refusals_total{site="2",command="accept",number="3",reason="no field"} 0
escrow_refusals_total{site="2",command="accept",number="10",reason="not yours"} 0
escrow_refusals_total{site="2",command="accept",number="11",reason="forged"} 0
escrow_refusals_total{site="2",command="escrow",number="7",reason="short"} 1
escrow_refusals_total{site="2",command="give",number="9",reason="ledger full"} 0
escrow_refusals_total{site="2",command="spare",number="9",reason="ledger full"} 0
# HELP escrow_missed_total Calls that ended without an answer, by outcome.
# TYPE escrow_missed_total counter
escrow_missed_total{site="2",outcome="busy"} 0
escrow_missed_total{site="2",outcome="down"} 0
escrow_missed_total{site="2",outcome="forgotten"} 0
escrow_missed_total{site="2",outcome="lost"} 1
escrow_missed_total{site="2",outcome="over"} 0
escrow_missed_total{site="2",outcome="unknown"} 0
# HELP escrow_answer_seconds Seconds from a command to its answer.
# TYPE escrow_answer_seconds histogram
escrow_answer_seconds_bucket{site="2",le="0.25"} 3
escrow_answer_seconds_bucket{site="2",le="1"} 5
escrow_answer_seconds_bucket{site="2",le="+Inf"} 6
escrow_answer_seconds_sum{site="2"} 6.5
escrow_answer_seconds_count{site="2"} 6
# HELP escrow_share_rights Free rights here, what is left of each field, by kind.
# TYPE escrow_share_rights gauge
escrow_share_rights{site="2",field="seats",kind="lower"} 15
escrow_share_rights{site="2",field="stock",kind="lower"} 4
escrow_share_rights{site="2",field="stock",kind="raise"} 0
# HELP escrow_up 1 where the process is ready, else 0.
# TYPE escrow_up gauge
escrow_up{site="2"} 1
# HELP escrow_starts_total Times that the process was ready.
# TYPE escrow_starts_total counter
escrow_starts_total{site="2"} 2
# HELP escrow_stops_total Ends of the process, by status; below 0 the signal.
# TYPE escrow_stops_total counter
escrow_stops_total{site="2",status="-9"} 1
escrow_stops_total{site="2",status="0"} 0
escrow_stops_total{site="2",status="1"} 0
escrow_stops_total{site="2",status="2"} 0
escrow_stops_total{site="2",status="3"} 0
escrow_stops_total{site="2",status="4"} 0
escrow_stops_total{site="2",status="5"} 0
escrow_stops_total{site="2",status="6"} 0
# HELP escrow_device_faults_total Ends of the process by a call of the system that failed at a file, and why.
# TYPE escrow_device_faults_total counter
escrow_device_faults_total{site="2",file="log",call="sync",reason="Input/output error",number="5"} 1
# HELP escrow_epoch Epoch of the last start.
# TYPE escrow_epoch gauge
escrow_epoch{site="2"} 8
# HELP escrow_log_bytes Bytes of the log's file now; until it is looked at, of its records at the last start.
# TYPE escrow_log_bytes gauge
escrow_log_bytes{site="2"} 1500
# HELP escrow_waiting_calls Calls that aren't answered yet.
# TYPE escrow_waiting_calls gauge
escrow_waiting_calls{site="2"} 3
# HELP escrow_open_transactions Open transactions, of 64 places.
# TYPE escrow_open_transactions gauge
escrow_open_transactions{site="2"} 1
"""


def told() -> Metrics:
    """Site 2 after two starts, six answers, a refusal and a kill; all times can be added without rounding."""
    numbers = Metrics(2, (0.25, 1))
    numbers.started(7, 1000)
    numbers.answered("escrow", 0.125)
    numbers.answered("escrow", 0.25)
    numbers.answered("escrow", 0.5)
    numbers.refused("escrow", 7, "short")
    numbers.shared("stock", lower=9)
    numbers.stopped(-9)
    numbers.faulted("log", "sync", "Input/output error", 5)
    numbers.missed("lost")
    numbers.started(8, 1500)
    numbers.answered("commit", 0.5, 1)
    numbers.answered("commit", 5)
    numbers.answered("escrow", 0.125)
    numbers.shared("stock", 4, 0)
    numbers.shared("seats", lower=15)
    numbers.waits(3)
    numbers.holds(1)
    return numbers


class Text(unittest.TestCase):
    """The text form."""

    def test_whole(self) -> None:
        """Each number, typed by hand: an answer at the end of a bucket counts in it."""
        self.assertEqual(text_of([told()]), WHOLE)
        read(WHOLE)

    def test_nothing_yet(self) -> None:
        """A site that never started is down; what is alarmed on is 0 from the start, so that the first of it is seen; else what was
        never counted has no sample."""
        samples = read(text_of([Metrics(0)]))
        site = (("site", "0"),)
        self.assertEqual(samples["escrow_up"], {site: 0})
        self.assertEqual(samples["escrow_answer_seconds_count"], {site: 0})
        self.assertEqual(samples["escrow_answer_seconds_bucket"][(("le", "+Inf"),) + site], 0)
        self.assertNotIn("escrow_answers_total", samples)
        forged = (("command", "accept"), ("number", "11"), ("reason", "forged")) + site
        self.assertEqual(samples["escrow_refusals_total"][forged], 0)
        self.assertEqual(samples["escrow_stops_total"][site + (("status", "5"),)], 0)
        self.assertEqual(set(samples["escrow_missed_total"].values()), {0})
        self.assertEqual(text_of([]), "")

    def test_sites_share_families(self) -> None:
        """Two sites in one text: each family once, a sample for each."""
        other = Metrics(0)
        other.answered("read", 0.00005, 3)
        text = text_of([other, told()])
        self.assertEqual(text.count("# TYPE escrow_up gauge"), 1)
        samples = read(text)
        self.assertEqual(samples["escrow_up"], {(("site", "0"),): 0, (("site", "2"),): 1})
        self.assertEqual(samples["escrow_answers_total"][(("command", "read"), ("site", "0"))], 3)
        self.assertEqual(samples["escrow_answer_seconds_bucket"][(("le", "0.0001"), ("site", "0"))], 3)

    def test_labels_are_escaped(self) -> None:
        """A backslash, a quotation mark and a line feed in a label come back as they were."""
        numbers = Metrics(0)
        wild = 'a"b\\c\nd'
        numbers.missed(wild)
        text = text_of([numbers])
        self.assertIn('outcome="a\\"b\\\\c\\nd"} 1\n', text)
        self.assertEqual(read(text)["escrow_missed_total"][(("outcome", wild), ("site", "0"))], 1)

    def test_numbers_of_others(self) -> None:
        """A number that somebody else counts is read for each text, at the sites that have it, in its family."""
        first, second, counted = Metrics(0), Metrics(1), [0]
        for numbers in (first, second):
            numbers.also("escrow_carrier_forged_total", "Forged\nor \\ not.", Type.COUNTER, lambda: counted[0])
        second.also("escrow_carrier_connected", "1 where it is.", Type.GAUGE, lambda: True)
        counted[0] = 3
        self.assertTrue(text_of([first, second]).endswith(
            "# HELP escrow_carrier_forged_total Forged\\nor \\\\ not.\n# TYPE escrow_carrier_forged_total counter\n"
            'escrow_carrier_forged_total{site="0"} 3\nescrow_carrier_forged_total{site="1"} 3\n'
            "# HELP escrow_carrier_connected 1 where it is.\n# TYPE escrow_carrier_connected gauge\n"
            'escrow_carrier_connected{site="1"} 1\n'))
        read(text_of([first, second]))
        second.also("escrow_gone", "It can't be had.", Type.GAUGE, lambda: 1 // 0)
        self.assertTrue(text_of([second]).endswith("# HELP escrow_gone It can't be had.\n# TYPE escrow_gone gauge\n"))
        for name in ("escrow_up", "escrow_carrier_forged_total", "no name", "Name", ""):
            with self.assertRaises(ValueError):
                first.also(name, "", Type.GAUGE, lambda: 0)

    def test_large_numbers(self) -> None:
        """Rights up to 2 * 10^15 are whole numbers in the text."""
        numbers = Metrics(0)
        numbers.shared("money", 2_000_000_000_000_000, 1)
        self.assertIn('kind="lower"} 2000000000000000\n', text_of([numbers]))

    def test_bad_buckets(self) -> None:
        """Ends that don't rise from above 0 are refused."""
        for bounds in ((), (0,), (1, 1), (2, 1)):
            with self.assertRaises(ValueError):
                Metrics(0, bounds)

    def test_threads(self) -> None:
        """No count is lost where eight threads count."""
        numbers = Metrics(0)

        def count() -> None:
            for _ in range(5000):
                numbers.answered("read", 0.0002)
                numbers.refused("read", 3, "no field")

        threads = [threading.Thread(target=count) for _ in range(8)]
        for thread in threads:
            thread.start()
        for thread in threads:
            thread.join()
        samples = read(text_of([numbers]))
        self.assertEqual(list(samples["escrow_answers_total"].values()), [40000])
        self.assertEqual(max(samples["escrow_refusals_total"].values()), 40000)
        self.assertEqual(samples["escrow_answer_seconds_bucket"][(("le", "0.0001"), ("site", "0"))], 0)
        self.assertEqual(samples["escrow_answer_seconds_bucket"][(("le", "0.00025"), ("site", "0"))], 40000)


class Written(unittest.TestCase):
    """The file and the HTTP handler."""

    def test_file(self) -> None:
        """The file has the text, is replaced as a whole, and nothing is left beside it."""
        with tempfile.TemporaryDirectory() as folder:
            path = os.path.join(folder, "escrow.prom")
            write(path, [Metrics(0)])
            write(path, [told()])
            with open(path, encoding="utf-8", newline="") as file:
                self.assertEqual(file.read(), WHOLE)
            self.assertEqual(os.listdir(folder), ["escrow.prom"])

    def test_file_is_always_whole(self) -> None:
        """Who reads while it is written never sees a part."""
        with tempfile.TemporaryDirectory() as folder:
            path, end = os.path.join(folder, "escrow.prom"), time.monotonic() + 0.5
            write(path, [told()])

            def write_again() -> None:
                for _ in range(200):
                    write(path, [told()])

            writer = threading.Thread(target=write_again)
            writer.start()
            while writer.is_alive() and time.monotonic() < end:
                with open(path, encoding="utf-8", newline="") as file:
                    self.assertEqual(file.read(), WHOLE)
            writer.join()

    def test_file_that_cannot_be(self) -> None:
        """A path in no folder, and a path that is a folder, are faults of the system; nothing is left behind."""
        with tempfile.TemporaryDirectory() as folder:
            os.mkdir(os.path.join(folder, "taken"))
            for path in ("none/escrow.prom", "taken"):
                with self.assertRaises(OSError):
                    write(os.path.join(folder, path), [told()])
            self.assertEqual(os.listdir(folder), ["taken"])

    def test_http(self) -> None:
        """The text at /metrics, made anew each time; 404 elsewhere; the port is free again once it is closed."""
        numbers, asked = told(), [0]

        def refresh() -> None:
            asked[0] += 1
            numbers.holds(asked[0])

        server = serve([numbers], refresh=refresh)
        try:
            address = f"http://127.0.0.1:{server.port}"
            with urllib.request.urlopen(f"{address}/metrics", timeout=60) as answer:
                self.assertEqual(answer.headers["Content-Type"], CONTENT_TYPE)
                self.assertEqual(answer.read().decode(), WHOLE)
            with urllib.request.urlopen(f"{address}/metrics", timeout=60) as answer:
                self.assertIn('escrow_open_transactions{site="2"} 2\n', answer.read().decode())
            with self.assertRaises(urllib.error.HTTPError) as fault:
                urllib.request.urlopen(f"{address}/", timeout=60)
            self.assertEqual(fault.exception.code, 404)
            fault.exception.close()
        finally:
            server.close()
        with self.assertRaises(OSError):
            urllib.request.urlopen(f"{address}/metrics", timeout=60)


    def test_refresh_that_fails(self) -> None:
        """The numbers are told as they are where they can't be refreshed."""
        def down() -> None:
            raise ConnectionError

        server = serve([told()], refresh=down)
        try:
            with urllib.request.urlopen(f"http://127.0.0.1:{server.port}/metrics", timeout=60) as answer:
                self.assertEqual(answer.read().decode(), WHOLE)
        finally:
            server.close()

    def test_port_that_is_taken(self) -> None:
        """A second server of one port is a fault of the system."""
        server = serve([told()])
        try:
            with self.assertRaises(OSError):
                serve([told()], port=server.port)
        finally:
            server.close()


class Left(unittest.TestCase):
    """Who goes away before the answer, and a moment without descriptors."""

    def test_nothing_is_told_of_one_that_has_gone(self) -> None:
        heard, before = threading.Event(), PageServer.shutdown_request

        def ends(server: PageServer, request: object) -> None:
            before(server, request)  # type: ignore[arg-type]
            heard.set()

        with unittest.mock.patch.object(PageServer, "shutdown_request", ends), unittest.mock.patch("sys.stderr", io.StringIO()) as heard_of:
            server = serve([told()])
            try:
                with socket.create_connection(("127.0.0.1", server.port)) as peer:
                    peer.send(b"GET /metrics")  # no whole line
                    peer.setsockopt(socket.SOL_SOCKET, socket.SO_LINGER, struct.pack("ii", 1, 0))
                self.assertTrue(heard.wait(programs.LONG))
                self.assertEqual(heard_of.getvalue(), "")
                with unittest.mock.patch("escrow.metrics.text_of", side_effect=ValueError("of ours")):
                    heard.clear()
                    with socket.create_connection(("127.0.0.1", server.port)) as peer:
                        peer.send(b"GET /metrics HTTP/1.0\r\n\r\n")
                        self.assertEqual(peer.recv(1), b"")
                    self.assertTrue(heard.wait(programs.LONG))
                self.assertIn("ValueError: of ours", heard_of.getvalue())
            finally:
                server.close()

    def test_a_server_without_descriptors_rests(self) -> None:
        tried: list[float] = []

        def none_is_free(server: object) -> tuple[socket.socket, object]:
            tried.append(time.monotonic())
            raise OSError(errno.EMFILE, os.strerror(errno.EMFILE))

        server = serve([told()])
        try:
            with unittest.mock.patch("socketserver.TCPServer.get_request", none_is_free):
                with socket.create_connection(("127.0.0.1", server.port)) as peer:
                    programs.wait_until(lambda: len(tried) >= 3)
                self.assertGreater(tried[2] - tried[0], 0.9)
            with urllib.request.urlopen(f"http://127.0.0.1:{server.port}/metrics", timeout=60) as answer:
                self.assertEqual(answer.status, 200)
        finally:
            server.close()


class OverASite(unittest.TestCase):
    """What the client counts at a real site."""

    def test_a_site(self) -> None:
        """Three sales of one, one of too many, one of two in a transaction, a read, a forged statement, a kill, a clean end."""
        with tempfile.TemporaryDirectory() as at:
            folder, numbers = os.path.join(at, "shop"), Metrics(0)
            schema = escrow.Schema(2, (escrow.Field("stock", 0, 100, 40),))
            escrow.create(folder, schema, 0, programs.escrow_site(), name="metrics")
            longest = unittest.mock.patch("escrow.metrics.LONGEST", programs.LONG)
            with longest, escrow.Site(folder, programs.escrow_site(), metrics=numbers) as site:
                for _ in range(3):
                    site.change("stock", -1)
                with self.assertRaises(escrow.Short):
                    site.change("stock", -50)
                with site.transaction() as transaction:
                    transaction.lower("stock", 2)
                with self.assertRaises(escrow.Forged):
                    site.accept(escrow.Statement(1, 0, "stock", escrow.Kind.LOWER, 51))
                self.assertEqual(site.read("stock"), escrow.Interval(15, 65))
                before = read(text_of([numbers]))
                self.assertEqual(before["escrow_log_bytes"][(("site", "0"),)], os.path.getsize(os.path.join(folder, "log")))
                assert site.pid
                os.kill(site.pid, signal.SIGKILL)
                self.assertEqual(site.share("stock"), escrow.Share(15, 35))
                after = read(text_of([numbers]))
            ended = read(text_of([numbers]))
        self.check_before(before)
        alone = (("site", "0"),)
        self.assertEqual([after[f"escrow_{it}"][alone] for it in ("up", "starts_total", "epoch")], [1, 2, 2])
        self.assertEqual(after["escrow_stops_total"][alone + (("status", "-9"),)], 1)
        self.assertEqual(after["escrow_share_rights"], {(("field", "stock"), ("kind", "lower")) + alone: 15,
                                                        (("field", "stock"), ("kind", "raise")) + alone: 35})
        self.assertEqual((ended["escrow_up"][alone], ended["escrow_stops_total"][alone + (("status", "0"),)]), (0, 1))

    def check_before(self, samples: dict[str, dict[tuple[tuple[str, str], ...], float]]) -> None:
        """What was counted up to the kill. Of 20 rights to lower five are sold, and to raise there are five more."""
        alone = (("site", "0"),)
        asked = samples["escrow_answers_total"]
        answers = {"change": 4, "escrow": 1, "commit": 1, "accept": 1, "read": 1}
        told = {key: count for key, count in asked.items() if key != (("command", "share"),) + alone}
        self.assertEqual(told, {(("command", it),) + alone: count for it, count in answers.items()})
        refused = {key: count for key, count in samples["escrow_refusals_total"].items() if count}
        self.assertEqual(refused, {(("command", "change"), ("number", "7"), ("reason", "short")) + alone: 1,
                                   (("command", "accept"), ("number", "11"), ("reason", "forged")) + alone: 1})
        self.assertEqual(samples["escrow_share_rights"], {(("field", "stock"), ("kind", "lower")) + alone: 15,
                                                          (("field", "stock"), ("kind", "raise")) + alone: 35})
        self.assertEqual(samples["escrow_answer_seconds_count"], {alone: sum(asked.values())})
        state = [samples[f"escrow_{it}"][alone] for it in ("up", "epoch", "open_transactions")]
        self.assertEqual(state, [1, 1, 0])
        self.assertEqual(sum(samples["escrow_stops_total"].values()), 0)


SITE = (("site", "0"),)
SHARES: dict[tuple[tuple[str, str], ...], float] = {
    (("field", field), ("kind", kind)) + SITE: rights for field, kind, rights in
    (("stock", "lower", 20), ("stock", "raise", 30), ("seats", "lower", 6), ("seats", "raise", 0))}


def looks(seconds: float = 0.0) -> contextlib.AbstractContextManager[object]:
    """So many seconds pass between two looks meanwhile."""
    return unittest.mock.patch("escrow.metrics.LOOK", seconds)


class Looked(programs.SiteTest):
    """What is looked at for each text: the length of the log, and what is left."""

    def setUp(self) -> None:
        super().setUp()
        self.numbers = Metrics(0)

    def told(self, name: str) -> dict[tuple[tuple[str, str], ...], float]:
        """The samples of a family in a new text."""
        return read(text_of([self.numbers])).get(f"escrow_{name}", {})

    def count(self, command: str) -> float:
        """How many answers to this command were counted, without a look."""
        found = next(it for it in self.numbers._families() if it.name == "escrow_answers_total")
        return sum(it.value for it in found.samples if it.labels == (("command", command),))

    def sold(self, stock: int) -> dict[tuple[tuple[str, str], ...], float]:
        """What is left once so much stock is sold."""
        return {**SHARES, (("field", "stock"), ("kind", "lower")) + SITE: 20 - stock,
                (("field", "stock"), ("kind", "raise")) + SITE: 30 + stock}

    def test_length_moves_while_the_site_runs(self) -> None:
        site = self.site(metrics=self.numbers)
        log = os.path.join(site.folder, "log")

        def told() -> int:
            """The file's own size."""
            size = os.path.getsize(log)
            self.assertEqual(self.told("log_bytes")[SITE], size)
            return size

        sizes = [told()]
        for _ in range(3):
            site.change("stock", -1)
            sizes.append(told())
        programs.kill(site)
        programs.wait_until(lambda: site.up and site.epoch == 2)
        sizes.append(told())
        self.assertTrue(all(more > less for less, more in zip(sizes, sizes[1:])), sizes)
        site.close()
        with open(log, "a", encoding="ascii") as file:
            file.write("R 3\n")
        self.assertEqual(told(), sizes[-1] + 4)
        os.unlink(log)
        self.assertEqual(self.told("log_bytes")[SITE], sizes[-1] + 4)

    def test_what_is_left_without_anybody_who_asks(self) -> None:
        """All fields are there in the first text; later texts ask where something moved."""
        with looks(), unittest.mock.patch("escrow.metrics.LONGEST", programs.LONG):
            site = self.site(metrics=self.numbers)
            self.assertEqual(self.told("share_rights"), SHARES)
            site.change("stock", -3)
            self.assertEqual(self.told("share_rights"), self.sold(3))
            t = site.transaction()
            t.lower("stock", 2)
            held = {(("field", "stock"), ("kind", "lower")) + SITE: 15}
            self.assertEqual(self.told("share_rights"), {**self.sold(3), **held})
            t.abort()
            self.assertEqual(self.told("share_rights"), self.sold(3))
            programs.wait_until(lambda: self.count("share") == 8)  # two fields, four times
            site.read("stock")
            for _ in range(3):
                self.assertEqual(self.told("share_rights"), self.sold(3))
            site.read("stock")
            self.assertEqual(self.count("share"), 8)

    def test_it_is_asked_at_most_every_five_seconds(self) -> None:
        self.assertEqual(LOOK, 5.0)
        with looks(600.0), unittest.mock.patch("escrow.metrics.LONGEST", programs.LONG):  # a busy machine may take longer than 5
            site = self.site(metrics=self.numbers)
            self.assertEqual(self.told("share_rights"), SHARES)
            site.change("stock", -3)
            self.assertEqual(self.told("share_rights"), SHARES)
            self.numbers._due -= 600.0
            self.assertEqual(self.told("share_rights"), self.sold(3))

    def test_a_site_that_stands_still_is_not_waited_for(self) -> None:
        """A text takes half a second for it at most, here five, and no more questions are asked of it than one of each field."""
        self.assertEqual(LONGEST, 0.5)
        with looks(), unittest.mock.patch("escrow.metrics.LONGEST", 5.0):
            site = self.site(metrics=self.numbers)
            site.change("stock", -3)
            self.assertEqual(self.told("share_rights"), self.sold(3))
            site.change("stock", -1)
            pid = programs.pid_of(site)
            programs.stand_still(pid)
            took = []
            for _ in range(3):
                began = time.monotonic()
                self.assertEqual((self.told("share_rights"), site.unanswered), (self.sold(3), 2))
                took.append(time.monotonic() - began)
            self.assertLess(took[0], 9.5)
            self.assertLess(took[1] + took[2], 4.5)  # it was waited for once
            os.kill(pid, signal.SIGCONT)
            programs.wait_until(lambda: site.unanswered == 0)
            self.assertEqual(self.told("share_rights"), self.sold(4))

    def test_a_site_that_is_down_is_not_asked(self) -> None:
        """It is told as it was last; what was left unanswered counts as no call that was missed."""
        with looks(), unittest.mock.patch("escrow.metrics.LONGEST", 5.0):
            gate = self.gated(metrics=self.numbers, patience=0.2)
            site = gate.site
            self.assertEqual(self.told("share_rights"), SHARES)
            site.change("stock", -3)
            gate.stop()
            began = time.monotonic()
            for _ in range(3):
                self.assertEqual((self.told("share_rights"), site.unanswered), (SHARES, 0))
            self.assertLess(time.monotonic() - began, 4.5)
            gate.open()
            programs.wait_until(lambda: site.up)
            self.assertEqual(self.told("share_rights"), self.sold(3))
            pid = programs.pid_of(site)
            programs.stand_still(pid)
            self.numbers.answered("change", 0.1)  # so that it looks: that alone is under way as the process is killed
            self.assertEqual(self.told("share_rights"), self.sold(3))
            self.assertEqual(site.unanswered, 2)
            gate.stop()
            programs.wait_until(lambda: site.unanswered == 0)
            gate.open()
            programs.wait_until(lambda: site.up and site.epoch == 3)
            self.assertEqual((self.told("share_rights"), site.unanswered), (self.sold(3), 0))
            self.assertEqual(set(self.told("missed_total").values()), {0})
            site.close()
            self.assertEqual(self.told("share_rights"), self.sold(3))

    def test_a_task_gathers_while_others_sell(self) -> None:
        """The loop reads its own answers then: it lends the reading back, and nothing hangs."""
        with looks():
            site, over = self.site(programs.LARGE, metrics=self.numbers, sync=False), threading.Event()

            async def sells(shop: escrow.AsyncSite) -> None:
                while not over.is_set():
                    await shop.change("stock", -1)

            async def calls() -> None:
                shop, end, count = escrow.AsyncSite(site), time.monotonic() + 1.0, 0
                asked = [asyncio.create_task(sells(shop)) for _ in range(16)]
                while time.monotonic() < end or count <= 5:
                    await asyncio.sleep(0.02)
                    self.assertEqual(len(self.told("share_rights")), 4)
                    count += 1
                over.set()
                await asyncio.gather(*asked)

            asyncio.run(calls())
            left = site.share("stock").lower
            site.close()
            self.assertEqual(left, 500_000 - len(programs.commits(site.folder, programs.LARGE)))


if __name__ == "__main__":
    unittest.main()
