"""Tests of `escrow_board` over the real `escrow_site`, and of its page in a real browser where there is one.

Each expected number was worked out by hand from the header and the commands that are given here.
"""
from __future__ import annotations

import http.client
import json
import os
import shutil
import socket
import subprocess
import sys
import tempfile
import threading
import unittest
from html.parser import HTMLParser
from typing import Any
from unittest import mock

from programs import PACKAGES, escrow_site

from escrow.program import show
from escrow_board import board as board_module
from escrow_board.board import Board
from escrow_board.locks import State, state_of
from escrow_board.refusals import tail_of
from escrow_board.server import PAGE, BoardServer

PROGRAM = escrow_site()
FORGETFUL = os.path.join(os.path.dirname(os.path.abspath(__file__)), "forgetful_site.py")
"""It stands in for the program of the next release, whose log lets go of its front."""
BROWSER = next((it for it in map(shutil.which, ("chromium", "chromium-browser", "google-chrome")) if it), None)

HEADER = ('{"sites":3,"fields":[{"name":"stock","floor":0,"ceiling":100,"value":40},'
          '{"name":"seats","floor":-3,"ceiling":90,"value":90},'
          '{"name":"credit","floor":-1000000,"ceiling":1000000000,"value":2500}]}')

# Of stock sites 0, 1, 2 begin with 14, 13, 13 rights to lower and 20, 20, 20 to raise; of seats with 31, 31, 31 and none; of
# credit with 334167, 334167, 334166, which are 1,002,500 together, and 333332500 each, which are 999,997,500.
LINES = (
    ("0 begin", "0 escrow 1.1 stock -7", "0 escrow 1.1 seats -2", "0 commit 1.1", "0 give 1 stock lower 5",
     "0 begin", "0 escrow 1.2 stock -30", "0 escrow 1.2 seats 4", "0 give 2 seats lower 6"),
    ("1 accept 0 1 stock lower 3", "1 spare 2 stock raise 4", "1 begin", "1 escrow 1.1 seats -100",
     "1 escrow 1.1 credit -400", "1 commit 1.1"),
    ("2 tighten credit raise 1000", "2 begin", "2 commit 9.9", "2 escrow 1.1 credit 90", "2 commit 1.1"),
)


def serve(folder: str, *lines: str, trace: bool = True) -> list[str]:
    """What the site answers to these lines, behind the two of its start; it has stopped then."""
    options = ["--trace"] if trace else []
    done = subprocess.run([PROGRAM, "serve", folder, *options], input="".join(f"{line}\n" for line in lines), text=True,
                          stdout=subprocess.PIPE, check=True, timeout=120)
    return done.stdout.split("\n")[2:-1]


def create(at: str, header: str = HEADER, sites: int = 3) -> list[str]:
    """Folders of all sites of a new world below the folder `at`."""
    schema = os.path.join(at, "world.json")
    with open(schema, "w", encoding="ascii") as file:
        file.write(header + "\n")
    folders = [os.path.join(at, f"shop{number}") for number in range(sites)]
    for number, folder in enumerate(folders):
        words = [PROGRAM, "create", folder, "--schema", schema, "--site", str(number), "--name", "board"]
        subprocess.run(words, check=True, timeout=120)
    return folders


class Text(HTMLParser):
    """The text of each section of a page: by its field, or by its class."""

    def __init__(self, page: str) -> None:
        super().__init__()
        self.sections: dict[str, str] = {"": ""}
        self._now, self._skip = [""], False
        self.classes: dict[str, str] = {}
        self.feed(page)

    def handle_starttag(self, tag: str, attrs: list[tuple[str, str | None]]) -> None:
        """A section begins, or what is no text."""
        told = dict(attrs)
        self.classes[tag] = told.get("class") or ""
        self._skip = tag in ("script", "style", "noscript")
        if tag == "section":
            self._now.append(told.get("data-field") or told.get("class") or "")
            self.sections.setdefault(self._now[-1], "")
        elif tag in ("td", "th", "li", "p", "h2", "h3"):
            self.sections[self._now[-1]] += "|"

    def handle_endtag(self, tag: str) -> None:
        """A section ends."""
        self._skip = False
        if tag == "section":
            self._now.pop()

    def handle_data(self, data: str) -> None:
        """Text is added to its section."""
        if not self._skip:
            self.sections[self._now[-1]] += data


@unittest.skipUnless(BROWSER, "no browser: chromium isn't there")
class InBrowser(unittest.TestCase):
    """The page, opened in headless Chromium."""

    def setUp(self) -> None:
        self.at = tempfile.mkdtemp()
        self.addCleanup(shutil.rmtree, self.at, ignore_errors=True)

    def open(self, board: Any, milliseconds: int = 3000) -> Text:
        """What the page of this board is after so long by the browser's own clock."""
        server = BoardServer(("127.0.0.1", 0), board)
        thread = threading.Thread(target=server.serve_forever)
        thread.start()
        try:
            done = subprocess.run(
                [str(BROWSER), "--headless", "--no-sandbox", "--disable-gpu", "--disable-dev-shm-usage", "--no-first-run",
                 f"--user-data-dir={self.at}/browser", f"--virtual-time-budget={milliseconds}", "--dump-dom", server.url],
                stdout=subprocess.PIPE, stderr=subprocess.DEVNULL, text=True, timeout=300, check=True)
        finally:
            server.shutdown()
            thread.join()
            server.server_close()
        return Text(done.stdout)

    def whole(self, text: str, *parts: str) -> None:
        """Each part stands in the text, one behind the other."""
        at = 0
        for part in parts:
            found = text.find(part, at)
            self.assertGreaterEqual(found, 0, f"{part} isn't behind {text[:at]} in {text}")
            at = found + len(part)

    def test_a_log_that_was_shortened(self) -> None:
        """How much of it was let go of stands behind its length."""
        folders = create(self.at, '{"sites":1,"fields":[{"name":"stock","floor":0,"ceiling":100,"value":40}]}', 1)
        self.whole(self.open(Board(FORGETFUL, folders)).sections["folders"], "|5,000 bytes, 1,000 of them let go|")
        self.whole(self.open(Board(PROGRAM, folders)).sections["folders"], "|0 bytes|")

    def test_three_sites(self) -> None:
        """Each field, bound, interval, share, right on its way and refusal of three sites stands on the page."""
        folders = create(self.at)
        for folder, lines in zip(folders, LINES):
            self.assertEqual(len(serve(folder, *lines)), len(lines))
        sections = self.open(Board(PROGRAM, folders)).sections
        self.whole(sections["stock"], "|stock", "33 of 0 to 100", "floor 0", "ceiling 100", "value 33",
                   "|0|2 to 73|2|27", "|1|16 to 84|16|16", "|2|13 to 80|13|20",
                   "|site 0 \u2192 site 1: 2 to lower", "|site 1 \u2192 site 2: 4 to raise",
                   "|\u2715 site 0 escrow 1.2 stock -30 \u2192 refused 7 short 2")
        self.whole(sections["seats"], "|seats", "88 of -3 to 90", "floor -3", "ceiling 90", "value 88",
                   "|0|20 to 88|23|2", "|1|28 to 90|31|0", "|2|28 to 90|31|0", "|site 0 \u2192 site 2: 6 to lower",
                   "|\u2715 site 0 escrow 1.2 seats 4 \u2192 refused 7 short 2",
                   "|\u2715 site 1 escrow 1.1 seats -100 \u2192 refused 7 short 31")
        self.whole(sections["credit"], "|credit", "2,190 of -1,000,000 to 999,999,000", "|gave up for good",
                   "|0|-665,833 to 666,667,500|334,167|333,332,500|0 to lower, 0 to raise",
                   "|1|-666,233 to 666,667,100|333,767|333,332,900|0 to lower, 0 to raise",
                   "|2|-665,744 to 666,667,590|334,256|333,331,410|0 to lower, 1,000 to raise",
                   "|Nothing.", "|None that a trace tells.")
        self.whole(sections["folders"], f"|0|{folders[0]}|\u25cb not served here|1|40 bytes|2 of the last 10",
                   f"|1|{folders[1]}|\u25cb not served here|1|37 bytes|1 of the last 7",
                   f"|2|{folders[2]}|\u25cb not served here|1|26 bytes|1 of the last 6",
                   "|\u2715 site 2 commit 9.9 \u2192 refused 4 no transaction")
        self.assertEqual({"", "alarm", "stock", "seats", "credit", "folders"}, set(sections))
        self.assertEqual(sections["alarm"], "|The board doesn't answer: what stands here is old.")

    def test_sites_at_work(self) -> None:
        """A site that is served is told so, and what it answered is on the page while it goes on; a site that isn't among the
        folders is named, and the value told as between two bounds."""
        folders = create(self.at)
        with subprocess.Popen([PROGRAM, "serve", folders[1]], stdin=subprocess.PIPE, stdout=subprocess.PIPE, text=True) as site:
            assert site.stdin and site.stdout
            site.stdin.write("1 begin\n1 escrow 1.1 stock 5\n1 commit 1.1\n1 give 0 stock raise 1\n")
            site.stdin.flush()
            answers = [site.stdout.readline() for _ in range(6)]
            sections = self.open(Board(PROGRAM, folders[1:])).sections
            site.communicate(timeout=120)
        self.assertEqual(answers[5], "1 give 0 stock raise 1 -> given 1\n")
        self.whole(sections["stock"], "18 to 80 of 0 to 100", "|1|18 to 86|18|14", "|2|13 to 80|13|20", "|Nothing.")
        self.whole(sections["folders"], f"|1|{folders[1]}|\u25cf served|1|", "|no trace",
                   f"|2|{folders[2]}|\u25cb not served here|0|0 bytes")
        self.assertIn("|Not shown: site 0.", sections["alarm"])

    def test_names_are_text(self) -> None:
        """What looks like HTML in a folder's path or a trace is shown as it is, and isn't run."""
        folders = create(self.at)
        wild = os.path.join(self.at, "<img src=x onerror=document.title=1>")
        os.rename(folders[0], wild)
        sections = self.open(Board(PROGRAM, [wild])).sections
        self.assertIn(wild, sections["folders"])

    def test_page_renews_itself(self) -> None:
        """Each look is shown in its turn, many sites are folded, and a board that doesn't answer any more is told on the page."""
        class Counting:
            """Tells how often it was asked as the value, and answers four times."""

            asked = 0

            def told(self) -> dict[str, Any]:
                """One more."""
                self.asked += 1
                if self.asked > 4:
                    raise ConnectionAbortedError
                none = {"lower": 0, "raise": 0}
                sites = [{"site": it, "low": 0, "high": 9, "share": {"lower": 1, "raise": 0}, "tightened": none} for it in range(9)]
                field = {"name": "asked", "floor": 0, "ceiling": 9, "value": self.asked, "low": 0, "high": 9, "sites": sites,
                         "flights": [{"from": 1, "to": 0, "kind": "raise", "rights": 2, "minutes": 1500}], "refusals": []}
                return {"at": "2026-01-01T10:20:30+00:00", "every": 0.5, "world": "f00d", "sites": 0, "missing": [],
                        "alarms": ["look!"], "fields": [field], "folders": []}

        with mock.patch("socketserver.BaseServer.handle_error"):
            page = self.open(Counting(), 30000)
        self.whole(page.sections["asked"], "|asked", "4 of 0 to 9", "Sites: 9", "|8|0 to 9|1|0",
                   "|site 1 \u2192 site 0: 2 to raise, and none accepted for 1,500 min")
        self.assertIn("|look!", page.sections["alarm"])
        self.assertIn("Seen at 10:20:30 UTC", page.sections[""])
        self.assertEqual(page.classes["body"], "stale")


class OverFolders(unittest.TestCase):
    """What the board tells of folders, as JSON."""

    def setUp(self) -> None:
        self.at = tempfile.mkdtemp()
        self.addCleanup(shutil.rmtree, self.at, ignore_errors=True)
        self.folders = create(self.at)

    def told(self, *folders: str) -> dict[str, Any]:
        """One look at these folders."""
        return Board(PROGRAM, folders, every=0, rest=0).told()

    def test_new_world(self) -> None:
        """A world of which nothing was served: its header's values, and no alarm."""
        told = self.told(*self.folders)
        self.assertEqual([(it["name"], it["floor"], it["value"], it["ceiling"]) for it in told["fields"]],
                         [("stock", 0, 40, 100), ("seats", -3, 90, 90), ("credit", -1000000, 2500, 1000000000)])
        self.assertEqual((told["alarms"], told["missing"], told["sites"]), ([], [], 3))
        self.assertEqual([(it["low"], it["high"]) for it in told["fields"]], [(14, 80), (28, 90), (-665833, 666667500)])
        self.assertEqual([it["answers"] for it in told["folders"]], [None] * 3)

    def test_value_is_that_of_check(self) -> None:
        """Values and bounds are those that `escrow_site check` tells of the same folders."""
        for folder, lines in zip(self.folders, LINES):
            serve(folder, *lines)
        serve(self.folders[1], "1 tighten stock lower 3", "1 tighten stock raise 2", "1 tighten seats lower 1")
        done = subprocess.run([PROGRAM, "check", *self.folders], stdout=subprocess.PIPE, text=True, check=True, timeout=120)
        fields = self.told(*self.folders)["fields"]
        self.assertEqual(done.stdout.split("\n")[2:-1], [
            f'field {it["name"]} value {it["value"]} floor {it["floor"]} ceiling {it["ceiling"]}' for it in fields])
        self.assertEqual([(it["floor"], it["value"], it["ceiling"]) for it in fields],
                         [(3, 33, 98), (-2, 88, 90), (-1000000, 2190, 999999000)])

    def test_gift_that_is_accepted_is_not_on_its_way(self) -> None:
        """A gift is on its way until it is accepted, and only what wasn't accepted of it."""
        serve(self.folders[0], "0 give 1 stock lower 5")
        board = Board(PROGRAM, self.folders, every=0, rest=0)
        self.assertEqual(board.told()["fields"][0]["flights"], [{"from": 0, "to": 1, "kind": "lower", "rights": 5, "minutes": 0}])
        serve(self.folders[1], "1 accept 0 1 stock lower 5")
        self.assertEqual(board.told()["fields"][0]["flights"], [])
        serve(self.folders[0], "0 give 1 stock lower 2")
        told = board.told()
        self.assertEqual(told["fields"][0]["flights"], [{"from": 0, "to": 1, "kind": "lower", "rights": 2, "minutes": 0}])
        self.assertEqual((told["alarms"], told["fields"][0]["value"]), ([], 40))

    def test_gift_that_stands_still(self) -> None:
        """For how many minutes nothing more was accepted is told, and begins anew with each acceptance."""
        serve(self.folders[0], "0 give 1 stock lower 5", "0 give 2 stock raise 1")
        now = [100.0]
        board = Board(PROGRAM, self.folders, every=0, rest=0, clock=lambda: now[0])

        def minutes() -> list[tuple[int, int, int]]:
            return [(it["to"], it["rights"], it["minutes"]) for it in board.told()["fields"][0]["flights"]]

        self.assertEqual(minutes(), [(1, 5, 0), (2, 1, 0)])
        now[0] = 281.0
        self.assertEqual(minutes(), [(1, 5, 3), (2, 1, 3)])
        serve(self.folders[1], "1 accept 0 1 stock lower 3", trace=False)
        self.assertEqual(minutes(), [(1, 2, 0), (2, 1, 3)])
        now[0] = 341.0
        serve(self.folders[0], "0 give 1 stock lower 4")
        self.assertEqual(minutes(), [(1, 6, 1), (2, 1, 4)])

    def test_old_copy_is_an_alarm(self) -> None:
        """A log that is older than what another site accepted of it is told, from the second look on."""
        shutil.copytree(self.folders[0], self.at + "/copy")
        serve(self.folders[0], "0 give 1 stock lower 5")
        serve(self.folders[1], "1 accept 0 1 stock lower 5")
        board = Board(PROGRAM, [self.at + "/copy", *self.folders[1:]], every=0, rest=0)
        board.told()
        alarm, = board.told()["alarms"]
        self.assertIn("site 1 accepted 5 lower on stock from site 0, which gave 0", alarm)
        self.assertEqual([it["value"] for it in board.told()["fields"]], [None, 90, 2500])

    def test_a_giver_that_was_read_first_is_no_alarm(self) -> None:
        """Where a gift is made and accepted between two readings of one look, the giver is read anew, so that both are shown."""
        asked: list[str] = []

        def slow(folder: str, program: str) -> Any:
            if folder == self.folders[1] and folder not in asked:
                serve(self.folders[0], "0 begin", "0 escrow 1.1 stock -1", "0 commit 1.1", "0 give 1 stock lower 5", trace=False)
                serve(self.folders[1], "1 accept 0 1 stock lower 5", trace=False)
            asked.append(folder)
            return show(folder, program)

        board = Board(PROGRAM, self.folders, every=0, rest=0)
        with mock.patch.object(board_module, "show", slow):
            first = board.told()
            self.assertEqual(asked, [*self.folders, self.folders[0]])
            second = board.told()
        for told in (first, second):
            self.assertEqual((told["fields"][0]["value"], told["fields"][0]["flights"], told["alarms"]), (39, [], []))
            self.assertEqual([it["share"]["lower"] for it in told["fields"][0]["sites"]], [8, 18, 13])

    def test_faults_are_told(self) -> None:
        """A folder that isn't there, one of another world, one of a site that is there, and a log that is damaged."""
        os.mkdir(self.at + "/other")
        other = create(self.at + "/other", '{"sites":1,"fields":[{"name":"stock","floor":0,"ceiling":9,"value":4}]}', 1)
        shutil.copytree(self.folders[0], self.at + "/copy")
        with open(self.folders[2] + "/log", "a", encoding="ascii") as file:
            file.write("nonsense\n")
        shown = subprocess.run([PROGRAM, "show", self.folders[2]], capture_output=True, text=True, check=False, timeout=120)
        self.assertEqual(shown.returncode, 3)
        self.assertIn(f"{self.folders[2]}/log: ", shown.stderr)
        told = self.told(self.folders[0], self.at + "/none", *other, self.at + "/copy", self.folders[2])
        self.assertEqual(told["alarms"], [
            f"{self.at}/none/site: isn't there: look whether its disk is: a site's folder is made by create, once",
            f"{other[0]}: is of another world: it isn't counted",
            f"{self.at}/copy: is of site 0, as a folder before it: two of one site sell twice",
            shown.stderr.strip()])
        self.assertEqual((told["missing"], told["fields"][0]["value"], told["fields"][0]["low"]), ([1, 2], None, 14))

    def test_what_comes_back_is_shown(self) -> None:
        """A folder that wasn't there and is there later is shown then; and one that goes away isn't shown as it was."""
        os.rename(self.folders[0], self.at + "/away")
        board = Board(PROGRAM, self.folders, every=0, rest=0)
        self.assertEqual(board.told()["missing"], [0])
        os.rename(self.at + "/away", self.folders[0])
        self.assertEqual((board.told()["missing"], board.told()["alarms"]), ([], []))
        os.rename(self.folders[0], self.at + "/away")
        told = board.told()
        self.assertEqual((told["missing"], len(told["alarms"])), ([0], 1))
        self.assertEqual([(it["site"], it["epoch"]) for it in told["folders"]], [(0, None), (1, 0), (2, 0)])

    def test_another_world_at_the_path(self) -> None:
        """A folder that was put in the place of another is shown as what it is."""
        board = Board(PROGRAM, self.folders[:1], every=0, rest=0)
        self.assertEqual(board.told()["sites"], 3)
        shutil.rmtree(self.folders[0])
        create(self.at, '{"sites":1,"fields":[{"name":"beds","floor":0,"ceiling":9,"value":4}]}', 1)
        told = board.told()
        self.assertEqual((told["sites"], told["alarms"], [it["name"] for it in told["fields"]]), (1, [], ["beds"]))

    def test_logs_are_read_once(self) -> None:
        """A log that didn't change isn't read again, and between two looks nothing is: by their time, or by what one took."""
        asked: list[str] = []

        def counted(folder: str, program: str) -> Any:
            asked.append(folder)
            return show(folder, program)

        with mock.patch.object(board_module, "show", counted):
            board = Board(PROGRAM, self.folders, every=0, rest=0)
            board.told()
            board.told()
            self.assertEqual(asked, self.folders)
            serve(self.folders[1], "1 read stock", trace=False)
            board.told()
            self.assertEqual(asked, [*self.folders, self.folders[1]])
            for patient in (Board(PROGRAM, self.folders, every=60), Board(PROGRAM, self.folders, every=0, rest=100_000)):
                self.assertIs(patient.told(), patient.told())

    def test_program_that_fails(self) -> None:
        """A program that isn't there or tells something else is a fault of each folder, and no page is lost over it."""
        self.assertEqual(Board("/none", self.folders[:1], every=0, rest=0).told()["alarms"], ["/none: No such file or directory"])
        told = Board("/bin/echo", self.folders[:1], every=0, rest=0).told()
        self.assertEqual(told["alarms"], [f"{self.folders[0]}: /bin/echo shows what isn't known: is it of another version?"])
        told = Board("/bin/false", self.folders[:1], every=0, rest=0).told()
        self.assertEqual((len(told["alarms"]), told["missing"], told["fields"][0]["value"]), (1, [0, 1, 2], None))

    def test_served_or_not(self) -> None:
        """The lock tells that a site is served; looking takes no lock, so a site can be started meanwhile."""
        self.assertIs(state_of(self.folders[0]), State.STOPPED)
        self.assertIs(state_of(self.at + "/none"), State.UNKNOWN)
        stop = threading.Event()
        looking = threading.Thread(target=lambda: [state_of(self.folders[0]) for _ in iter(stop.is_set, True)])
        looking.start()
        try:
            for _ in range(20):
                serve(self.folders[0], trace=False)
        finally:
            stop.set()
            looking.join()
        with subprocess.Popen([PROGRAM, "serve", self.folders[0]], stdin=subprocess.PIPE, stdout=subprocess.PIPE) as site:
            assert site.stdin and site.stdout
            site.stdout.readline()
            self.assertIs(state_of(self.folders[0]), State.SERVED)
            site.communicate(timeout=120)
        self.assertIs(state_of(self.folders[0]), State.STOPPED)


class Parts(unittest.TestCase):
    """Parts that need no program."""

    def setUp(self) -> None:
        self.at = tempfile.mkdtemp()
        self.addCleanup(shutil.rmtree, self.at, ignore_errors=True)

    def trace(self, text: str) -> None:
        """Writes a trace with its three lines of name."""
        with open(os.path.join(self.at, "trace"), "w", encoding="ascii") as file:
            file.write("escrow trace 1\nnumber 0\nworld 00\n" + text)

    def test_tail(self) -> None:
        """Refusals by field, newest first, so many of each; a torn line and a bad line are no answers, and that nothing was given
        is no refusal to be seen."""
        self.trace("0 escrow 1.1 a -3 -> refused 7 short 1\n0 escrow 1.1 a -2 -> refused 7 short 1\n0 read a -> between 1 2\n"
                   "bad line 4 no command\nkept 1.1 -> no\n0 restate 1 a lower -> refused 15 nothing given\n"
                   "0 accept 1 0 lower raise 7 -> refused 11 forged 3\n"
                   "0 begin -> refused 12 too many open\n0 escrow 1.1 a -1 -> refused 7 short 0\n0 read a -> refu")
        tail = tail_of(self.at, 2)
        assert tail
        self.assertEqual((tail.answers, tail.refused), (8, 5))
        self.assertEqual([(it.field, it.asked, it.why) for it in tail.last], [
            ("a", "escrow 1.1 a -1", "7 short 0"), (None, "begin", "12 too many open"),
            ("lower", "accept 1 0 lower raise 7", "11 forged 3"), ("a", "escrow 1.1 a -2", "7 short 1")])

    def test_only_the_end_is_read(self) -> None:
        """Of a long trace the last 65,536 bytes are read, without the line that they cut."""
        line = "0 escrow 1.1 a -3 -> refused 7 short 1\n"
        self.trace(line * 10_000)
        tail = tail_of(self.at, 1)
        assert tail
        self.assertEqual((tail.answers, tail.refused), (65_536 // len(line), 65_536 // len(line)))
        os.unlink(self.at + "/trace")
        self.assertIsNone(tail_of(self.at, 1))

    def test_empty_trace(self) -> None:
        """A trace of its name alone, and one that is cut within it."""
        self.trace("")
        tail = tail_of(self.at, 1)
        assert tail
        self.assertEqual((tail.answers, tail.last), (0, ()))
        with open(self.at + "/trace", "w", encoding="ascii") as file:
            file.write("escrow tr")
        tail = tail_of(self.at, 1)
        assert tail
        self.assertEqual(tail.answers, 0)

    def test_page_stands_alone(self) -> None:
        """The page asks nothing of any other place."""
        with open(PAGE, encoding="utf-8") as file:
            self.assertNotIn("//", file.read().replace("</", ""))


class OverHttp(unittest.TestCase):
    """The server and the command line."""

    def setUp(self) -> None:
        self.at = tempfile.mkdtemp()
        self.addCleanup(shutil.rmtree, self.at, ignore_errors=True)
        self.folders = create(self.at)

    def asked(self, port: int, method: str, path: str, host: str | None = None) -> tuple[int, bytes]:
        """The status and the body of an answer."""
        line = http.client.HTTPConnection("127.0.0.1", port, timeout=120)
        try:
            line.request(method, path, headers={"Host": host or f"127.0.0.1:{port}"})
            answer = line.getresponse()
            return answer.status, answer.read()
        finally:
            line.close()

    def run_board(self, *arguments: str, stdout: int = subprocess.PIPE) -> subprocess.Popen[str]:
        """The program of the board."""
        return subprocess.Popen([sys.executable, "-m", "escrow_board", *arguments], cwd=PACKAGES, text=True,
                                stdout=stdout, stderr=subprocess.PIPE)

    def test_command_line(self) -> None:
        """It tells where the page is, answers the page and its JSON and nothing else, and not to pages of other names."""
        with self.run_board(*self.folders, "--program", PROGRAM, "--port", "0", "--every", "0.1") as board:
            assert board.stdout and board.stderr
            try:
                port = int(board.stdout.readline().removeprefix("escrow_board: http://127.0.0.1:").rstrip("/\n"))
                with open(PAGE, "rb") as file:
                    self.assertEqual(self.asked(port, "GET", "/"), (200, file.read()))
                status, body = self.asked(port, "GET", "/world.json", "localhost:80")
                self.assertEqual((status, json.loads(body)["fields"][0]["value"]), (200, 40))
                self.assertEqual(self.asked(port, "GET", "/../board.py")[0], 404)
                self.assertEqual(self.asked(port, "POST", "/")[0], 501)
                self.assertEqual(self.asked(port, "GET", "/world.json", "shop.example:80")[0], 403)
                with self.run_board(*self.folders, "--program", PROGRAM, "--port", str(port)) as second:
                    self.assertIn("in use", second.communicate(timeout=120)[1])
                self.assertEqual(second.returncode, 1)
            finally:
                board.terminate()

    def test_once(self) -> None:
        """The same as JSON, and status 0; status 3 where an old copy is in the place of a log, or a site isn't shown."""
        shutil.copytree(self.folders[0], self.at + "/copy")
        serve(self.folders[0], "0 give 1 stock lower 5")
        serve(self.folders[1], "1 accept 0 1 stock lower 4")
        copied = [self.at + "/copy", *self.folders[1:]]
        runs = [self.run_board(*folders, "--once") for folders in (self.folders, copied, self.folders[1:])]
        whole, old, less = (json.loads(run.communicate(timeout=120)[0]) for run in runs)
        self.assertEqual([run.returncode for run in runs], [0, 3, 3])
        self.assertEqual([(it["from"], it["to"], it["rights"]) for it in whole["fields"][0]["flights"]], [(0, 1, 1)])
        self.assertEqual([len(told["alarms"]) for told in (whole, old, less)], [0, 1, 0])
        self.assertEqual([told["missing"] for told in (whole, old, less)], [[], [], [0]])

    def test_once_without_a_reader(self) -> None:
        """Where nobody reads any more, as behind `head`, it ends without a word, by its statuses; a full disk is told."""
        for folders, status in ((self.folders, 0), (self.folders[1:], 3)):
            read, write = os.pipe()
            os.close(read)
            with self.run_board(*folders, "--once", stdout=write) as board:
                os.close(write)
                self.assertEqual((board.communicate(timeout=120)[1], board.returncode), ("", status))
        with open("/dev/full", "wb") as full, self.run_board(*self.folders, "--once", stdout=full.fileno()) as board:
            told = "escrow_board: standard output: No space left on device\n"
            self.assertEqual((board.communicate(timeout=120)[1], board.returncode), (told, 1))

    def test_faults_of_the_command_line(self) -> None:
        """No folder, no such program, and a time or a port that is none, end with status 2."""
        words: list[list[str]] = [[], ["shop0", "--program", "/none"], ["shop0", "--program", PROGRAM, "--every", "0"],
                                  ["shop0", "--program", PROGRAM, "--port", "65536"]]
        for board in [self.run_board(*arguments) for arguments in words]:
            self.assertIn("escrow_board: error: ", board.communicate(timeout=120)[1])
            self.assertEqual(board.returncode, 2)


if __name__ == "__main__":
    unittest.main()
