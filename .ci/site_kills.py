"""Sites that are killed at random moments while lines come, and started again, some of them with a log that is shortened
meanwhile: what was answered is there, beside all records of the site, which the test remembers (site_whole.py)."""
from __future__ import annotations

import dataclasses
import os
import random
import subprocess
import threading
import time

from gate_programs import Fault, built
from site_misuse import LOST
from site_model import LOWER, RAISE, Field, Log, World, bounded, check_world, checked, id_of, settled
from site_program import FIRST, Program, Site, files_of
from site_whole import Whole

KILLS = int(os.environ.get("KILLS", "50"))
WIDE = (Field("stock", 0, 1_000_000_000, 400_000_000), Field("seats", -50, 900, 77))
GARBAGE = {
    "": "no command",
    "hello": "no command",
    "0  begin": "unknown word",
    "0 read sock": "no such field",
    "0 give 1 sock lower 1": "no such field",
    "0 commit": "no command",
    "x" * 255: "no command",
    "x" * 300: "too long",
}
# How a short run is asked to shorten the log, and a long one: some aren't.
KEEPS: tuple[list[str], ...] = ([], ["--keep", "0"], ["--keep", "20000"])
LONG_KEEPS: tuple[list[str], ...] = (*[["--keep", "0"]] * 6, ["--keep", "2000"], [])
# So many lines at most a run has; and so many bytes of questions, which come in one read.
SHORT_RUN, LONG_RUN, AT_ONCE = 400, 20_000, 4_000
# So many transactions at most stay open for long.
LINGERING = 20


@dataclasses.dataclass
class Shop:
    """A site, and all that the test knows of it."""

    site: Site
    whole: Whole
    orders: list[tuple[str, str]] = dataclasses.field(default_factory=list)
    """Each key that a sale was asked for with, and the position behind which that was."""
    unanswered: list[str] = dataclasses.field(default_factory=list)
    """Transactions whose commit the last stop left unanswered."""
    ordered: int = 0
    shortenings: int = 0
    listed: int = 0
    """In so many runs the log was shortened, and so many of them left a head that lists open transactions."""

    @staticmethod
    def of(site: Site) -> Shop:
        return Shop(site, Whole(site.world, site.number))


class Lines:
    """Lines for a site that begins an epoch."""

    def __init__(self, dice: random.Random, shop: Shop, epoch: int) -> None:
        self.dice, self.shop, self.site, self.epoch, self.begun = dice, shop, shop.site, epoch, 0
        self.lines: list[str] = []
        self.lingering: list[str] = []
        self.olds = dice.sample(list(shop.whole.places), min(50, len(shop.whole.places)))

    def others(self) -> list[int]:
        return [it for it in range(self.site.world.sites) if it != self.site.number]

    def place(self) -> str:
        field = self.dice.choice(self.site.world.fields).name
        return f"{field} {self.dice.choice((LOWER, RAISE))}"

    def own(self, words: str) -> None:
        self.lines.append(f"{self.site.number} {words}")

    def begin(self, escrows: int) -> str:
        self.begun += 1
        txn = f"{self.epoch}.{self.begun}"
        self.own("begin")
        for _ in range(escrows):
            field = self.dice.choice(self.site.world.fields).name
            self.own(f"escrow {txn} {field} {self.dice.choice((-1, 1)) * self.dice.randint(1, 9)}")
        return txn

    def transaction(self) -> None:
        txn = self.begin(self.dice.randint(0, 2))
        self.own(f"{self.dice.choice(('commit', 'commit', 'commit', 'abort'))} {txn}")

    def burst(self) -> None:
        """Sales and returns, or gifts or tightenings, one behind the other, of which each keeps a record."""
        field, many = self.site.world.fields[0].name, self.dice.randint(10, 60)
        if self.dice.random() < 0.5:
            word = f"give {self.dice.choice(self.others())}" if self.others() else "tighten"
            self.lines += [f"{self.site.number} {word} {field} {self.dice.choice((LOWER, RAISE))} 1"] * many
            return
        for _ in range(many):
            self.begun += 1
            txn = f"{self.epoch}.{self.begun}"
            self.own("begin")
            self.own(f"escrow {txn} {field} {1 - self.begun % 2 * 2}")
            self.own(f"commit {txn}")

    def linger(self) -> None:
        """A transaction that stays open for long."""
        if len(self.lingering) < LINGERING and self.dice.random() < 0.15:
            self.lingering.append(self.begin(2))
        elif self.lingering and self.dice.random() < 0.05:
            self.own(f"commit {self.lingering.pop(self.dice.randrange(len(self.lingering)))}")

    def order(self) -> None:
        """A sale by a key: a new one, or one that was asked for before, by who doesn't know what became of it."""
        orders = self.shop.orders
        if orders and self.dice.random() < 0.4:
            key, since = self.dice.choice(orders[-50:] if self.dice.random() < 0.7 else orders)
        else:
            self.shop.ordered += 1
            key, since = f"order-{self.site.number}.{self.shop.ordered}", f"{self.epoch}.{self.begun}"
            orders.append((key, since))
        txn = self.begin(1)
        self.own(f"commit {txn} key {key}{f' since {since}' if self.dice.random() < 0.9 else ''}")
        self.own(f"abort {txn}")

    def gift(self) -> None:
        if self.others():
            word = self.dice.choice(("give", "spare"))
            self.own(f"{word} {self.dice.choice(self.others())} {self.place()} {self.dice.randint(1, 5)}")
            self.own(f"restate {self.dice.choice(self.others())} {self.place()}")

    def acceptance(self) -> None:
        if self.site.told:
            self.own(f"accept {self.dice.choice(self.site.told)}")

    def look(self) -> None:
        field = self.dice.choice(self.site.world.fields).name
        self.own(self.dice.choice((f"read {field}", f"share {field}", f"tighten {self.place()} 1")))

    def question(self) -> None:
        orders = self.shop.orders
        if orders and self.dice.random() < 0.5:
            key, since = self.dice.choice(orders)
            self.lines.append(f"kept key {key} since {since}")
        elif self.olds and self.dice.random() < 0.5:
            self.lines.append(f"kept {self.dice.choice(self.olds)}")
        else:
            self.lines.append(f"kept {self.epoch}.{self.dice.randint(1, self.begun + 1)}")

    def restart(self) -> None:
        if self.dice.random() < 0.004:
            self.own("restart")
            self.epoch, self.begun = self.epoch + 1, 0
            self.lingering.clear()

    def garbage(self) -> None:
        self.lines.append(self.dice.choice(list(GARBAGE)))

    def some(self, count: int) -> list[str]:
        makers = [self.transaction] * 6 + [self.gift, self.acceptance, self.order, self.linger] * 2
        makers += [self.look, self.question, self.restart, self.garbage]
        makers += [self.burst] * (2 if count > SHORT_RUN else 0)
        while len(self.lines) < count:
            self.dice.choice(makers)()
        return self.lines


# ---- a run


def feed(process: subprocess.Popen[bytes], first: int, lines: list[str], dice: random.Random) -> None:
    """Writes the lines, the first so many at once and the others some at a time, until the program is gone."""
    few = 20 if len(lines) <= SHORT_RUN else dice.choice((40, 400, 4_000))
    at, behind = 0, first
    try:
        while at < len(lines):
            process.stdin.write("".join(f"{it}\n" for it in lines[at:behind]).encode())
            process.stdin.flush()
            at, behind = behind, behind + dice.randint(1, few)
            time.sleep(dice.random() / 2_000)
        process.wait(5)
    except (BrokenPipeError, subprocess.TimeoutExpired):
        pass


class Reader:
    """Reads what a program writes, and kills it a moment after so many lines."""

    def __init__(self, process: subprocess.Popen[bytes], most: int, moment: float) -> None:
        self.process, self.most, self.moment = process, most, moment
        self.pieces: list[bytes] = []
        self.thread = threading.Thread(target=self.run)
        self.thread.start()

    def run(self) -> None:
        count, timer = 0, threading.Timer(self.moment, self.process.kill)
        while piece := os.read(self.process.stdout.fileno(), 1 << 16):
            self.pieces.append(piece)
            count += piece.count(b"\n")
            if count >= self.most and not timer.ident:
                timer.start()
        timer.cancel()

    def lines(self) -> list[str]:
        self.thread.join()
        return b"".join(self.pieces).decode().split("\n")[:-1]


def killed(program: Program, site: Site, words: list[str], first: int, lines: list[str], dice: random.Random) -> list[str]:
    """Serves the lines, kills the program at a random moment, and gives the whole lines that it wrote."""
    how = {"stdin": subprocess.PIPE, "stdout": subprocess.PIPE, "stderr": subprocess.PIPE, "env": {}}
    words = ["serve", site.folder, *words, *(["--trace"] if site.is_traced else [])]
    process = program.children.start([program.path, *words], **how)
    # (a few are killed before they are ready)
    most, moment = dice.choice((0, dice.randint(1, 3), *(dice.randint(1, len(lines)) for _ in range(4)))), dice.random() / 100
    try:
        if most == 0:
            time.sleep(moment * 2)
            process.kill()
        reader = Reader(process, most, dice.choice((0, moment / 10, moment)))
        feed(process, first, lines, dice)
        process.kill()
        out, told = reader.lines(), process.stderr.read()
    finally:
        program.children.end(process)
    if told or process.returncode != -9:
        raise Fault(f"{site.folder}: status {process.returncode}, told {told!r}")
    return out


class Run:
    """What was answered in one run, taken in line by line: what it keeps is told to what is known of the site."""

    def __init__(self, shop: Shop, shops: list[Shop]) -> None:
        self.shop, self.shops, self.whole = shop, shops, shop.whole
        self.names = shop.whole.names
        self.open: dict[str, list[tuple[int, int]]] = {}
        self.forgotten: list[str] = []

    def refuse(self, line: str, answer: str, why: str) -> None:
        raise Fault(f"{self.shop.site.folder}: {line}: {answer}, {why}")

    def held(self, field: int, kind: str) -> int:
        """What open transactions hold."""
        changes = [change for escrows in self.open.values() for on, change in escrows if on == field]
        return sum(abs(it) for it in changes if (it < 0) == (kind == LOWER))

    def look(self, word: str, name: str) -> str:
        """What a read or a share is answered."""
        field, log = self.names.index(name), self.whole.log
        if word == "share":
            return "share " + " ".join(str(log.own[field, it] - self.held(field, it)) for it in (LOWER, RAISE))
        has = log.world.fields[field]
        return f"between {has.floor + log.guarded(field, LOWER)} {has.ceiling - log.guarded(field, RAISE)}"

    def statement(self, words: list[str], total: int) -> None:
        to, name, kind = words
        self.shops[int(to)].site.told.append(f"{self.shop.site.number} {to} {name} {kind} {total}")

    def commit(self, words: list[str], reply: str) -> None:
        txn, *key = words
        if reply == "committed":
            self.whole.keep_commit(txn, self.open.pop(txn, []))
            if key and txn in self.whole.log.commits:
                self.whole.sell(key[1], txn)

    def take_key(self, line: str, answer: str) -> None:
        """A question for a key, or a commit with one that was kept: of an order that was sold another commit is never told."""
        words, told = line.split(" "), answer.rpartition(" -> ")[2]
        key = words[words.index("key") + 1]
        if told not in ("forgotten", self.whole.orders.get(key, "no")):
            self.refuse(line, answer, f"and the order is {self.whole.orders.get(key)}")

    def take(self, line: str, reply: str) -> None:
        """The entry of a command."""
        _, word, *rest = line.split(" ")
        told = reply.split(" ")
        if word in ("read", "share"):
            if reply != self.look(word, rest[0]):
                self.refuse(line, reply, f"and not {self.look(word, rest[0])}")
        elif word == "commit":
            self.commit(rest, reply)
        elif told[0] == "refused":
            pass
        elif word == "escrow":
            self.open.setdefault(rest[0], []).append((self.names.index(rest[1]), int(rest[2])))
        elif word == "abort":
            self.open.pop(rest[0], None)
        elif word == "restart":
            self.open.clear()
            self.whole.keep(f"R {told[1]}")
        elif word in ("give", "spare"):
            self.whole.keep_total("G", *rest[:3], int(told[-1]))
            self.statement(rest[:3], int(told[-1]))
        elif word == "restate":
            self.statement(rest, int(told[-1]))
        elif word == "accept" and told[1] != "0":
            self.whole.keep_total("A", rest[0], *rest[2:4], int(rest[4]))
        elif word == "tighten":
            self.whole.keep(f"T {self.names.index(rest[0])} {rest[1][0]} {told[1]}")


def check_start(shop: Shop, words: list[str], before: Log, out: list[str]) -> None:
    """The first two lines of a start: the length is that of all records."""
    whole, name = shop.whole, shop.site.folder
    if not out:
        return
    whole.keep(f"R {before.epoch + 1}")
    version = 2 if before.gone or "--keep" in words else 1
    if out[0] != f"ready {version} {whole.log.epoch} {len(whole.text)}":
        raise Fault(f"{name}: {out[0]}, behind {before.epoch} {before.length}, over {before.gone}, {words}")
    restart = f"{shop.site.number} restart -> restarted {whole.log.epoch} nothing"
    if out[1:2] and out[1] != restart:
        raise Fault(f"{name}: {out[1]} in epoch {whole.log.epoch}")
    if shop.site.is_traced and shop.site.traced_since(restart)[: len(out) - 1] != out[1:]:
        raise Fault(f"{name}: answered, and not in the trace: {out[-1]}")


def take_answers(run: Run, lines: list[str], wanted: dict[int, str], out: list[str]) -> None:
    for number, (line, answer) in enumerate(zip(lines, out[2:]), 1):
        if line in GARBAGE:
            is_right = answer == f"bad line {number} {GARBAGE[line]}"
        elif number in wanted:
            is_right = answer == wanted[number]
        elif line.startswith("kept key ") or answer.startswith("kept key "):
            is_right = answer.startswith("kept key ")
            run.take_key(line, answer)
        elif line.startswith("kept "):
            txn = line.removeprefix("kept ")
            is_right = answer in (f"{line} -> {run.whole.kept(txn)}", f"{line} -> forgotten")
        else:
            spelled, _, reply = answer.partition(" -> ")
            is_right = spelled == line.partition(" key ")[0]
            run.take(line, reply)
        if not is_right:
            raise Fault(f"{run.shop.site.folder}: line {number}, {line}: {answer}, and not {wanted.get(number)}")
        if answer.endswith(" -> forgotten"):
            run.forgotten.append(line)


def look_at_forgotten(run: Run, held: Log) -> None:
    """What was forgotten may be gone: of a key that was asked for behind a position, by a commit behind that."""
    for line in run.forgotten:
        front, _, since = line.partition(" since ")
        asked = front.removeprefix("kept ")
        is_key = " key " in f" {asked}"
        if held.gone is None or not (not since or held.gone.is_behind(since) if is_key else held.gone.has_passed(asked)):
            raise Fault(f"{run.shop.site.folder}: {line}: forgotten, and gone is {held.gone}")


def commits_of(lines: list[str]) -> dict[str, list[str]]:
    """The words of each line that is a commit, by its transaction."""
    return {it[2]: it for it in (line.split(" ") for line in lines if line not in GARBAGE) if it[1:2] == ["commit"]}


def take_unanswered(run: Run, lines: list[str], held: Log) -> None:
    """What the log has of lines that weren't answered: each was asked."""
    whole, name = run.whole, run.shop.site.folder
    commits = commits_of(lines)
    asked = {"C": "commit", "G": ("give", "spare"), "A": "accept", "T": "tighten"}
    words = {line.split(" ")[1] for line in lines if " " in line}
    for record in whole.lines_behind(name, held):
        letter, *rest = record.split(" ")
        if letter == "C":
            txn = f"{rest[0]}.{rest[1]}"
            if txn not in commits:
                raise Fault(f"{name}: {txn} was never asked for")
            whole.keep(record)
            if commits[txn][3:4] == ["key"]:
                whole.sell(commits[txn][4], txn)
        elif letter != "S":
            if letter in asked and words.isdisjoint(asked[letter] if letter == "G" else [asked[letter]]):
                raise Fault(f"{name}: {record} was never asked for")
            whole.keep(record)
    if whole.lines_behind(name, held):
        raise Fault(f"{name}: the log has a summary that isn't one: {held.gone}")


def look_at_log(shop: Shop, held: Log) -> None:
    whole, name = shop.whole, shop.site.folder
    before = whole.gone
    whole.look_at_head(name, held)
    whole.look_at_keys(name, held)
    shop.shortenings += whole.gone != before
    shop.listed += whole.gone != before and whole.gone is not None and whole.gone.open_then != ()
    forgotten = [it for it in shop.unanswered if held.kept(it) == "forgotten"]
    if forgotten:
        raise Fault(f"{name}: unanswered, and forgotten: {forgotten}, {held.gone}")


def take_run(
    shop: Shop, shops: list[Shop], words: list[str], before: Log, lines: list[str], wanted: dict[int, str], out: list[str]
) -> None:
    """What a run told of these lines, over the log before it, and what it left."""
    run = Run(shop, shops)
    check_start(shop, words, before, out)
    take_answers(run, lines, wanted, out)
    held, rest = shop.site.log(), lines[max(0, len(out) - 2) :]
    take_unanswered(run, rest, held)
    look_at_forgotten(run, held)
    # (what was so before stays so, where nothing was answered)
    shop.unanswered = [*(shop.unanswered if len(out) <= 2 else []), *commits_of(rest)]
    # (an epoch that wasn't begun comes again: nobody was told a position of it)
    shop.orders = [(key, since) for key, since in shop.orders if id_of(since)[0] <= held.epoch]
    look_at_log(shop, held)


def asked_first(shop: Shop, before: Log, dice: random.Random) -> list[tuple[str, str]]:
    """What a start is asked before all else, and what it answers by its log: how all stands, what a stop left unanswered, and of
    what came before."""
    asked = [(line, f"{line} -> {reply}") for line, reply in before.looks()]
    ids = shop.unanswered[:60] + dice.sample(shop.unanswered, min(20, len(shop.unanswered)))
    ids += [f"{before.epoch}.{number}" for number in range(1, 20)]
    commits = list(shop.whole.places)
    ids += [dice.choice(commits) for _ in range(20 if commits else 0)]
    asked += [(f"kept {it}", f"kept {it} -> {before.kept(it)}") for it in ids]
    for key, since in [dice.choice(shop.orders) for _ in range(20 if shop.orders else 0)]:
        asked += [(f"kept key {key}", f"kept key {key} -> {before.kept_key(key)}")]
        asked += [(f"kept key {key} since {since}", f"kept key {key} since {since} -> {before.kept_key(key, since)}")]
    while sum(len(line) + 1 for line, _ in asked) > AT_ONCE:
        asked.pop()
    return asked


def try_kill(program: Program, shop: Shop, shops: list[Shop], dice: random.Random) -> int:
    """One run that is killed: how many lines were answered."""
    site = shop.site
    before = site.log()
    firsts = asked_first(shop, before, dice)
    wanted = {number: answer for number, (_, answer) in enumerate(firsts, 1)}
    is_long = dice.random() < 0.5
    count = dice.randint(LONG_RUN // 2, LONG_RUN) if is_long else dice.randint(1, SHORT_RUN)
    lines = [line for line, _ in firsts] + Lines(dice, shop, before.epoch + 1).some(count)
    words = ["--not-before", str(before.epoch), str(before.length)] if dice.random() < 0.5 else []
    words += dice.choice(LONG_KEEPS if is_long else KEEPS) + dice.choice(([], [], [], ["--no-sync"]))
    out = killed(program, site, words, len(firsts), lines, dice)
    take_run(shop, shops, words, before, lines, wanted, out)
    check_world([it.whole.log for it in shops])
    return max(0, len(out) - 2)


# ---- behind them


def judge(program: Program, sites: list[Site]) -> int:
    """Weaves the traces of all sites, and has the woven trace judged: how many entries it has."""
    folders = [it.folder for it in sites]
    status, woven, err = program.run(["weave", *folders])
    if status or err or not woven.startswith(f"{sites[0].world.header()}\n"):
        raise Fault(f"weave {' '.join(folders)}: {status}, {err!r}")
    entries = woven.count("\n") - 1
    if entries < 1_000_000:
        escrow = built(program.children, "escrow", "--help")
        judged = program.children.run("escrow audit", [escrow, "audit"], woven.encode(), env={})
        if judged != (0, f"legal {entries}\n".encode(), b""):
            raise Fault(f"escrow audit of {entries} entries: {judged}")
    program.ends(["judge", *reversed(folders)], 0, f"legal {entries}\n", "")
    return entries


def look_at_world(program: Program, shops: list[Shop]) -> None:
    """What `check` and `settle` tell of the logs of all sites, and of those that are left where the last is lost."""
    folders, logs = [it.site.folder for it in shops], [it.whole.log for it in shops]
    told = "\n".join(checked(logs))
    program.ends(["check", *reversed(folders)], 0, f"{told}\n", "")
    program.ends(["settle", *reversed(folders)], 0, f"{settled(logs).header()}\n", "")
    if len(shops) > 1:
        told = "\n".join(bounded(logs[:-1]))
        program.ends(["settle", *folders[:-1]], 3, f"{told}\n", LOST.format(shops[-1].site.number))


def begin_anew(program: Program, name: str, shops: list[Shop]) -> None:
    """A site of the world that goes on where these end."""
    world = settled([it.whole.log for it in shops])
    field, site = world.fields[0], program.created(f"{name}_anew", world)
    share = f"0 share {field.name} -> share {world.part(0, field, LOWER)} {world.part(0, field, RAISE)}\n"
    program.ends(["serve", site.folder], 0, FIRST.format(1, 4, 1) + share, "", f"0 share {field.name}\n".encode())


def look_at_site(program: Program, shop: Shop) -> None:
    """A start that nothing stops, and what the site is shown to be then."""
    site = shop.site
    status, _, told = program.run(["serve", site.folder, *(["--trace"] if site.is_traced else [])])
    wanted = {"site", "log", *(["trace"] if site.is_traced else [])}
    if (status, told) != (0, "") or set(files_of(site.folder)) != wanted:
        raise Fault(f"{site.folder}: {status}, {told!r}, and it has {sorted(files_of(site.folder))}")
    shop.whole.keep(f"R {shop.whole.log.epoch + 1}")
    held = site.log()
    shown = held.shown()
    told = "\n".join([f"site {site.number}", f"world {site.world.name()}", *shown])
    program.ends(["show", site.folder], 0, f"{told}\n", "")
    if [it for it in shown if not it.startswith("gone ")] != shop.whole.log.shown():
        raise Fault(f"{site.folder}: {shown}, and by what was answered {shop.whole.log.shown()}")


def try_kills(program: Program, name: str, count: int, dice: random.Random, is_traced: bool = False) -> None:
    world = World(count, WIDE, f"wide-{name}")
    shops = [Shop.of(program.created(f"{name}{number}", world, number, is_traced)) for number in range(count)]
    answers = sum(try_kill(program, dice.choice(shops), shops, dice) for _ in range(KILLS))
    for shop in shops:
        look_at_site(program, shop)
    runs, orders = sum(it.shortenings for it in shops), sum(len(it.whole.orders) for it in shops)
    gone, listed = sum(it.whole.gone.records for it in shops if it.whole.gone), sum(it.listed for it in shops)
    print(f"escrow_site: {KILLS} kills of {count} sites, {answers} answers, none lost, {orders} orders, none sold twice; "
          f"{gone} of {sum(it.whole.counted for it in shops)} records let go, in {runs} of the runs, at {listed} with open "
          f"transactions", flush=True)
    look_at_world(program, shops)
    begin_anew(program, name, shops)
    if is_traced:
        print(f"escrow_site: a woven trace of {judge(program, [it.site for it in shops])} entries judged legal", flush=True)
