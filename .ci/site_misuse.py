"""Each misuse of the program escrow_site, with its text and its status: the folder stays as it was."""
from __future__ import annotations

import dataclasses
import hashlib
import itertools
import os
import shutil
import subprocess

from gate_programs import Fault, built
from site_model import END, World, sealed
from site_program import ALONE, COMMIT, FIRST, SHOP, SOLD, Program, Site, files_of

def header(field: str = "", sites: str = "2") -> str:
    return SHOP.header().replace('"sites":2', f'"sites":{sites}').replace('"floor":0', field or '"floor":0')


STOCK = SHOP.header()[len('{"sites":2,"fields":[') : -2]
HEADERS = (
    ("", "header S1: no JSON"),
    ("{}\n", "header S2: another shape"),
    (header(sites="65"), "header S3: the number of sites"),
    ('{"sites":2,"fields":[]}', "header S4: the number of fields"),
    (SHOP.header().replace("stock", "Stock"), "header S5: a field's name"),
    (SHOP.header().replace(STOCK, f"{STOCK},{STOCK}"), "header S6: a name that is used twice"),
    (header('"floor":41'), "header S7: a field's bounds"),
    (SHOP.header().ljust(65_537), "header S9: more than 65536 bytes"),
    (SHOP.header().replace(",", ",\n"), "the header isn't one line: write it as one line of JSON"),
    (f"{SHOP.header()}\n\n", "the header isn't one line: write it as one line of JSON"),
    (header(sites="1"), "no site 1: sites are numbered from 0"),
)


def site_text(number: str = "0", text: str = SHOP.header(), name: str = "", version: str = "1") -> str:
    """What `site` holds in a world without a name of its own, as programs made them once."""
    name = name or hashlib.sha256(text.encode()).hexdigest()
    return f"escrow site {version}\nnumber {number}\nworld {name}\n{text}\n"


NAME = hashlib.sha256(SHOP.header().encode()).hexdigest()
DAMAGED = "isn't as create wrote it: put it back from a copy"
CHANGED = "the header was changed: put it back from a copy, as create wrote it"
SITES = (
    ("", "isn't of escrow site 1 or 2: serve it by the version that made it, or put it back from a copy"),
    (site_text(version="3"), "isn't of escrow site 1 or 2: serve it by the version that made it, or put it back from a copy"),
    (site_text(version="2"), DAMAGED),
    (site_text(version="2").replace("\nworld", "\nname a/b\nworld"), CHANGED),
    (site_text()[:-1], DAMAGED),
    (f"{site_text()}\n", DAMAGED),
    (site_text(number="00"), DAMAGED),
    (site_text().replace("number 0\n", ""), DAMAGED),
    (site_text(text=SHOP.header().replace("100", "900"), name=NAME), CHANGED),
    (site_text(text=SHOP.header().replace("40", "90"), name=NAME), CHANGED),
    (site_text(name=NAME.upper()), CHANGED),
    (site_text(text="{}"), "header S2: another shape"),
    (site_text(number="2"), "its header has no such site: put it back from a copy, as create wrote it"),
    (site_text(number="65536"), "its header has no such site: put it back from a copy, as create wrote it"),
)

# Logs that begin otherwise than one of site 0 of SHOP.
HEAD = SHOP.log_head(0)
OTHER_LOGS = (
    b"",
    b"R 1\n",
    HEAD[:-1],
    HEAD[: HEAD.index(b"sum")] + sealed(b"R 1\n"),
    HEAD.replace(b"log 2", b"log 4"),
    sealed(HEAD[: HEAD.index(b"sum")].replace(b"log 2", b"log 4")),
    HEAD.replace(b"head 0 0", b"head 0 1"),
    HEAD.replace(b"sum", b"Sum"),
    f"escrow log 1\nnumber 0\nworld {NAME}\n".encode(),
    SHOP.log_head(1),
    SHOP.log_text(10, b"R 1\n"),
    World(3, SHOP.fields).log_text(0, b"R 1\n"),
)

# Batches of records that are none of site 0 of SHOP, each with the number of the first bad one.
LOGS = (
    ((b"HELLO\n",), 1),
    ((b"R 1\n", b"HELLO\nR 2\n"), 2),
    ((b"R 1\n", b"C 1 1 0 -20\n", b"\n"), 3),
    ((b"R 1\nR 1\n",), 2),
    ((b"R 1\n", b"X\nR 2\n"), 2),
    ((b"R 1\n", b"C 1 1 0 -21\n"), 2),
    ((b"R 1\n", b"C 1 1 0 -20\nC 1 2 0 -1\n"), 3),
    ((b"R 1\nG 0 0 l 5\n",), 2),
    ((b"R 1\n", b"C 1 1 1 -1\n"), 2),
    ((b"R 1\nR 1\n", b"HELLO\nR 2\n"), 2),
    ((b"R 1\n", b"HELLO\nR 2\n", b"R 1\n"), 2),
    ((b"R 1\n", b"C 1 1 0 -20\nC 1 2 0 -21\n", b"R 2\nHELLO\n"), 3),
)
# What stops leave behind a log.
TORN_ENDS = (b"C 1 2 0 -1\nG", b"R 2\nsum 000000")

# What stands behind the head of a log that no stop leaves so, each with the line where the batch begins that is damaged.
RESTARTED = sealed(b"R 1\n")
DAMAGED_LOGS = (
    (b"hello\n", 1),
    (b"sum 0123456789abcdef\n", 1),
    (b"R 1\nsum 0123456789abcdef\n", 1),
    (b"R 1" + RESTARTED[4:], 1),
    (RESTARTED[:4] + RESTARTED, 1),
    (RESTARTED + RESTARTED[4:], 3),
    (RESTARTED + b"C 1 1 0 -20\nR 2\nsum 0123456789abcdef\n" + sealed(b"R 3\n"), 3),
    (RESTARTED + END + b"R", 3),
    (RESTARTED + END + sealed(b"R 2\n"), 3),
    (RESTARTED + END + END[:-1], 3),
    (RESTARTED + b"b 2", 3),
    (RESTARTED + b"R 2\n\0", 3),
    (RESTARTED + b"R 2s", 3),
    (RESTARTED + b"R 2\nsun", 3),
)

COMMAND_LINES: tuple[tuple[list[str], str], ...] = (
    ([], "create"),
    (["sell"], "sell"),
    (["create"], "--schema"),
    (["create", "shop", "--schema", "s", "--site", "-1"], "-1"),
    (["create", "shop", "--schema", "s", "--site", "one"], "one"),
    (["create", "shop", "--schema", "s", "--site", "0", "--name"], "--name"),
    (["create", "shop", "--schema", "s", "--site", "0"], "--name"),
    (["serve"], "FOLDER"),
    (["serve", "shop", "--not-before", "1"], "--not-before"),
    (["serve", "shop", "--not-before", "1", "two"], "two"),
    (["serve", "shop", "more"], "more"),
    (["serve", "shop", "--keep"], "--keep"),
    (["serve", "shop", "--keep", "all"], "all"),
    (["serve", "shop", "--keep", "-1"], "-1"),
    (["serve", "shop", "--keep", "18446744073709551616"], "18446744073709551616"),
    (["show", "shop", "--keep", "0"], "--keep"),
    (["show", "shop", "--no-sync"], "--no-sync"),
    (["check"], "FOLDER"),
    (["settle"], "FOLDER"),
    (["weave"], "FOLDER"),
    (["weave", "shop", "--trace"], "--trace"),
    (["judge"], "FOLDER"),
    (["judge", "shop", "--trace"], "--trace"),
    (["version", "shop"], "shop"),
)


GONE = "isn't there: put the newest log back; a site without it would sell again what it sold"
OTHERS = "isn't the log of this site, or is a later program's: serve it by that, or put its own newest log back"
CHANGED_HEAD = "its head was changed: put its own newest log back"
NO_RECORD = "line {} is no record of this site: put its own newest log back"
LOST = "the logs of these sites are lost: {}: nothing was closed: put the newest ones back to settle"


def damaged(line: int) -> str:
    """Why a log is refused in which the batch is damaged that begins at this line behind the head, as lines of the file."""
    return f"line {5 + line}: the batch that begins there is damaged: put its own newest log back"


def refuses(program: Program, site: Site, words: list[str], status: int, told: str) -> None:
    """A folder that is refused, twice, and stays as it was."""
    before = files_of(site.folder)
    for _ in range(2):
        program.ends([words[0], site.folder, *words[1:]], status, "", told, COMMIT)
    if files_of(site.folder) != before:
        raise Fault(f"{site.folder}: refused, and changed: {told}")


def refuse_command_lines(program: Program) -> None:
    for words, named in COMMAND_LINES:
        status, out, err = program.run(words)
        if (status, out) != (2, "") or named not in err:
            raise Fault(f"escrow_site {' '.join(words)}: {status}, {out!r}, {err!r}")


VERSIONS = "escrow_site 0.1.0: reads site 1 2, log 1 2 3, trace 1; makes site 2, log 2 3, trace 1; answers ready 1 2\n"


def tell_versions(program: Program) -> None:
    program.ends(["version"], 0, VERSIONS, "")
    with open("/dev/full", "wb") as full:
        program.ends(["version"], 1, "", "write fault", stdout=full)


NAMED = ["--name", SHOP.own_name]
NO_NAME = (
    "--name NAME is wanted: 1 to 64 of a-z A-Z 0-9 . _ - that no other world of yours has, "
    "the same for all sites of this world"
)


def refuse_schemas(program: Program) -> None:
    new = os.path.join(program.folder, "new")
    for text, told in HEADERS:
        schema = program.file("bad.json", text)
        program.ends(["create", new, "--schema", schema, "--site", "1", *NAMED], 2, "", f"{schema}: {told}")
    words = ["create", new, "--schema", f"{new}.json", "--site", "1", *NAMED]
    program.ends(words, 2, "", f"{new}.json: {os.strerror(2)} (os error 2)")
    schema = program.file("schema.json", f"{SHOP.header()}\n")
    program.ends(["create", new, "--schema", schema, "--site", "1"], 2, "", NO_NAME)
    for name in ("", "a/b", "a b", "+", "#", "ä", "a\n", "a" * 65):
        told = "--name: a world's name has 1 to 64 of a-z A-Z 0-9 . _ -"
        program.ends(["create", new, "--schema", schema, "--site", "1", "--name", name], 2, "", told)
    if os.path.exists(new):
        raise Fault(f"{new}: refused, and made")


def tell_worlds_apart(program: Program) -> None:
    """Worlds of one header, each with a name of its own: the files tell the name, and no two go together, nor is the log of
    the one taken for that of the other."""
    worlds = [World(2, SHOP.fields, name) for name in ("Rehearsal_1.0", "z" * 64, "0")]
    sites = [program.created(f"apart{number}", world) for number, world in enumerate(worlds)]
    for world, site in zip(worlds, sites):
        lines = ["escrow site 2", "number 0", f"name {world.own_name}", f"world {world.name()}", world.header(), ""]
        wanted = {"site": "\n".join(lines).encode(), "log": world.log_head(0)}
        if files_of(site.folder) != wanted:
            raise Fault(f"{site.folder}: {files_of(site.folder)}, and not {wanted}")
        program.ends(["serve", site.folder], 0, FIRST.format(1, 4, 1), "", b"")
        if files_of(site.folder)["log"] != world.log_text(0, b"R 1\n"):
            raise Fault(f"{site.folder}: the log is {files_of(site.folder)['log']!r}")
    for one, other in zip(sites, sites[1:] + sites[:1]):
        told = f"{other.folder}: isn't of the world of {one.folder}: name the folders of one world"
        for word in ("check", "settle", "weave", "judge"):
            program.ends([word, one.folder, other.folder], 2, "", told)
    os.replace(f"{sites[0].folder}/log", f"{sites[1].folder}/log")
    refuses(program, sites[1], ["serve"], 3, f"{sites[1].folder}/log: {OTHERS}")


def refuse_folders(program: Program) -> None:
    site = program.created("taken")
    schema = os.path.join(program.folder, "schema.json")
    there = f"{site.folder}: is there already: create takes a path at which nothing is"
    refuses(program, site, ["create", "--schema", schema, "--site", "0", *NAMED], 3, there)
    nowhere = os.path.join(program.folder, "nowhere")
    for word in ("serve", "show"):
        program.ends([word, nowhere], 3, "", f"{nowhere}/site: isn't there: look whether its disk is: a site's folder is made by create, once")
    for text, told in SITES:
        program.file("taken/site", text)
        for word in ("serve", "show"):
            refuses(program, site, [word], 3, f"{site.folder}/site: {told}")


def refuse_logs(program: Program) -> None:
    site = program.created("bad_logs")
    log = f"{site.folder}/log"
    held = [(text, OTHERS) for text in OTHER_LOGS]
    held += [(text.replace(b"log 2", b"log 3"), CHANGED_HEAD) for text in (HEAD, sealed(HEAD[: HEAD.index(b"sum")]))]
    held += [(SHOP.log_text(0, *batches), NO_RECORD.format(line)) for batches, line in LOGS]
    held += [(HEAD + text, damaged(line)) for text, line in DAMAGED_LOGS]
    for text, told in held:
        program.put("bad_logs/log", text)
        for word in ("serve", "show"):
            refuses(program, site, [word], 3, f"{log}: {told}")
    os.remove(log)
    for word in ("serve", "show"):
        refuses(program, site, [word], 3, f"{log}: {GONE}")


def keep_closed_batches(program: Program) -> None:
    """A log that is refused for a record keeps each batch that a sum closes; where it is only shown, also what a stop left."""
    site = program.created("torn_logs")
    for batches, line in LOGS:
        told = f"{site.folder}/log: {NO_RECORD.format(line)}"
        closed = SHOP.log_text(0, *batches)
        for torn in TORN_ENDS:
            program.put("torn_logs/log", closed + torn)
            refuses(program, site, ["show"], 3, told)
            program.ends(["serve", site.folder], 3, "", told, COMMIT)
            if files_of(site.folder)["log"] != closed:
                raise Fault(f"{site.folder}: refused, and lost more than a torn end: {told}")


def refuse_exchanged(program: Program) -> None:
    """Two sites' logs, exchanged before anything was sold: each is lawful at the other site."""
    sites = [program.created(f"exchanged{number}", SHOP, number) for number in (0, 1)]
    texts = [files_of(site.folder)["log"] for site in sites]
    for site, text in zip(sites, reversed(texts)):
        program.put(f"exchanged{site.number}/log", text)
        refuses(program, site, ["serve"], 3, f"{site.folder}/log: {OTHERS}")


def refuse_old_copy(program: Program) -> None:
    site = program.created("old")
    copy = f"{site.folder}.copy"
    program.ends(["serve", site.folder], 0, FIRST.format(1, 4, 1) + SOLD, "", COMMIT)
    shutil.copyfile(f"{site.folder}/log", copy)
    program.ends(["serve", site.folder, "--not-before", "1", "4"], 0, FIRST.format(2, 20, 2), "")
    shutil.copyfile(copy, f"{site.folder}/log")
    told = f"{site.folder}/log: epoch 1, length 16: older than --not-before: put the newest log back"
    refuses(program, site, ["serve", "--not-before", "2", "20"], 3, told)
    refuses(program, site, ["serve", "--not-before", "2", "0"], 3, told)
    refuses(program, site, ["serve", "--not-before", "0", "17"], 3, told)


MARKED = "older than its mark in not_before, epoch 2, length 20: put the newest log back"
NO_MARK = (
    "isn't two numbers, the epoch and the length of the mark that refused an older log here: "
    "write those that escrow_site show tells of the newest log"
)
NO_MARKS = ("", "\n", "2", "2 \n", " 2 20\n", "2  20\n", "2 20 1\n", "two 20\n", "2 -1\n", "02 20\n", "\n2 20\n")
PASSED = ("1 16", "1 16\n", "0 0\n", "1 4\ncopy 16 00\n")


def refuse_marked_copy(program: Program) -> None:
    """A mark that refused an older log holds for each start in its folder, and for what goes by the logs of the world."""
    site, other = (program.created(f"marked{number}", SHOP, number) for number in range(2))
    copy, log = f"{site.folder}.copy", f"{site.folder}/log"
    program.ends(["serve", site.folder], 0, FIRST.format(1, 4, 1) + SOLD, "", COMMIT)
    shutil.copyfile(log, copy)
    program.ends(["serve", site.folder], 0, FIRST.format(2, 20, 2), "")
    program.file("marked0/not_before", "2 20\n")
    for words in (["check"], ["settle", "--dry-run"]):
        status, _, told = program.run([*words, site.folder, other.folder])
        if status != 0:
            raise Fault(f"{words}: a log that has come to its mark is refused: {told}")
    shutil.copyfile(copy, log)
    told = f"{log}: epoch 1, length 16: {MARKED}"
    for options in ([], ["--not-before", "1", "16"], ["--keep", "0"], ["--no-sync"]):
        refuses(program, site, ["serve", *options], 3, told)
    for options in ([other.folder], [], [other.folder, "--dry-run"], [other.folder, "--again"]):
        refuses(program, site, ["settle", *options], 3, told)
    for words in (["show", site.folder], ["check", site.folder, other.folder]):
        status, _, told = program.run(words)
        if status != 0:
            raise Fault(f"{words}: an older copy isn't looked at: {told}")
    refuses(program, site, ["serve", "--not-before", "1", "17"], 3,
            f"{log}: epoch 1, length 16: older than --not-before: put the newest log back")
    for text in NO_MARKS:
        program.file("marked0/not_before", text)
        refuses(program, site, ["serve"], 3, f"{site.folder}/not_before: {NO_MARK}")
    for text in PASSED:
        program.file("marked0/not_before", text)
        shutil.copyfile(copy, log)
        program.ends(["serve", site.folder], 0, FIRST.format(2, 20, 2), "")
    os.remove(f"{site.folder}/not_before")
    os.mkdir(f"{site.folder}/not_before")
    program.ends(["serve", site.folder], 5, "", f"{site.folder}/not_before: Is a directory (os error 21)")


READS = ("show", "verify", "check", "settle", "weave", "judge")
"""What is asked of folders beside `serve`."""


def refuse_files_as_folders(program: Program) -> None:
    """Who names a file of the folder is told what to name."""
    named = f"{program.created('named').folder}/log"
    for task, name in (("serve", "log"), ("verify", "log"), *((it, "site") for it in READS if it != "verify")):
        told = f"{named}/{name}: isn't in a folder: name the one that create made, not a file in it"
        program.ends([task, named], 3, "", told)


def refuse_output_in_a_folder(program: Program) -> None:
    """No answer is written among the records, as by `>> FOLDER/log`, nor the text of a fault, as by `2>> FOLDER/log`: that is
    told where it spoils nothing."""
    site = program.created("output", SHOP, 0, True)
    program.ends(["serve", "--trace", site.folder], 0, FIRST.format(1, 4, 1), "")
    program.put("output/not_before", b"1 4\n")
    before = files_of(site.folder)
    for name, words in itertools.product(sorted(before), (["serve", "--trace"], *([it] for it in READS))):
        words, path = [*words, site.folder], f"{site.folder}/{name}"
        with open(path, "ab") as stream:
            told = f"{path}: is where standard output goes: send that elsewhere"
            program.ends(words, 3, "", told, COMMIT, stdout=stream)
            told = f"escrow_site: {path}: is where standard error goes: send that elsewhere\n"
            program.ends(words, 3, told, "", COMMIT, stderr=stream)
            program.ends(words, 3, "", "", COMMIT, stdout=stream, stderr=stream)
    if files_of(site.folder) != before:
        raise Fault(f"{site.folder}: refused, and changed")
    with open(f"{site.folder}.answers", "ab") as stream:
        program.ends(["serve", "--trace", site.folder], 0, "", "", COMMIT, stdout=stream, stderr=stream)
    if files_of(site.folder)["log"] == before["log"]:
        raise Fault(f"{site.folder}: not served into another file")


def refuse_output_of_any_line(program: Program) -> None:
    """Nor is anything told there by a command that names no folder, or another one, nor of a line that asks for nothing."""
    site, other = (program.created(name, SHOP, number, True) for number, name in enumerate(("any", "any1")))
    schema = ["--schema", program.file("schema.json", f"{SHOP.header()}\n"), "--site", "0", "--name", SHOP.own_name]
    lines = ([], ["version"], ["--help"], ["serve"], ["show", other.folder, "--nothing"], ["create", site.folder, *schema],
             ["create", f"{site.folder}2", *schema], *([it, other.folder] for it in ("serve", *READS)))  # fmt: skip
    program.ends(["serve", "--trace", site.folder], 0, FIRST.format(1, 4, 1), "")
    before = files_of(site.folder), files_of(other.folder)
    for name, words in itertools.product(sorted(before[0]), lines):
        path = f"{site.folder}/{name}"
        with open(path, "ab") as stream:
            program.ends(words, 3, "", f"{path}: is where standard output goes: send that elsewhere", stdout=stream)
            told = f"escrow_site: {path}: is where standard error goes: send that elsewhere\n"
            program.ends(words, 3, told, "", stderr=stream)
            program.ends(words, 3, "", "", stdout=stream, stderr=stream)
    if (files_of(site.folder), files_of(other.folder)) != before or os.path.exists(f"{site.folder}2"):
        raise Fault(f"{site.folder}, {other.folder}: refused, and changed")
    let_output_into_a_log_of_no_site(program)


def let_output_into_a_log_of_no_site(program: Program) -> None:
    """A file `log` may be anybody's."""
    for name, text in (("of_nobody", None), ("of_no_site", "escrow site 2\nnumber 0\n")):
        os.mkdir(os.path.join(program.folder, name))
        if text is not None:
            program.file(f"{name}/site", text)
        with open(program.put(f"{name}/log", b""), "r+b") as stream:
            program.ends(["version"], 0, "", "", stdout=stream)
            stream.seek(0)
            if not stream.read().startswith(b"escrow_site "):
                raise Fault(f"{name}/log: the version isn't told")


NO_TRACE = "isn't there: only a site that was always served with --trace has one"
NOT_ITS_TRACE = "isn't the trace of this site: put its own newest trace back"
BEHIND = "is behind its log, which has records of no entry in it: put its own newest trace back"
OPENED = "0 restart -> restarted 1 nothing\n"

# Traces of site 0 of ALONE, which was restarted and then sold 20: what stands behind the name, and why it is refused.
TRACES = (
    ("", BEHIND),
    (OPENED, BEHIND),
    (OPENED + SOLD[:-1], BEHIND),
    (OPENED + SOLD.replace("granted", "refused 7 short 5"), BEHIND),
    (f"{OPENED}hello\n{SOLD}", "line 2 is no entry: put its own newest trace back"),
    (OPENED + SOLD.replace("stock", "stack"), "line 3 is no entry: put its own newest trace back"),
)


def refuse_traces(program: Program) -> None:
    site = program.created("untraced", ALONE)
    program.ends(["serve", site.folder], 0, FIRST.format(1, 4, 1) + SOLD, "", COMMIT)
    for words in (["serve", "--trace"], ["weave"], ["judge"]):
        refuses(program, site, words, 3, f"{site.folder}/trace: {NO_TRACE}")
    site = program.created("traced", ALONE)
    trace, name = f"{site.folder}/trace", ALONE.trace_name(0).decode()
    program.ends(["serve", site.folder, "--trace"], 0, FIRST.format(1, 4, 1) + SOLD, "", COMMIT)
    refuses(program, site, ["serve"], 3, f"{trace}: is there: serve with --trace, so that it misses nothing")
    told = [(name + text, why) for text, why in TRACES]
    names = ("", name[:-1], ALONE.log_head(0).decode(), SHOP.trace_name(0).decode())
    told += [(other + OPENED + SOLD, NOT_ITS_TRACE) for other in names]
    for text, why in told:
        program.file("traced/trace", text)
        for words in (["serve", "--trace"], ["weave"], ["judge"]):
            refuses(program, site, words, 3, f"{trace}: {why}")


def refuse_traced_logs(program: Program) -> None:
    """A log with two faults beside a trace: each command names the first."""
    site = program.created("traced_faults", ALONE)
    program.ends(["serve", site.folder, "--trace"], 0, FIRST.format(1, 4, 1) + SOLD, "", COMMIT)
    for batches, line in LOGS[-3:]:
        program.put("traced_faults/log", ALONE.log_text(0, *batches))
        for words in (["serve", "--trace"], ["weave"], ["judge"], ["check"], ["settle"], ["show"]):
            refuses(program, site, words, 3, f"{site.folder}/log: {NO_RECORD.format(line)}")


def cut_traces(program: Program) -> None:
    """A trace that is ahead of its log is cut back to it, and woven so; remarks and a torn end are no entries."""
    site = program.created("ahead", ALONE)
    asked = b"0 begin\n0 escrow 1.1 stock -20\nkept 1.1\nhello\n0 commit 1.1\n"
    sold = SOLD.replace("0 commit", "kept 1.1 -> no\nbad line 4 no command\n0 commit")
    program.ends(["serve", site.folder, "--trace"], 0, FIRST.format(1, 4, 1) + sold, "", asked)
    kept = ALONE.trace_name(0).decode() + OPENED + sold
    if files_of(site.folder)["trace"].decode() != kept:
        raise Fault(f"{site.folder}: the trace is {files_of(site.folder)['trace']!r}")
    opened = "0 begin -> begun 1.2\n0 escrow 1.2 stock -5 -> granted\n"
    program.file("ahead/trace", f"{kept}{opened}0 commit 1.2 -> committed\n0 begin -> begun 1.3\n0 beg")
    program.ends(["weave", site.folder], 0, f"{ALONE.header()}\n{OPENED}{SOLD}{opened}", "")
    program.ends(["judge", site.folder], 0, "legal 6\n", "")
    program.ends(["serve", site.folder, "--trace"], 0, FIRST.format(2, 20, 2), "", b"")
    again = OPENED.replace("1", "2")
    if files_of(site.folder)["trace"].decode() != kept + opened + again:
        raise Fault(f"{site.folder}: the trace is {files_of(site.folder)['trace']!r}")
    program.ends(["weave", site.folder], 0, f"{ALONE.header()}\n{OPENED}{SOLD}{opened}{again}", "")


def refuse_folder_lists(program: Program) -> None:
    """Folders that aren't those of all sites of one world."""
    first, second = (program.created(f"of_world{number}", SHOP, number).folder for number in (0, 1))
    twin = program.created("twin").folder
    other = program.created("of_another", World(3, SHOP.fields)).folder
    for word in ("check", "settle", "weave", "judge"):
        told = f"{other}: isn't of the world of {first}: name the folders of one world"
        program.ends([word, first, second, other], 2, "", told)
        told = f"{twin}: is of site 0, as {first} is: name one folder for each site"
        program.ends([word, second, first, twin], 2, "", told)
        nowhere = os.path.join(program.folder, "nowhere")
        told = f"{nowhere}/site: isn't there: look whether its disk is: a site's folder is made by create, once"
        program.ends([word, first, nowhere], 3, "", told)
    told = "site 0: isn't among the folders: name the folders of all sites of the world"
    for word in ("check", "weave", "judge"):
        program.ends([word, second], 2, "", told)




def refuse_worlds(program: Program) -> None:
    """Logs that don't go together, and logs that are lost."""
    first, second = (program.created(f"together{number}", SHOP, number).folder for number in (0, 1))
    value = f"world {SHOP.name()}\nsites 2\nfield stock value 40 floor 0 ceiling 100\n"
    program.ends(["check", first, second], 0, value, "")
    program.ends(["settle", second], 3, "field stock between 20 70\n", LOST.format(0))
    log = f"{second}/log"
    program.put("together1/log", SHOP.log_text(1, b"R 1\n", b"A 0 0 l 5\n"))
    told = "site 1 accepted 5 lower on stock from site 0, which gave 0"
    told = f"{first}/log: {told}: this log is older than what it gave: put its newest log back"
    for word in ("check", "settle"):
        program.ends([word, first, second], 3, "", told)
    program.put("together1/log", SHOP.log_text(1, b"R 1\n", b"R 1\n"))
    for word in ("check", "settle"):
        told = f"{log}: line 2 is no record of this site: put its own newest log back"
        program.ends([word, first, second], 3, "", told)
    os.remove(log)
    program.ends(["check", first, second], 3, "", f"{log}: {GONE}")
    program.ends(["settle", first, second], 3, "field stock between 20 70\n", LOST.format(1))


def refuse_two_faults(program: Program) -> None:
    """A log that can't be read is told before one that breaks a rule, of whichever site; and of rules the lowest site's."""
    first, second = (program.created(f"faults{number}", SHOP, number).folder for number in (0, 1))
    broken = "line 2 is no record of this site: put its own newest log back"
    program.put("faults0/log", SHOP.log_text(0, b"R 1\nR 1\n"))
    logs = (
        (SHOP.log_text(1, b"R 1\nR 2\n", b"HELLO\n"), f"{second}/log: {broken.replace('2', '3')}"),
        (SHOP.log_text(0, b"R 1\n"), f"{second}/log: {OTHERS}"),
        (SHOP.log_text(1, b"R 1\n") + b"?", f"{second}/log: {damaged(3)}"),
        (SHOP.log_text(1, b"R 2\nR 3\nR 1\n"), f"{first}/log: {broken}"),
        (SHOP.log_text(1, b"R 1\n"), f"{first}/log: {broken}"),
    )
    for text, told in logs:
        program.put("faults1/log", text)
        for word in ("check", "settle"):
            program.ends([word, first, second], 3, "", told)
    os.remove(f"{second}/log")
    program.ends(["check", first, second], 3, "", f"{second}/log: {GONE}")
    program.ends(["settle", first, second], 3, "", f"{first}/log: {broken}")
    world = World(3, SHOP.fields)
    named = [program.created(f"three_faults{number}", world, number).folder for number in (0, 2)]
    program.put("three_faults0/log", world.log_text(0, b"R 1\nR 1\n"))
    program.put("three_faults2/log", world.log_text(2, b"HELLO\n"))
    program.ends(["settle", *named], 3, "", f"{named[1]}/log: {broken.replace('2', '1')}")


@dataclasses.dataclass(frozen=True)
class LogKind:
    """A log of a site of three: its batches of records, None where there is no log, and what stands behind them; and why it
    can't be read, or breaks a rule."""

    batches: tuple[str, ...] | None
    behind: str = ""
    unread: str = ""
    broken: str = ""


ACCEPTS = LogKind(("R 1\n", "A {giver} 0 l 5\n"))
LOG_KINDS = (
    LogKind(("R 1\n", "R 2\n"), behind="R"),
    LogKind(("R 1\n", "HELLO\nR 1\n"), unread=NO_RECORD.format(2)),
    LogKind(("R 1\nR 1\n", "R 2\n", "HELLO\n"), broken=NO_RECORD.format(2)),
    LogKind(("R 1\n", "R 2\nR 2\n"), broken=NO_RECORD.format(3)),
    LogKind(("R 1\n", "R 1\n"), behind="R 2\nsum!", unread=damaged(5)),
    LogKind(None, unread=GONE),
    LogKind((), behind="of another", unread=OTHERS),
    ACCEPTS,
)


def put_log(site: Site, kind: LogKind) -> None:
    if kind.batches is None:
        if os.path.exists(f"{site.folder}/log"):
            os.remove(f"{site.folder}/log")
        return
    owner = (site.number + 1) % site.world.sites if kind.unread == OTHERS else site.number
    batches = [it.format(giver=(site.number + 1) % site.world.sites).encode() for it in kind.batches]
    with open(f"{site.folder}/log", "wb") as file:
        file.write(site.world.log_text(owner, *batches) + kind.behind.encode())


def first_fault(word: str, logs: list[tuple[Site, LogKind]]) -> str:
    """What is told: the first log that can't be read, else the lowest site's that breaks a rule. A settling reads no lost log."""
    for why in ("unread", "broken"):
        for site, kind in logs:
            if getattr(kind, why) and (word == "check" or kind.batches is not None):
                return f"{site.folder}/log: {getattr(kind, why)}"
    return ""


def refuse_each_three(program: Program) -> None:
    """Three sites with each three of these logs: what was wrong first at the program that read all logs before any rule."""
    sites = [program.created(f"each{number}", World(3, SHOP.fields), number) for number in range(3)]
    folders = [site.folder for site in sites]
    for kinds in itertools.product(LOG_KINDS, repeat=3):
        logs = list(zip(sites, kinds))
        for site, kind in logs:
            put_log(site, kind)
        for word in ("check", "settle"):
            told = first_fault(word, logs)
            if told:
                program.ends([word, *folders], 3, "", told)
                continue
            status, _, err = program.run([word, *folders])
            is_lost = any(kind.batches is None for kind in kinds)
            is_more = any(kind is ACCEPTS and kinds[(at + 1) % 3].batches is not None for at, kind in enumerate(kinds))
            if status != (3 if is_lost or is_more else 0) or is_more != ("which gave 0" in err):
                raise Fault(f"{word} over {kinds}: {status}, {err!r}")


def refuse_too_much(program: Program) -> None:
    """Sites that together have more than the field is wide, where the third log is lost."""
    world = World(3, SHOP.fields)
    first, second = (program.created(f"of_three{number}", world, number).folder for number in (0, 1))
    program.ends(["settle", second], 3, "field stock between 13 80\n", LOST.format("0 2"))
    program.put("of_three0/log", world.log_text(0, b"A 2 0 l 66\n"))
    told = "the logs have more rights than it is wide: one is older than what its site gave"
    told = f"field stock: {told}: put the newest ones back"
    program.ends(["settle", first, second], 3, "", told)


def refuse_old_trace(program: Program) -> None:
    """Traces that don't go together: a site that accepted what the other's copy hasn't given yet."""
    zero, one = (program.created(f"pair{number}", SHOP, number) for number in (0, 1))
    copies = [(f"{zero.folder}/{it}", f"{zero.folder}.{it}") for it in ("log", "trace")]
    program.ends(["serve", zero.folder, "--trace"], 0, FIRST.format(1, 4, 1), "", b"")
    for path, copy in copies:
        shutil.copyfile(path, copy)
    given = FIRST.format(2, 8, 2) + "0 give 1 stock lower 5 -> given 5\n"
    program.ends(["serve", zero.folder, "--trace"], 0, given, "", b"0 give 1 stock lower 5\n")
    accepted = FIRST.format(1, 4, 1).replace("0 restart", "1 restart") + "1 accept 0 1 stock lower 5 -> accepted 5\n"
    program.ends(["serve", one.folder, "--trace"], 0, accepted, "", b"1 accept 0 1 stock lower 5\n")
    status, woven, err = program.run(["weave", one.folder, zero.folder])
    if status or err or woven.index("given 5") > woven.index("accepted 5"):
        raise Fault(f"weave of a gift: {status}, {woven!r}, {err!r}")
    for path, copy in copies:
        shutil.copyfile(copy, path)
    told = "entry 2 of site 1 can't come next: another site's copy is older than this one's: copy all folders anew"
    for word in ("weave", "judge"):
        program.ends([word, zero.folder, one.folder], 3, "", told)


# Sites 0 and 2 of a world of three, of 14, 13 and 13 rights to lower, give to site 1, which spends what it has.
GIVES = (
    "0 begin\n0 give 1 stock lower 14\n",
    "1 accept 0 1 stock lower 14\n1 accept 2 1 stock lower 5\n",
    "2 give 1 stock lower 5\n",
)
SPENDS = "1 begin\n1 escrow 1.1 stock -32\n1 commit 1.1\n1 share stock\n1 read stock\n1 begin\n1 escrow 1.2 stock -1\n"

# What is changed in the trace of a site, and what the judge tells. The woven trace is: 0 restart, 0 begin, 0 give, 1
# restart, 1 accept of 0, 2 restart, 2 give, 1 accept of 2, and then what site 1 spends, from the 9th entry on.
TAMPERED: tuple[tuple[int, str, str, str], ...] = (
    (0, "", "", "legal 15"),
    (0, "0 begin -> begun 1.1", "3 begin -> begun 1.1", "illegal 2 site"),
    (1, "1.2 stock -1 -> refused 7 short 0", "1.2 stock -9 -> granted", "illegal 15 grant"),
    (1, "1.2 stock -1 -> refused 7 short 0", "1.2 stock -1 -> refused 7 short 1", "illegal 15 shortage"),
    (1, "between 0 48", "between 9 48", "illegal 13 interval"),
    (1, "share 0 52", "share 1 52", "illegal 12 reply"),
    (1, "1.2 stock -1 -> refused 7 short 0", "1.2 stock -1 -> granted", "illegal 15 reply"),
    (2, "2 give 1 stock lower 5 -> given 5", "2 give 1 stock lower 6 -> given 6", "entry 3 of site 1"),
)


def judged_by_audit(program: Program, folders: list[str]) -> tuple[int, str, str]:
    """How an audit of the woven trace ends, or the weave, where it fails."""
    status, woven, err = program.run(["weave", *folders])
    if status:
        return status, woven, err
    escrow = built(program.children, "escrow", "--help")
    status, out, err = program.children.run("escrow audit", [escrow, "audit"], woven.encode(), env={})
    return status, out.decode(), err.decode()


def judge_worlds(program: Program) -> None:
    """Each kind of bad entry in the trace of one of three served sites: it is judged as by an audit of the woven trace."""
    world = World(3, SHOP.fields)
    sites = [program.created(f"judged{number}", world, number) for number in range(3)]
    for site, lines in zip(sites, (GIVES[0], GIVES[1] + SPENDS, GIVES[2])):
        program.run(["serve", site.folder, "--trace"], lines.encode())
    folders = [site.folder for site in sites]
    for number, old, new, told in TAMPERED:
        path = f"judged{number}/trace"
        kept = files_of(sites[number].folder)["trace"].decode()
        if kept.count(old) != 1 and old:
            raise Fault(f"{path}: {old} stands {kept.count(old)} times in {kept}")
        program.file(path, kept.replace(old, new) if old else kept)
        judged, audited = program.run(["judge", *reversed(folders)]), judged_by_audit(program, folders)
        is_told = judged[1] == f"{told}\n" or judged[2].startswith(f"escrow_site: {told}")
        if judged != audited or not is_told:
            raise Fault(f"{new}: judged {judged}, and audited {audited}")
        program.file(path, kept)


def refuse_second(program: Program) -> None:
    site = program.created("second")
    how = {"stdin": subprocess.PIPE, "stdout": subprocess.PIPE, "env": {}}
    process = program.children.start([program.path, "serve", site.folder], **how)
    try:
        process.stdout.readline()
        refuses(program, site, ["serve"], 6, f"{site.folder}/log: in use: another process serves it")
        status, out, err = program.run(["show", site.folder])
        if status or err or "epoch 1\n" not in out:
            raise Fault(f"{site.folder}: shown while served: {status}, {out!r}, {err!r}")
    finally:
        program.children.end(process)


MISUSES = (
    refuse_command_lines,
    tell_versions,
    refuse_schemas,
    tell_worlds_apart,
    refuse_folders,
    refuse_logs,
    keep_closed_batches,
    refuse_exchanged,
    refuse_old_copy,
    refuse_marked_copy,
    refuse_files_as_folders,
    refuse_output_in_a_folder,
    refuse_output_of_any_line,
    refuse_folder_lists,
    refuse_worlds,
    refuse_two_faults,
    refuse_each_three,
    refuse_too_much,
    refuse_traces,
    refuse_old_trace,
    refuse_traced_logs,
    judge_worlds,
    cut_traces,
    refuse_second,
)
