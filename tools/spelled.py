"""The words and numbers of commands, replies and refusals: one table, and where another place differs from it.

The table is made of the definitions to which every crate is proved: the words of crates/entry_text/specs/Spelling.antt, and
the numbers of crates/escrow_c/specs/Numbers.antt. By hand they stand in the header for C, the clients, the benches, the
tools and docs/FORMATS.md, each of which `faults` compares, by name. Python's standard library alone.
"""
from __future__ import annotations

import re
from collections.abc import Iterator, Mapping
from typing import NamedTuple

from sources import text_of, tracked

SPELLING = "crates/entry_text/specs/Spelling.antt"
NUMBERS = "crates/escrow_c/specs/Numbers.antt"
REMARKS = {16: "no statement"}
"""What `run` alone refuses, which no site does (crates/escrow_run/specs/Text.antt)."""


class Row(NamedTuple):
    name: str
    """As the type of Rust has it."""
    number: int
    words: str
    told: tuple[str, ...]
    """What stands behind the words, as the definition calls it."""

    @property
    def upper(self) -> str:
        return re.sub(r"(?<=[a-z])(?=[A-Z])", "_", self.name).upper()


class Tables(NamedTuple):
    commands: dict[str, Row]
    replies: dict[str, Row]
    refusals: dict[str, Row]


def equations(file: str, function: str) -> dict[str, tuple[list[str], str]]:
    """By a definition's first constructor what that binds, and the right side."""
    text = re.sub(r"\n +", " ", re.sub(r"--.*", "", text_of(file)))
    found = re.findall(rf"^{function} (?:schema )?(?:\((\w+)([^)]*)\)|(\w+)) = (.*)$", text, re.M)
    return {name or bare: (bound.split(), right) for name, bound, bare, right in found}


def words_of(function: str) -> dict[str, tuple[str, tuple[str, ...]]]:
    """The words of each variant, and what is told behind them."""
    found = {}
    for name, (_, right) in equations(SPELLING, function).items():
        parts = [it.strip() for it in right.split("∷")]
        spelled = [it.split('"')[1] for it in parts if it.startswith("codes ")]
        found[name] = " ".join(spelled), tuple(it.split(" ", 1)[1] for it in parts if not it.startswith(("codes ", "[]")) and " " in it)
    return found


def numbers_of(function: str) -> dict[str, int]:
    """The first number on the right side of each variant's equation."""
    return {name: int(re.findall(r"(?<![\w.])\d+", right)[0]) for name, (_, right) in equations(NUMBERS, function).items()
            if re.search(r"(?<![\w.])\d+", right)}


def tables() -> Tables:
    asks, answers, codes = numbers_of("ask_of"), numbers_of("answer_of"), numbers_of("refusal_answer")
    answers["Refused"] = int(re.findall(r"kind = (\d+); code", text_of(NUMBERS))[-1])
    commands = {it: Row(it, asks.get(it, 0), *told) for it, told in words_of("command_words").items()}
    replies = {it: Row(it, answers.get(it, 0), *told) for it, told in words_of("reply_words").items()}
    refusals = {it: Row(it, codes.get(it, 0), words.partition(" ")[2], told)
                for it, (words, told) in words_of("refusal_words").items()}
    return Tables(commands, replies, refusals)


def differing(place: str, what: str, there: Mapping[str, object], due: Mapping[str, object]) -> Iterator[str]:
    """What a place has of each name, where the table has another."""
    for name in sorted({*there, *due}):
        if there.get(name) != due.get(name):
            yield f"{place}: {what}{name} is {there.get(name, 'not there')}, and the definitions have {due.get(name, 'none')}"


def by_place(words: list[str]) -> dict[str, str]:
    return {str(at): word for at, word in enumerate(words) if at}


def ints(found: list[tuple[str, str]]) -> dict[str, int]:
    return {name: int(number) for name, number in found}


def list_behind(text: str, behind: str) -> str:
    """What the first list in braces or brackets behind a text has."""
    return re.split(r"[})]", text.partition(behind)[2], maxsplit=1)[0]


def array(text: str, behind: str) -> list[str]:
    """The texts of the first list in braces or brackets behind a text."""
    return re.findall(r'"([^"]*)"', list_behind(text, behind))


def array_of_c(text: str, behind: str, rows: dict[str, Row]) -> dict[str, str]:
    """The texts of an array of C by their places, of which one may be named: `[ESCROW_SHARE] = "share"`."""
    numbers, words, at = {f"ESCROW_{it.upper}": it.number for it in rows.values()}, dict[str, str](), 0
    for name, word in re.findall(r'(?:\[(\w+)\] = )?"([^"]*)"', list_behind(text, behind)):
        at = numbers.get(name, 0) if name else at
        words[str(at)] = word
        at += 1
    return words


def in_order(rows: dict[str, Row]) -> list[str]:
    return ["", *(it.words for it in sorted(rows.values(), key=lambda row: row.number))]


def faults_of_definitions(made: Tables) -> Iterator[str]:
    spelled = {name: int(words.partition(" ")[0]) for name, (words, _) in words_of("refusal_words").items()}
    yield from differing(NUMBERS, "refusal ", {it.name: it.number for it in made.refusals.values()}, spelled)
    for rows in made[:2]:
        if sorted(it.number for it in rows.values()) != list(range(1, len(rows) + 1)):
            yield f"{NUMBERS}: the numbers of {', '.join(rows)} aren't 1 to {len(rows)}"


def faults_of_c(made: Tables) -> Iterator[str]:
    header, calls = text_of("include/escrow.h"), text_of("clients/c/random_calls.c")
    bare = re.sub(r"/\*.*?\*/", "", header, flags=re.S)
    for rows, last in ((made.commands, "RESTART"), (made.replies, "REFUSED")):
        enum = next(it for it in re.findall(r"enum \{(.*?)\}", bare, re.S) if f"ESCROW_{last} " in it)
        there = ints(re.findall(r"ESCROW_(\w+) = (\d+)", enum))
        yield from differing("include/escrow.h", "ESCROW_", there, {it.upper: it.number for it in rows.values()})
    told = ints([(name, number) for number, name in re.findall(r"of (\d+) the (\w+)", " ".join(header.split()))])
    telling = {it.told[0]: it.number for it in made.refusals.values() if it.told}
    yield from differing("include/escrow.h", "what a refusal tells, ", told, telling)
    codes = sorted(int(it) for it in re.findall(r"answer->code == (\d+)", calls.partition("static void spell_reply")[0]))
    if codes != sorted(telling.values()):
        yield f"clients/c/random_calls.c: refusals {codes} tell a number, and the definitions have {sorted(telling.values())}"
    for function, rows in (("spell(", made.commands), ("spell_refusal(", made.refusals), ("spell_reply(", made.replies)):
        due = {str(it.number): it.words for it in rows.values() if it.words != "refused"}
        words = array_of_c(calls.partition(f"static void {function}")[2], "words[] = {", rows)
        yield from differing("clients/c/random_calls.c", f"{function}..): word ", words, {"0": "", **due})


def faults_of_rust(made: Tables) -> Iterator[str]:
    place = "clients/rust/escrow/src/raw.rs"
    text = text_of(place)
    asked = ints(re.findall(r"Command::(\w+)[^=]*=>[^\d]*?(?:plain|of_txn|of_rights)\((\d+)", text))
    yield from differing(place, "command ", asked, {it.name: it.number for it in made.commands.values()})
    codes = ints([(name, number) for number, name in re.findall(r"(\d+) => Refusal::(\w+)", text)])
    yield from differing(place, "refusal ", codes, {it.name: it.number for it in made.refusals.values()})
    telling = dict(re.findall(r"=> Refusal::(\w+) \{ (\w+):", text))
    yield from differing(place, "what a refusal tells, ", telling, {it.name: it.told[0] for it in made.refusals.values() if it.told})
    kinds = ints([(name, number) for number, name in re.findall(r"(\d+) => Reply::(\w+)", text)])
    due = {it.name: it.number for it in made.replies.values() if it.name not in ("Unsure", "StillDown")}
    yield from differing(place, "reply ", kinds, due)
    place = "bench/plain/plain.rs"
    texts = re.findall(r'Refusal::(\w+)(?: \{ \w+ \})? => write!\(f, "(\d+ [a-z ]*\w)', text_of(place))
    yield from differing(place, "refusal ", dict(texts), {it.name: f"{it.number} {it.words}" for it in made.refusals.values()})
    plain = {it.name: f"{it.number} {it.words}" for it in made.refusals.values() if not it.told}
    audited = re.findall(r'"(\d+)" => \("([a-z ]+)", Refusal::(\w+)\)', text_of("bench/plain/audit.rs"))
    yield from differing("bench/plain/audit.rs", "refusal ", {name: f"{number} {words}" for number, words, name in audited}, plain)
    replies = dict(re.findall(r'Reply::(\w+)[^=]*=> write!\(f, "([a-z]+(?: [a-z]+)*)', text_of(place)))
    yield from differing(place, "reply ", replies, {it: made.replies[it].words for it in replies if it in made.replies})


def faults_of_python(made: Tables) -> Iterator[str]:
    place = "clients/python/escrow/errors.py"
    text = text_of(place)
    numbers = ints(re.findall(r"^    ([A-Z_]+) = (\d+)$", text, re.M))
    yield from differing(place, "Refusal.", numbers, {it.upper: it.number for it in made.refusals.values()})
    for row in made.refusals.values():
        if row.upper.lower().replace("_", " ") != row.words:
            yield f"{place}: Refusal.{row.upper} has the words of its name, and the definitions have {row.words}"
        if f"    Refusal.{row.upper}: " not in text:
            yield f"{place}: Refusal.{row.upper} has no advice"
    place = "clients/python/escrow/metrics.py"
    due = {it.words: it.number for it in made.refusals.values()}
    for number, words in re.findall(r'\("\w+", (\d+), "([a-z ]+)"\)', text_of(place)):
        if due.get(words) != int(number):
            yield f"{place}: WATCHED has {number} {words}, and the definitions have {due.get(words, 'none')}"
    place = "clients/python/escrow_native/site.py"
    text = text_of(place)
    yield from differing(place, "_WORDS: word ", by_place(array(text, "_WORDS = (")), by_place(in_order(made.commands)))
    names = re.findall(r"^([A-Z, ]+) = range\(1, (\d+)\)$", text, re.M)
    upper = ", ".join(it.upper for it in sorted(made.commands.values(), key=lambda row: row.number))
    if names != [(upper, str(len(made.commands) + 1))]:
        yield f"{place}: the numbers of commands are of {names}, and the definitions have {upper}"
    if f"\nREFUSED = {made.replies['Refused'].number}\n" not in text:
        yield f"{place}: REFUSED isn't {made.replies['Refused'].number}"
    telling = ", ".join(f"Refusal.{it.upper}" for it in made.refusals.values() if it.told)
    if f"\n_TELLING = ({telling})\n" not in text:
        yield f"{place}: _TELLING isn't ({telling})"
    place = "clients/python/escrow/door/plan.py"        # a door begins and restarts by itself
    passed = {it.words: "passed" for it in made.commands.values() if "txn" not in it.told and it.name not in ("Begin", "Restart")}
    yield from differing(place, "", {it: "passed" for it in array(text_of(place), "PASSED = frozenset((")}, passed)
    place = "clients/python/escrow_board/refusals.py"
    expected = made.refusals["NothingGiven"]
    if f'\nEXPECTED = "{expected.number} {expected.words}"\n' not in text_of(place):
        yield f"{place}: EXPECTED isn't {expected.number} {expected.words}"
    at = ints(re.findall(r'"(\w+)": (\d)', text_of(place).partition("FIELD_AT = {")[2].partition("}")[0]))
    yield from differing(place, "the place of the field of ", at, field_places(made))


def field_places(made: Tables) -> dict[str, int]:
    """By a command's word how many words stand in front of its field."""
    ends = {row.words: [it.startswith("schema ") for it in row.told] for row in made.commands.values()}
    return {word: fields.index(True) + 1 for word, fields in ends.items() if True in fields}


def faults_of_words(made: Tables) -> Iterator[str]:
    """Places that have words alone."""
    place = "crates/request_lines/src/line_fault.rt"
    there = re.findall(r'is_text\(name, "(\w+)"\)', text_of(place))
    yield from differing(place, "", {it: "a command" for it in there}, {it.words: "a command" for it in made.commands.values()})
    place = "tools/trace_entries.py"
    for name, rows in (("COMMANDS", made.commands), ("REPLIES", made.replies)):
        text = text_of(place).partition(f"\n{name} = (")[2].partition(")\n")[0]
        there = re.findall(r'"([a-z]+(?: [a-z]+)*)', text)
        yield from differing(place, f"{name}: ", {it: "there" for it in there}, {it.words: "there" for it in rows.values()})
    place = "crates/escrow/src/main.rt"                 # a script has no `accept`: `deliver` is its line
    told = re.findall(r"^  SITE (\w+)", text_of(place), re.M)
    due = {it.words: "in the help" for it in made.commands.values() if it.name != "Accept"}
    yield from differing(place, "", {it: "in the help" for it in told}, due)


def faults_of_formats(made: Tables) -> Iterator[str]:
    place = "docs/FORMATS.md"
    text = text_of(place)
    spans = re.findall(r"`([^`\n]+)`", text)
    of_commands = re.findall(r"`([^`\n]+)`", text.partition("\n## Commands\n")[2].partition("\n## ")[0])
    for row in made.commands.values():
        if not any(re.match(rf"SITE {row.words}\b", it) for it in of_commands):
            yield f"{place}: has no command `SITE {row.words}`"
    for row in made.replies.values():
        if row.name != "Refused" and not any(re.match(rf"{row.words}\b", it) for it in of_commands):
            yield f"{place}: has no reply `{row.words}`"
    told = [re.fullmatch(r"(\d+) ([a-z]+(?: [a-z]+)*)(?: [A-Z]+)?", it) for it in spans]
    due = {it.words: it.number for it in made.refusals.values()}
    rows = {it[2]: int(it[1]) for it in told if it and it[2] in due}
    yield from differing(place, "refusal ", rows, due)
    asked = re.findall(r"^(`.*?) \|", text.partition("\nUnanswered | ")[2].partition("\n\n")[0], re.M)
    there = [it for row in asked for it in re.findall(r"`([a-z]+)", row) if it != "kept"]
    yield from differing(place, "what is unanswered: ", {it: "there" for it in there}, {it.words: "there" for it in made.commands.values()})


def faults_of_texts(made: Tables) -> Iterator[str]:
    """A refusal with a number and other words than it has, in any file but a wrong body and what tests of bad lines have."""
    words = {it.number: it.words for it in made.refusals.values()} | REMARKS
    for file in tracked(("docs/", "crates/", "clients/", "bench/", "examples/", "include/", "tools/", ".ci/", "README.md")):
        if "/must-fail/" in file or file == "crates/judge_tests/src/of_escrow_audit.rt":
            continue
        for number, told in re.findall(r"\brefused ([1-9]\d*) ([a-z]+(?: [a-z]+)*)", text_of(file)):
            due = words.get(int(number), "")
            if not due or not (told + " ").startswith(due + " ") and not (due + " ").startswith(told + " "):
                yield f"{file}: 'refused {number} {told}', and the definitions have '{due or 'none'}'"


def faults() -> list[str]:
    made = tables()
    parts = (faults_of_definitions, faults_of_c, faults_of_rust, faults_of_python, faults_of_words, faults_of_formats, faults_of_texts)
    return [fault for part in parts for fault in part(made)]
