/* Random calls to the sites of a world, and the same as a script for `escrow run`:
 *
 *     random_calls COUNT SEED SCRIPT ANSWERS
 *
 * makes some COUNT calls at three sites, by numbers and by lines, with statements that come late, twice or never,
 * with lines that ask nothing, and with sites that are closed and opened over their logs with a torn end. SCRIPT gets
 * the same as lines, and ANSWERS what a run of that script has to write, spelled from what the library answered. Status
 * 1 where an answer contradicts another; else who called compares ANSWERS with what `escrow run` writes. */
#include "../../include/escrow.h"
#include <inttypes.h>
#include <stdio.h>
#include <stdlib.h>
#include <string.h>

enum { SITES = 3, FIELDS = 3, KNOWN = 80, LINE = 320 };

static const char header[] =
    "{\"sites\":3,\"fields\":[{\"name\":\"stock\",\"floor\":0,\"ceiling\":4000,\"value\":1500},"
    "{\"name\":\"cash\",\"floor\":-900,\"ceiling\":900,\"value\":0},"
    "{\"name\":\"seats\",\"floor\":0,\"ceiling\":60,\"value\":30}]}";
static const char *const names[FIELDS] = {"stock", "cash", "seats"};
static const char *const kinds[] = {"lower", "raise"};

typedef struct {
    escrow_handle handle;
    uint8_t *log; /* what a file of its log would have */
    size_t length, room;
    struct {
        uint32_t epoch, number;
    } known[KNOWN]; /* transactions, of which some have ended */
    size_t count;
} site;

typedef struct {
    uint16_t from, to, field;
    uint32_t right;
    uint64_t total;
} statement;

static site sites[SITES];
static statement *issued;
static size_t issues, issue_room;
static FILE *script, *answers;
static uint64_t seed;

static void fail(const char *why, uint64_t told) {
    fprintf(stderr, "random_calls: %s (%" PRIu64 ")\n", why, told);
    exit(1);
}

static uint64_t draw(uint64_t below) {
    seed ^= seed << 13;
    seed ^= seed >> 7;
    seed ^= seed << 17;
    return seed % below;
}

/* ---- the log of a site, as a host keeps it */

static void keep(site *at, const uint8_t *bytes, size_t count) {
    if (at->length + count >= at->room) {
        at->room = 2 * (at->length + count) + 64;
        at->log = realloc(at->log, at->room);
        if (!at->log) fail("out of memory", at->room);
    }
    memcpy(at->log + at->length, bytes, count);
    at->length += count;
}

/* Takes what was added to the log, in pieces of any size. */
static void take_added(site *at) {
    size_t all, copied;
    if (escrow_site_log_length(&at->handle, &all) || all < at->length) fail("the log has shrunk", all);
    while (at->length < all) {
        uint8_t piece[700];
        size_t room = draw(8) ? sizeof piece : 1 + draw(20);
        size_t left = all - at->length;
        if (escrow_site_log(&at->handle, at->length, piece, room, &copied)) fail("no log", at->length);
        if (copied != (left < room ? left : room)) fail("so many bytes were copied", copied);
        keep(at, piece, copied);
    }
}

static void open_site(uint16_t number, size_t torn) {
    site *at = &sites[number];
    size_t kept, copied, length = at->length;
    uint64_t line;
    keep(at, (const uint8_t *)"C 0 1 0 -2", torn);
    uint32_t status = escrow_site_open(&at->handle, (const uint8_t *)header, sizeof header - 1, number, at->log,
                                       at->length, &kept, &line);
    if (status || kept != length || line) fail("not opened", status);
    at->length = kept;
    uint8_t *back = malloc(kept + 1);
    if (!back || escrow_site_log(&at->handle, 0, back, kept + 1, &copied) || copied != kept ||
        memcmp(back, at->log, kept))
        fail("another log", copied);
    free(back);
}

/* ---- the text of commands and replies */

static int field_text(char *out, uint16_t field) {
    return field < FIELDS ? sprintf(out, "%s", names[field]) : sprintf(out, "#%u", field);
}

static void spell(char *out, uint16_t number, const escrow_ask *ask) {
    static const char *const words[] = {"",      "begin",   "escrow", "commit", "abort", "give",   "restate",
                                        "spare", "tighten", "accept", "read",   "share", "restart"};
    out += sprintf(out, "%u %s", number, words[ask->kind]);
    if (ask->kind >= ESCROW_ESCROW && ask->kind <= ESCROW_ABORT) out += sprintf(out, " %u.%u", ask->epoch, ask->number);
    if (ask->kind == ESCROW_ACCEPT) out += sprintf(out, " %u", ask->from);
    if (ask->kind >= ESCROW_GIVE && ask->kind <= ESCROW_ACCEPT && ask->kind != ESCROW_TIGHTEN)
        out += sprintf(out, " %u", ask->to);
    if (ask->kind == ESCROW_BEGIN || ask->kind == ESCROW_COMMIT || ask->kind == ESCROW_ABORT ||
        ask->kind == ESCROW_RESTART)
        return;
    *out++ = ' ';
    out += field_text(out, ask->field);
    if (ask->kind == ESCROW_ESCROW) out += sprintf(out, " %" PRId64, ask->change);
    if (ask->kind >= ESCROW_GIVE && ask->kind <= ESCROW_ACCEPT) out += sprintf(out, " %s", kinds[ask->right]);
    if (ask->kind >= ESCROW_GIVE && ask->kind <= ESCROW_ACCEPT && ask->kind != ESCROW_RESTATE)
        sprintf(out, " %" PRIu64, ask->amount);
}

static void spell_refusal(char *out, const escrow_answer *answer) {
    static const char *const words[] = {"",
                                        "down",
                                        "no site",
                                        "no field",
                                        "no transaction",
                                        "zero",
                                        "too large",
                                        "short",
                                        "self gift",
                                        "ledger full",
                                        "not yours",
                                        "forged",
                                        "too many open",
                                        "too many escrows",
                                        "numbers full",
                                        "nothing given"};
    out += sprintf(out, "refused %u %s", answer->code, words[answer->code]);
    if (answer->code == 7 || answer->code == 9 || answer->code == 11) sprintf(out, " %" PRIu64, answer->first);
}

static void spell_reply(char *out, const escrow_answer *answer) {
    static const char *const words[] = {"",        "begun",  "granted",   "committed", "aborted",
                                        "given",   "stated", "spared",    "tightened", "accepted",
                                        "between", "share",  "restarted", "unsure",    "still down"};
    static const char *const found[] = {"nothing", "kept", "lost"};
    if (answer->kind == ESCROW_REFUSED) {
        spell_refusal(out, answer);
        return;
    }
    out += sprintf(out, "%s", words[answer->kind]);
    switch (answer->kind) {
    case ESCROW_BEGUN: sprintf(out, " %" PRIu64 ".%" PRIu64, answer->first, answer->second); break;
    case ESCROW_SPARED:
    case ESCROW_SHARES: sprintf(out, " %" PRIu64 " %" PRIu64, answer->first, answer->second); break;
    case ESCROW_GIVEN:
    case ESCROW_STATED:
    case ESCROW_TIGHTENED:
    case ESCROW_ACCEPTED: sprintf(out, " %" PRIu64, answer->first); break;
    case ESCROW_BETWEEN: sprintf(out, " %" PRId64 " %" PRId64, answer->low, answer->high); break;
    case ESCROW_RESTARTED: sprintf(out, " %" PRIu64 " %s", answer->first, found[answer->code]); break;
    default: break;
    }
}

/* ---- the calls */

/* What a look answers has to be what the command answers. */
static void look(site *at, const escrow_ask *ask, const escrow_answer *answer, uint32_t status, int64_t low,
                 int64_t high) {
    if (answer->kind == ESCROW_REFUSED) {
        if (status != (answer->code == 1 ? ESCROW_DOWN : ESCROW_NO_FIELD))
            fail("another refusal than a look's", status);
    } else if (ask->kind == ESCROW_READ && (status || low != answer->low || high != answer->high)) {
        fail("another interval than a look's", status);
    } else if (ask->kind == ESCROW_SHARE &&
               (status || (uint64_t)low != answer->first || (uint64_t)high != answer->second)) {
        fail("another share than a look's", status);
    }
    (void)at;
}

/* Asks by numbers, or by a line with the answer in numbers, and spells the entry. */
static escrow_answer ask_numbers(site *at, const escrow_ask *ask, const char *line, int by_line) {
    escrow_answer answer;
    char text[LINE];
    uint64_t lower = 0, raise = 0;
    int64_t low = 0, high = 0;
    uint32_t looked = 0;
    if (ask->kind == ESCROW_READ) looked = escrow_site_interval(&at->handle, ask->field, &low, &high);
    if (ask->kind == ESCROW_SHARE) {
        looked = escrow_site_share(&at->handle, ask->field, &lower, &raise);
        low = (int64_t)lower;
        high = (int64_t)raise;
    }
    uint32_t status = by_line ? escrow_site_do(&at->handle, (const uint8_t *)line, strlen(line), &answer)
                              : escrow_site_ask(&at->handle, ask, &answer);
    if (status) fail("not asked", status);
    if (ask->kind == ESCROW_READ || ask->kind == ESCROW_SHARE) look(at, ask, &answer, looked, low, high);
    spell_reply(text, &answer);
    fprintf(answers, "%s -> %s\n", line, text);
    return answer;
}

/* Asks by a line, with the entry as text. Of its numbers the transaction and the total are read back. */
static escrow_answer ask_text(site *at, const char *line) {
    uint8_t text[ESCROW_TEXT + 1];
    escrow_answer answer = {0};
    size_t length;
    uint32_t status = escrow_site_tell(&at->handle, (const uint8_t *)line, strlen(line), text, ESCROW_TEXT, &length);
    if (status) fail("not told", status);
    text[length] = 0;
    fprintf(answers, "%s\n", text);
    const char *reply = strstr((const char *)text, " -> ") + 4;
    if (sscanf(reply, "begun %" SCNu64 ".%" SCNu64, &answer.first, &answer.second) == 2) answer.kind = ESCROW_BEGUN;
    if (sscanf(reply, "given %" SCNu64, &answer.first) == 1) answer.kind = ESCROW_GIVEN;
    if (sscanf(reply, "stated %" SCNu64, &answer.first) == 1) answer.kind = ESCROW_STATED;
    if (sscanf(reply, "spared %" SCNu64 " %" SCNu64, &answer.first, &answer.second) == 2) answer.kind = ESCROW_SPARED;
    return answer;
}

static void note_issue(uint16_t from, const escrow_ask *ask, uint64_t total) {
    if (issues == issue_room) {
        issue_room = 2 * issue_room + 64;
        issued = realloc(issued, issue_room * sizeof *issued);
        if (!issued) fail("out of memory", issue_room);
    }
    issued[issues++] = (statement){from, ask->to, ask->field, ask->right, total};
}

/* A transaction has ended: it is mostly named no more. */
static void forget(site *at, const escrow_ask *ask) {
    for (size_t place = 0; place < at->count; place++)
        if (at->known[place].epoch == ask->epoch && at->known[place].number == ask->number && draw(12))
            at->known[place] = at->known[--at->count];
}

/* Makes a call, notes what came of it, and takes what the log has got. */
static void call(uint16_t number, const escrow_ask *ask) {
    site *at = &sites[number];
    char line[LINE];
    spell(line, number, ask);
    uint64_t way = draw(3);
    escrow_answer answer = way == 2 ? ask_text(at, line) : ask_numbers(at, ask, line, way == 1);
    if (answer.kind == ESCROW_BEGUN) {
        size_t place = at->count < KNOWN ? at->count++ : draw(KNOWN);
        at->known[place].epoch = (uint32_t)answer.first;
        at->known[place].number = (uint32_t)answer.second;
    }
    if (answer.kind == ESCROW_GIVEN || answer.kind == ESCROW_STATED) note_issue(number, ask, answer.first);
    if (answer.kind == ESCROW_SPARED) note_issue(number, ask, answer.second);
    if (ask->kind == ESCROW_COMMIT || ask->kind == ESCROW_ABORT) forget(at, ask);
    if (ask->kind == ESCROW_RESTART) at->count = 0;
    take_added(at);
}

/* A line that asks nothing: the site says so, and is as it was. */
static void call_badly(uint16_t number) {
    static const char *const lines[] = {"",
                                        "begin",
                                        "0 begin ",
                                        "0  begin",
                                        "0 sell 0.1 stock -1",
                                        "x",
                                        "0 read",
                                        "0 read #1",
                                        "0 escrow 0.1 stock 01",
                                        "9 begin",
                                        "0 give 1 stock lower -1",
                                        "0 begin\r",
                                        "0 commit 1",
                                        "\xff\xfe",
                                        "0 tighten stock down 1"};
    char line[LINE];
    uint8_t text[ESCROW_TEXT];
    escrow_answer answer;
    size_t length;
    uint64_t which = draw(sizeof lines / sizeof *lines + 1);
    if (which == sizeof lines / sizeof *lines)
        memset(line, 'a', 300), line[300] = 0;
    else
        strcpy(line, lines[which]);
    size_t count = strlen(line);
    uint32_t status =
        draw(2) ? escrow_site_do(&sites[number].handle, (const uint8_t *)line, count, &answer)
                : escrow_site_tell(&sites[number].handle, (const uint8_t *)line, count, text, sizeof text, &length);
    if (status != ESCROW_NO_LINE && status != ESCROW_NO_COMMAND && status != ESCROW_OTHER_SITE)
        fail("a bad line was asked", which);
    if ((status == ESCROW_NO_LINE) != (count > 256 || (unsigned char)line[0] == 0xff))
        fail("another fault of a line", status);
    fprintf(script, "%s\n", line);
    fprintf(answers, "bad line\n");
}

/* ---- what is drawn */

static void draw_txn(site *at, escrow_ask *ask) {
    if (at->count && draw(40)) {
        size_t place = draw(4) ? at->count - 1 - draw(at->count < 6 ? at->count : 6) : draw(at->count);
        ask->epoch = at->known[place].epoch;
        ask->number = at->known[place].number;
    } else {
        ask->epoch = (uint32_t)draw(3);
        ask->number = (uint32_t)draw(5);
    }
}

static int64_t draw_change(void) {
    static const int64_t rare[] = {0, 2000000000000000, 2000000000000001, -2000000000000001, INT64_MIN, INT64_MAX};
    if (!draw(60)) return rare[draw(6)];
    int64_t size = (int64_t)(1 + draw(draw(3) ? 6 : 300));
    return draw(2) ? size : -size;
}

static uint64_t draw_amount(void) {
    static const uint64_t rare[] = {0, 2000000000000000, 2000000000000001, UINT64_MAX};
    return draw(60) ? 1 + draw(40) : rare[draw(4)];
}

static uint32_t draw_kind(void) {
    static const uint8_t shares[][2] = {{ESCROW_BEGIN, 34},  {ESCROW_ESCROW, 68}, {ESCROW_COMMIT, 98},
                                        {ESCROW_ABORT, 106}, {ESCROW_GIVE, 118},  {ESCROW_RESTATE, 124},
                                        {ESCROW_SPARE, 132}, {ESCROW_READ, 144},  {ESCROW_SHARE, 154}};
    uint64_t drawn = draw(154);
    size_t place = 0;
    while (drawn >= shares[place][1]) place++;
    return shares[place][0];
}

/* Makes a call that is a line of the script as well. */
static void call_line(uint16_t number, const escrow_ask *ask) {
    char line[LINE];
    spell(line, number, ask);
    fprintf(script, "%s\n", line);
    call(number, ask);
}

/* A command of a site, which isn't an acceptance; now and then one transaction sets aside until it may no more. */
static void call_any(uint16_t number) {
    escrow_ask ask = {.kind = draw_kind(),
                      .right = (uint32_t)draw(2),
                      .to = (uint16_t)(draw(30) ? draw(SITES) : SITES + draw(3)),
                      .field = (uint16_t)(draw(40) ? draw(FIELDS) : FIELDS + draw(3)),
                      .amount = draw_amount(),
                      .change = draw_change()};
    if (!draw(4000)) ask.kind = ESCROW_RESTART;
    if (!draw(20000)) ask = (escrow_ask){.kind = ESCROW_TIGHTEN, .right = ask.right, .amount = 1 + draw(3), .field = 0};
    draw_txn(&sites[number], &ask);
    int times = ask.kind == ESCROW_ESCROW && !draw(400) ? 17 : 1;
    if (times > 1) ask.change = draw(2) ? 1 : -1;
    while (times--) call_line(number, &ask);
}

/* A statement comes to its receiver, late or again. */
static void deliver(void) {
    size_t place = draw(3) ? issues - 1 - draw(issues < 20 ? issues : 20) : draw(issues);
    statement it = issued[place];
    escrow_ask ask = {
        .kind = ESCROW_ACCEPT, .right = it.right, .field = it.field, .from = it.from, .to = it.to, .amount = it.total};
    fprintf(script, "deliver %zu\n", place + 1);
    call(it.to, &ask);
}

/* A site is closed, and opened over its log, as after a stop. */
static void reopen(uint16_t number) {
    escrow_ask ask = {.kind = ESCROW_RESTART};
    int64_t low, high;
    if (escrow_site_close(&sites[number].handle) || escrow_site_close(&sites[number].handle) != ESCROW_CLOSED)
        fail("not closed", number);
    open_site(number, draw(11));
    uint32_t status = escrow_site_interval(&sites[number].handle, 0, &low, &high);
    if (status != (sites[number].length ? ESCROW_DOWN : ESCROW_DONE)) fail("up before its restart", status);
    call_line(number, &ask);
}

int main(int count, char **words) {
    if (count != 5) return 2;
    uint64_t calls = strtoull(words[1], 0, 10), number;
    seed = 88172645463325252u + 2654435761u * strtoull(words[2], 0, 10);
    script = fopen(words[3], "w");
    answers = fopen(words[4], "w");
    if (!script || !answers) return 2;
    fprintf(script, "%s\n", header);
    fprintf(answers, "%s\n", header);
    for (number = 0; number < SITES; number++) open_site((uint16_t)number, 0);
    for (uint64_t made = 0; made < calls; made++) {
        uint16_t at = (uint16_t)draw(SITES);
        uint64_t drawn = draw(100);
        if (!draw(calls / 20 + 1))
            reopen(at);
        else if (!drawn)
            call_badly(at);
        else if (drawn < 20 && issues)
            deliver();
        else
            call_any(at);
    }
    for (number = 0; number < SITES; number++) {
        if (escrow_site_close(&sites[number].handle)) fail("not closed", number);
        free(sites[number].log);
    }
    free(issued);
    return fclose(script) || fclose(answers) ? 2 : 0;
}
