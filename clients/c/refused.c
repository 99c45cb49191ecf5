/* Every growth of memory refused in turn: each call of a site answers ESCROW_NO_MEMORY then, and the site is as it was,
 * beside a twin of which nothing was refused. To be linked with --wrap=malloc --wrap=realloc. Status 1 where it isn't
 * so. */
#include "../../include/escrow.h"
#include <stdio.h>
#include <stdlib.h>
#include <string.h>

static const char header[] =
    "{\"sites\":3,\"fields\":[{\"name\":\"stock\",\"floor\":0,\"ceiling\":9000,\"value\":4000},"
    "{\"name\":\"seats\",\"floor\":0,\"ceiling\":60,\"value\":30}]}";
static const char *const rows[] = {"begin",
                                   "escrow %s stock -3",
                                   "escrow %s seats 1",
                                   "escrow %s stock 2",
                                   "commit %s",
                                   "give 1 stock lower 4",
                                   "spare 2 seats raise 5",
                                   "restate 1 stock lower",
                                   "accept 1 0 stock raise 6",
                                   "tighten stock raise 1",
                                   "read stock",
                                   "share seats",
                                   "begin",
                                   "escrow %s stock -1",
                                   "abort %s",
                                   "sell 1"};
enum { ROWS = sizeof rows / sizeof *rows };

void *__real_malloc(size_t);
void *__real_realloc(void *, size_t);
void *__wrap_malloc(size_t bytes);
void *__wrap_realloc(void *block, size_t bytes);

static long refuse_at; /* which growth is refused, from 1, and 0 for none; each later one is too */
static long seen, refused;

static int is_refused(void) {
    if (!refuse_at || ++seen < refuse_at) return 0;
    refused++;
    return 1;
}

void *__wrap_malloc(size_t bytes) {
    return is_refused() ? 0 : __real_malloc(bytes);
}

void *__wrap_realloc(void *block, size_t bytes) {
    return is_refused() ? 0 : __real_realloc(block, bytes);
}

static void fail(const char *why, const char *where) {
    fprintf(stderr, "refused: %s: %s\n", why, where);
    exit(1);
}

static uint8_t *log_of(escrow_handle *handle, size_t *length) {
    size_t copied;
    if (escrow_site_log_length(handle, length)) fail("no log", "length");
    uint8_t *bytes = __real_malloc(*length + 1);
    if (escrow_site_log(handle, 0, bytes, *length, &copied) || copied != *length) fail("no log", "bytes");
    return bytes;
}

/* Whether two sites have the same log, and the same looks at both fields. */
static int are_same(escrow_handle *one, escrow_handle *other) {
    size_t length, others;
    uint8_t *bytes = log_of(one, &length), *more = log_of(other, &others);
    int same = length == others && !memcmp(bytes, more, length);
    for (uint16_t field = 0; field < 2; field++) {
        int64_t sums[4] = {0};
        uint64_t shares[4] = {0};
        same &= escrow_site_interval(one, field, &sums[0], &sums[1]) ==
                escrow_site_interval(other, field, &sums[2], &sums[3]);
        same &= escrow_site_share(one, field, &shares[0], &shares[1]) ==
                escrow_site_share(other, field, &shares[2], &shares[3]);
        same &= sums[0] == sums[2] && sums[1] == sums[3] && shares[0] == shares[2] && shares[1] == shares[3];
    }
    free(bytes);
    free(more);
    return same;
}

/* Tells a line; `text` has no room to fail for. */
static uint32_t tell(escrow_handle *handle, const char *line, char *text) {
    size_t length;
    uint32_t status =
        escrow_site_tell(handle, (const uint8_t *)line, strlen(line), (uint8_t *)text, ESCROW_TEXT, &length);
    text[length] = 0;
    return status;
}

/* Tells a line at a site of which each growth is refused in turn, until none is left, and then at its twin. */
static long tell_through(escrow_handle *site, escrow_handle *twin, const char *line, char *text) {
    char twins[ESCROW_TEXT + 1];
    long count = 0;
    uint32_t status;
    for (refuse_at = 1;; refuse_at++, count++) {
        seen = refused = 0;
        status = tell(site, line, text);
        long was_at = refuse_at, struck = refused;
        refuse_at = 0;
        if (!struck) break;
        if (status != ESCROW_NO_MEMORY) fail("refused, and another status", line);
        if (!are_same(site, twin)) fail("refused, and the site has changed", line);
        refuse_at = was_at;
    }
    refuse_at = 0;
    if (status != tell(twin, line, twins) || strcmp(text, twins)) fail("another answer than the twin's", line);
    if (!are_same(site, twin)) fail("not as the twin", line);
    return count;
}

static uint32_t open_site(escrow_handle *handle, const uint8_t *log, size_t length) {
    size_t kept;
    uint64_t line;
    return escrow_site_open(handle, (const uint8_t *)header, sizeof header - 1, 0, log, length, &kept, &line);
}

/* Opens a site, each growth refused in turn. */
static long open_through(escrow_handle *handle, const uint8_t *log, size_t length) {
    long count = 0;
    for (refuse_at = 1;; refuse_at++, count++) {
        seen = refused = 0;
        uint32_t status = open_site(handle, log, length);
        if (!refused && !status) break;
        if (status != ESCROW_NO_MEMORY) fail("refused, and another status", "open");
        long was_at = refuse_at;
        refuse_at = 0;
        if (escrow_site_close(handle) != ESCROW_CLOSED) fail("refused, and open", "open");
        refuse_at = was_at;
    }
    refuse_at = 0;
    return count;
}

/* Runs a script and judges what it answers, each growth refused in turn. */
static long texts_through(void) {
    static const char script[] =
        "{\"sites\":2,\"fields\":[{\"name\":\"stock\",\"floor\":0,\"ceiling\":100,\"value\":40}]}\n"
        "0 begin\n0 escrow 0.1 stock -20\n0 commit 0.1\n1 give 0 stock lower 5\ndeliver 1\n0 restart\n";
    uint8_t out[1024];
    size_t needed = 0, header = strcspn(script, "\n");
    uint64_t at;
    long count = 0;
    for (refuse_at = 1;; refuse_at++, count++) {
        seen = refused = 0;
        uint32_t status = escrow_run_text((const uint8_t *)script, sizeof script - 1, out, sizeof out, &needed);
        if (!refused && !status) break;
        if (status != ESCROW_NO_MEMORY || needed) fail("refused, and another status", "run_text");
    }
    for (refuse_at = 1;; refuse_at++, count++) {
        seen = refused = 0;
        uint32_t status = escrow_judge((const uint8_t *)script, header, out + header + 1, needed - header - 1, &at);
        if (!refused && !status) break;
        if (status != ESCROW_NO_MEMORY || at) fail("refused, and another status", "judge");
    }
    refuse_at = 0;
    return count;
}

int main(int count, char **words) {
    long rounds = count > 1 ? atol(words[1]) : 200, told = 0, opened = 0;
    escrow_handle site = {0}, twin = {0};
    char text[ESCROW_TEXT + 1], line[96], id[32] = "";
    opened += open_through(&site, (const uint8_t *)"", 0);
    if (open_site(&twin, (const uint8_t *)"", 0)) fail("not opened", "twin");
    for (long round = 0; round < rounds; round++) {
        for (int row = 0; row < ROWS; row++) {
            size_t start = (size_t)sprintf(line, "0 ");
            sprintf(line + start, rows[row], id);
            told += tell_through(&site, &twin, line, text);
            const char *begun = strstr(text, "begun ");
            if (begun) strcpy(id, begun + 6);
        }
        if (round % 50 == 49) told += tell_through(&site, &twin, "0 restart", text);
    }
    size_t length;
    uint8_t *log = log_of(&site, &length);
    escrow_site_close(&site);
    escrow_site_close(&twin);
    opened += open_through(&site, log, length);
    if (open_site(&twin, log, length)) fail("not opened", "twin");
    told += tell_through(&site, &twin, "0 restart", text);
    free(log);
    escrow_site_close(&site);
    escrow_site_close(&twin);
    printf("%ld growths refused in lines, %ld in openings, %ld in texts\n", told, opened, texts_through());
    return 0;
}
