/* How fast a site answers: rounds COUNT makes so many rounds of begin, escrow and commit on one field, by numbers, and
 * then a tenth of them by lines, and tells how many a second. Status 1 where an answer isn't what it has to be. */
#include "../../include/escrow.h"
#include <stdio.h>
#include <stdlib.h>
#include <string.h>
#include <time.h>

static const char header[] =
    "{\"sites\":1,\"fields\":[{\"name\":\"stock\",\"floor\":0,\"ceiling\":1000000,\"value\":500000}]}";

static double now(void) {
    struct timespec at;
    clock_gettime(CLOCK_MONOTONIC, &at);
    return (double)at.tv_sec + 1e-9 * (double)at.tv_nsec;
}

static int round_by_numbers(escrow_handle *site, int64_t change) {
    escrow_answer answer;
    escrow_ask ask = {.kind = ESCROW_BEGIN};
    if (escrow_site_ask(site, &ask, &answer) || answer.kind != ESCROW_BEGUN) return 0;
    ask = (escrow_ask){
        .kind = ESCROW_ESCROW, .epoch = (uint32_t)answer.first, .number = (uint32_t)answer.second, .change = change};
    if (escrow_site_ask(site, &ask, &answer) || answer.kind != ESCROW_GRANTED) return 0;
    ask.kind = ESCROW_COMMIT;
    return !escrow_site_ask(site, &ask, &answer) && answer.kind == ESCROW_COMMITTED;
}

static size_t tell(escrow_handle *site, const char *line, size_t count, char *text) {
    size_t length;
    if (escrow_site_tell(site, (const uint8_t *)line, count, (uint8_t *)text, ESCROW_TEXT, &length)) exit(1);
    text[length] = 0;
    return length;
}

static int round_by_lines(escrow_handle *site, int64_t change) {
    char line[80], text[ESCROW_TEXT + 1], id[32];
    tell(site, "0 begin", 7, text);
    strcpy(id, text + 17);
    tell(site, line, (size_t)sprintf(line, "0 escrow %s stock %ld", id, (long)change), text);
    return tell(site, line, (size_t)sprintf(line, "0 commit %s", id), text) && strstr(text, "-> committed");
}

static void measure(const char *how, long rounds, int (*round)(escrow_handle *, int64_t)) {
    escrow_handle site = {0};
    size_t kept, length;
    uint64_t line;
    long right = 0;
    if (escrow_site_open(&site, (const uint8_t *)header, sizeof header - 1, 0, (const uint8_t *)"", 0, &kept, &line))
        exit(1);
    double began = now();
    for (long made = 0; made < rounds; made++) right += round(&site, made % 2 ? 20 : -20);
    double took = now() - began;
    if (right != rounds || escrow_site_log_length(&site, &length) || escrow_site_close(&site)) exit(1);
    printf("by %s: %ld rounds, %.0f a second, %.0f calls a second, log %zu bytes\n", how, rounds, (double)rounds / took,
           3 * (double)rounds / took, length);
}

int main(int count, char **words) {
    long rounds = count > 1 ? atol(words[1]) : 1000000;
    measure("numbers", rounds, round_by_numbers);
    measure("lines", rounds / 10 + 1, round_by_lines);
    return 0;
}
