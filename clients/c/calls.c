/* Each call of escrow.h once, and each fault that it can tell; status 1 where one isn't as typed here. */
#include "../../include/escrow.h"
#include <stdio.h>
#include <stdlib.h>
#include <string.h>

_Static_assert(sizeof(escrow_handle) == 16 && sizeof(escrow_ask) == 40 && sizeof(escrow_answer) == 40, "sizes");

static const char header[] = "{\"sites\":2,\"fields\":[{\"name\":\"stock\",\"floor\":0,\"ceiling\":100,\"value\":40}]}";
static int faults;

static void expect(int is_so, const char *what, int line) {
    if (is_so) return;
    fprintf(stderr, "calls.c:%d: not so: %s\n", line, what);
    faults++;
}
#define EXPECT(it) expect((it), #it, __LINE__)

static uint32_t open_site(escrow_handle *handle, const char *told, uint16_t site, const char *log, size_t *kept,
                          uint64_t *line) {
    return escrow_site_open(handle, (const uint8_t *)told, strlen(told), site, (const uint8_t *)log, strlen(log), kept,
                            line);
}

/* Whether a line is told with this status and this text. */
static int tells(escrow_handle *handle, const char *line, uint32_t status, const char *text) {
    uint8_t room[ESCROW_TEXT];
    size_t length = 7;
    uint32_t told = escrow_site_tell(handle, (const uint8_t *)line, strlen(line), room, sizeof room, &length);
    return told == status && length == strlen(text) && !memcmp(room, text, length);
}

/* Whether the log is this text. */
static int has_log(escrow_handle *handle, const char *text) {
    uint8_t room[4096];
    size_t copied, length;
    memset(room, 1, sizeof room);
    return !escrow_site_log(handle, 0, room, sizeof room, &copied) && !escrow_site_log_length(handle, &length) &&
           length == copied && copied == strlen(text) && !memcmp(room, text, copied) && room[copied] == 1;
}

static void of_a_closed_handle(void) {
    escrow_handle handle = {0};
    escrow_answer answer = {.kind = 77};
    escrow_ask ask = {.kind = ESCROW_BEGIN};
    uint8_t room[ESCROW_TEXT];
    size_t length = 5;
    int64_t low = 5, high = 6;
    uint64_t lower = 5, raise = 6;
    EXPECT(escrow_site_ask(&handle, &ask, &answer) == ESCROW_CLOSED && answer.kind == 77);
    EXPECT(escrow_site_do(&handle, (const uint8_t *)"0 begin", 7, &answer) == ESCROW_CLOSED && answer.kind == 77);
    EXPECT(tells(&handle, "0 begin", ESCROW_CLOSED, ""));
    EXPECT(escrow_site_log_length(&handle, &length) == ESCROW_CLOSED && length == 0);
    EXPECT(escrow_site_log(&handle, 0, room, sizeof room, &length) == ESCROW_CLOSED && length == 0);
    EXPECT(escrow_site_interval(&handle, 0, &low, &high) == ESCROW_CLOSED && low == 5 && high == 6);
    EXPECT(escrow_site_share(&handle, 0, &lower, &raise) == ESCROW_CLOSED && lower == 5 && raise == 6);
    EXPECT(escrow_site_close(&handle) == ESCROW_CLOSED);
}

static void of_an_opening(void) {
    escrow_handle handle = {0};
    size_t kept = 9;
    uint64_t line = 9;
    EXPECT(open_site(&handle, "{}", 0, "", &kept, &line) == ESCROW_NO_SCHEMA && kept == 0 && line == 0);
    EXPECT(open_site(&handle, header, 2, "", &kept, &line) == ESCROW_NO_SITE && kept == 0 && line == 0);
    EXPECT(open_site(&handle, header, 0, "C 0 1 0 -20\nx\n", &kept, &line) == ESCROW_BAD_LOG && kept == 0 && line == 2);
    EXPECT(open_site(&handle, header, 0, "C 0 1 0 -21\n", &kept, &line) == ESCROW_BAD_LOG && line == 1);
    EXPECT(escrow_site_close(&handle) == ESCROW_CLOSED);
    EXPECT(open_site(&handle, header, 0, "C 0 1 0 -20\nC 0 2", &kept, &line) == ESCROW_DONE && kept == 12 && line == 0);
    EXPECT(has_log(&handle, "C 0 1 0 -20\n"));
    EXPECT(open_site(&handle, header, 0, "", &kept, &line) == ESCROW_IS_OPEN && kept == 0 && line == 0);
    EXPECT(has_log(&handle, "C 0 1 0 -20\n"));
    EXPECT(tells(&handle, "0 read stock", ESCROW_DONE, "0 read stock -> refused 1 down"));
    EXPECT(tells(&handle, "0 restart", ESCROW_DONE, "0 restart -> restarted 1 nothing"));
    EXPECT(tells(&handle, "0 read stock", ESCROW_DONE, "0 read stock -> between 0 50"));
    EXPECT(escrow_site_close(&handle) == ESCROW_DONE && escrow_site_close(&handle) == ESCROW_CLOSED);
}

static void of_numbers(escrow_handle *handle) {
    escrow_answer answer;
    escrow_ask ask = {.kind = ESCROW_BEGIN};
    EXPECT(escrow_site_ask(handle, &ask, &answer) == ESCROW_DONE && answer.kind == ESCROW_BEGUN);
    EXPECT(answer.code == 0 && answer.first == 0 && answer.second == 1 && answer.low == 0 && answer.high == 0);
    ask = (escrow_ask){.kind = ESCROW_ESCROW, .number = 1, .change = -21};
    EXPECT(!escrow_site_ask(handle, &ask, &answer) && answer.kind == ESCROW_REFUSED && answer.code == 7 &&
           answer.first == 20);
    ask.change = -20;
    EXPECT(!escrow_site_ask(handle, &ask, &answer) && answer.kind == ESCROW_GRANTED && answer.first == 0);
    ask = (escrow_ask){.kind = ESCROW_READ, .field = 0, .right = 9};
    EXPECT(!escrow_site_ask(handle, &ask, &answer) && answer.kind == ESCROW_BETWEEN && answer.low == 20 &&
           answer.high == 70);
    ask = (escrow_ask){.kind = ESCROW_COMMIT, .number = 1};
    EXPECT(has_log(handle, "") && !escrow_site_ask(handle, &ask, &answer) && answer.kind == ESCROW_COMMITTED);
    EXPECT(has_log(handle, "C 0 1 0 -20\n"));
    ask = (escrow_ask){.kind = ESCROW_GIVE, .to = 1, .right = ESCROW_RAISE, .amount = 7};
    EXPECT(!escrow_site_ask(handle, &ask, &answer) && answer.kind == ESCROW_GIVEN && answer.first == 7);
    ask = (escrow_ask){.kind = ESCROW_ACCEPT, .from = 1, .to = 1, .right = ESCROW_LOWER, .amount = 3};
    EXPECT(!escrow_site_ask(handle, &ask, &answer) && answer.kind == ESCROW_REFUSED && answer.code == 10);
    ask.to = 0;
    EXPECT(!escrow_site_ask(handle, &ask, &answer) && answer.kind == ESCROW_ACCEPTED && answer.first == 3);
    ask.amount = 1000;
    EXPECT(!escrow_site_ask(handle, &ask, &answer) && answer.kind == ESCROW_REFUSED && answer.code == 11);
    ask.right = 2;
    answer.kind = 77;
    EXPECT(escrow_site_ask(handle, &ask, &answer) == ESCROW_NO_COMMAND && answer.kind == 77);
    ask = (escrow_ask){.kind = UINT32_MAX};
    EXPECT(escrow_site_ask(handle, &ask, &answer) == ESCROW_NO_COMMAND && answer.kind == 77);
}

static void of_lines(escrow_handle *handle) {
    char long_line[258];
    memset(long_line, 'a', 257);
    long_line[257] = 0;
    EXPECT(tells(handle, "0 spare 1 stock raise 9", ESCROW_DONE, "0 spare 1 stock raise 9 -> spared 9 16"));
    EXPECT(tells(handle, "0 tighten stock lower 1", ESCROW_DONE, "0 tighten stock lower 1 -> tightened 1"));
    EXPECT(
        tells(handle, "0 restate 1 stock lower", ESCROW_DONE, "0 restate 1 stock lower -> refused 15 nothing given"));
    EXPECT(tells(handle, "1 begin", ESCROW_OTHER_SITE, ""));
    EXPECT(tells(handle, "0 sell stock", ESCROW_NO_COMMAND, ""));
    EXPECT(tells(handle, "0 begin\n", ESCROW_NO_LINE, ""));
    EXPECT(tells(handle, "0 begin\xff", ESCROW_NO_LINE, ""));
    EXPECT(tells(handle, long_line, ESCROW_NO_LINE, ""));
    EXPECT(tells(handle, long_line + 1, ESCROW_NO_COMMAND, ""));
    EXPECT(tells(handle, "", ESCROW_NO_COMMAND, ""));
    uint8_t room[ESCROW_TEXT - 1];
    size_t length = 5;
    EXPECT(escrow_site_tell(handle, (const uint8_t *)"0 begin", 7, room, sizeof room, &length) == ESCROW_NO_ROOM &&
           length == 0);
    EXPECT(tells(handle, "0 begin", ESCROW_DONE, "0 begin -> begun 0.2"));
}

static void of_looks(escrow_handle *handle) {
    int64_t low, high;
    uint64_t lower, raise;
    uint8_t room[4] = {7, 7, 7, 7};
    size_t copied;
    EXPECT(!escrow_site_interval(handle, 0, &low, &high) && low == 3 && high == 66);
    EXPECT(!escrow_site_share(handle, 0, &lower, &raise) && lower == 2 && raise == 34);
    EXPECT(escrow_site_interval(handle, 1, &low, &high) == ESCROW_NO_FIELD && low == 3 && high == 66);
    EXPECT(escrow_site_share(handle, 1, &lower, &raise) == ESCROW_NO_FIELD && lower == 2 && raise == 34);
    EXPECT(has_log(handle, "C 0 1 0 -20\nG 1 0 r 7\nA 1 0 l 3\nG 1 0 r 16\nT 0 l 1\n"));
    EXPECT(!escrow_site_log(handle, 12, room, 3, &copied) && copied == 3 && !memcmp(room, "G 1\7", 4));
    EXPECT(!escrow_site_log(handle, 51, room, 4, &copied) && copied == 0 && room[0] == 'G');
    EXPECT(escrow_site_log(handle, 52, room, 4, &copied) == ESCROW_PAST_END && copied == 0);
}

int main(void) {
    escrow_handle handle = {0};
    size_t kept;
    uint64_t line;
    of_a_closed_handle();
    of_an_opening();
    EXPECT(open_site(&handle, header, 0, "", &kept, &line) == ESCROW_DONE && kept == 0);
    of_numbers(&handle);
    of_lines(&handle);
    of_looks(&handle);
    EXPECT(escrow_site_close(&handle) == ESCROW_DONE);
    of_a_closed_handle();
    return faults != 0;
}
