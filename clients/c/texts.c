/* The two calls that keep nothing: texts SCRIPT RAN runs a script, of which RAN is what `escrow run` writes, and has
 * the entries judged; then it breaks the trace. Status 1 where anything isn't as it has to be. */
#include "../../include/escrow.h"
#include <inttypes.h>
#include <stdio.h>
#include <stdlib.h>
#include <string.h>

static void expect(int is_so, const char *what, int line) {
    if (is_so) return;
    fprintf(stderr, "texts.c:%d: not so: %s\n", line, what);
    exit(1);
}
#define EXPECT(it) expect((it), #it, __LINE__)

typedef struct {
    uint8_t *bytes;
    size_t length;
} text;

static text read_file(const char *name) {
    FILE *file = fopen(name, "rb");
    text it = {malloc(1 << 28), 0};
    if (!file || !it.bytes) exit(2);
    it.length = fread(it.bytes, 1, 1 << 28, file);
    fclose(file);
    return it;
}

static void run_script(text script, text ran) {
    size_t needed = 9;
    uint8_t *out = malloc(ran.length + 1);
    if (!out) exit(2);
    memset(out, 7, ran.length + 1);
    EXPECT(escrow_run_text(script.bytes, script.length, out, ran.length - 1, &needed) == ESCROW_NO_ROOM &&
           needed == ran.length);
    EXPECT(out[0] == 7);
    EXPECT(escrow_run_text(script.bytes, script.length, out, ran.length + 1, &needed) == ESCROW_DONE &&
           needed == ran.length);
    EXPECT(!memcmp(out, ran.bytes, ran.length) && out[ran.length] == 7);
    EXPECT(escrow_run_text(script.bytes, 3, out, ran.length, &needed) == ESCROW_NO_SCHEMA && needed == 0);
    free(out);
}

/* The entries of what a run wrote: its lines but for the header and the bad lines. */
static uint64_t entries_of(text ran, text *trace) {
    uint64_t count = 0;
    for (size_t at = (size_t)((uint8_t *)memchr(ran.bytes, '\n', ran.length) - ran.bytes) + 1; at < ran.length;) {
        size_t length = (size_t)((uint8_t *)memchr(ran.bytes + at, '\n', ran.length - at) - (ran.bytes + at)) + 1;
        if (length != 9 || memcmp(ran.bytes + at, "bad line", 8)) {
            memcpy(trace->bytes + trace->length, ran.bytes + at, length);
            trace->length += length;
            count++;
        }
        at += length;
    }
    return count;
}

/* The verdict on the trace with a line behind it. */
static uint32_t judge_with(text script, text trace, const char *line, uint64_t *at) {
    size_t header = strcspn((const char *)script.bytes, "\n"), more = strlen(line);
    memcpy(trace.bytes + trace.length, line, more);
    return escrow_judge(script.bytes, header, trace.bytes, trace.length + more, at);
}

int main(int count, char **words) {
    if (count != 3) return 2;
    text script = read_file(words[1]), ran = read_file(words[2]), trace = {malloc(ran.length + 100), 0};
    uint64_t at = 9, entries;
    run_script(script, ran);
    entries = entries_of(ran, &trace);
    EXPECT(judge_with(script, trace, "", &at) == ESCROW_DONE && at == 0);
    EXPECT(judge_with(script, trace, "0 begin -> begun 0.0\n", &at) == ESCROW_ILLEGAL && at == entries + 1);
    EXPECT(judge_with(script, trace, "0 begin -> sold\n", &at) == ESCROW_BAD_ENTRY && at == entries + 1);
    EXPECT(judge_with(script, trace, "\n", &at) == ESCROW_BAD_ENTRY && at == entries + 1);
    EXPECT(judge_with(script, trace, "0 read stock -> unsure", &at) == ESCROW_BAD_ENTRY && at == entries + 1);
    EXPECT(escrow_judge(script.bytes, 2, trace.bytes, trace.length, &at) == ESCROW_NO_SCHEMA && at == 0);
    printf("%" PRIu64 " entries of a script are answered and judged as typed\n", entries);
    free(script.bytes);
    free(ran.bytes);
    free(trace.bytes);
    return 0;
}
