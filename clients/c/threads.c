/* Threads: a site each for four of them, and then one site behind a lock for all; status 1 where an answer is wrong. */
#include "../../include/escrow.h"
#include <pthread.h>
#include <stdio.h>
#include <stdlib.h>

enum { THREADS = 4 };

static const char header[] =
    "{\"sites\":4,\"fields\":[{\"name\":\"stock\",\"floor\":0,\"ceiling\":1000000,\"value\":500000}]}";
static long rounds = 20000;
static escrow_handle shared;
static pthread_mutex_t lock = PTHREAD_MUTEX_INITIALIZER;

static void open_site(escrow_handle *handle, uint16_t number) {
    size_t kept;
    uint64_t line;
    if (escrow_site_open(handle, (const uint8_t *)header, sizeof header - 1, number, (const uint8_t *)"", 0, &kept,
                         &line))
        exit(1);
}

static long round_of(escrow_handle *handle, long made) {
    escrow_answer answer;
    escrow_ask ask = {.kind = ESCROW_BEGIN};
    if (escrow_site_ask(handle, &ask, &answer) || answer.kind != ESCROW_BEGUN) return 0;
    ask = (escrow_ask){.kind = ESCROW_ESCROW, .number = (uint32_t)answer.second, .change = made % 2 ? 20 : -20};
    if (escrow_site_ask(handle, &ask, &answer) || answer.kind != ESCROW_GRANTED) return 0;
    ask.kind = ESCROW_COMMIT;
    return !escrow_site_ask(handle, &ask, &answer) && answer.kind == ESCROW_COMMITTED;
}

static void *work_alone(void *number) {
    escrow_handle own = {0};
    long right = 0;
    open_site(&own, (uint16_t)(size_t)number);
    for (long made = 0; made < rounds; made++) right += round_of(&own, made);
    if (escrow_site_close(&own)) exit(1);
    return (void *)right;
}

/* The threads make 0, 1, 2 and 3 rounds less, so that their changes differ. */
static void *work_together(void *number) {
    long right = 0;
    for (long made = (long)(size_t)number; made < rounds; made++) {
        pthread_mutex_lock(&lock);
        right += round_of(&shared, made);
        pthread_mutex_unlock(&lock);
    }
    return (void *)right;
}

static long run(void *(*work)(void *)) {
    pthread_t threads[THREADS];
    long right = 0;
    for (size_t number = 0; number < THREADS; number++)
        if (pthread_create(&threads[number], 0, work, (void *)number)) exit(1);
    for (size_t number = 0; number < THREADS; number++) {
        void *told;
        if (pthread_join(threads[number], &told)) exit(1);
        right += (long)told;
    }
    return right;
}

int main(int count, char **words) {
    if (count > 1) rounds = atol(words[1]);
    open_site(&shared, 0);
    long alone = run(work_alone), together = run(work_together);
    if (escrow_site_close(&shared) || alone != THREADS * rounds || together != THREADS * rounds - 6) return 1;
    printf("%ld rounds by a site each, %ld by one site\n", alone, together);
    return 0;
}
