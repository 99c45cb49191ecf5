/* A durable host: durable HEADER_FILE LOG_FILE answers the lines of standard input for site 0, one by one. No answer is
 * written before its record is in the file, and synced; after a stop, at any moment, it goes on over the same file.
 *
 * The file has to be there. At the first start alone it is made, by the word `new` behind it: a site whose log is lost has
 * its first rights again, and would sell them again. Where it can't go on it tells why, with status 1. */
#include "../../include/escrow.h"
#include <errno.h>
#include <fcntl.h>
#include <libgen.h>
#include <stdio.h>
#include <string.h>
#include <sys/file.h>
#include <unistd.h>

/* guide: host */
static escrow_handle site;
static int file;
static uint8_t log_read[1 << 24]; /* a log beyond half of this grows no more */
static size_t safe; /* so many bytes of the log are in the file, and synced */
static int is_lost; /* a write or a sync failed: what the file has isn't known, and nothing is asked any more */

/* Brings the file to the log: what was added is written and synced. */
static int settle(void) {
    uint8_t piece[65536];
    size_t copied, held = safe;
    do {
        if (escrow_site_log(&site, held, piece, sizeof piece, &copied)) return 0;
        if (write(file, piece, copied) != (ssize_t)copied) return 0;
        held += copied;
    } while (copied);
    if (held != safe && fdatasync(file)) return 0;
    safe = held;
    return 1;
}

/* Asks a line, and writes its entry, but not before its record is safe. */
static int answer(const char *line, size_t length) {
    uint8_t text[ESCROW_TEXT];
    size_t told;
    if (is_lost || safe > sizeof log_read / 2) return 0;
    uint32_t status = escrow_site_tell(&site, (const uint8_t *)line, length, text, sizeof text, &told);
    is_lost = status == ESCROW_UNTOLD || !settle();
    if (is_lost) return 0;
    if (status) printf("status %u\n", status);
    if (!status) printf("%.*s\n", (int)told, (const char *)text);
    return !fflush(stdout);
}

/* Makes the name of a file safe in its folder. */
static int sync_name(const char *path) {
    char copy[4096];
    if (snprintf(copy, sizeof copy, "%s", path) >= (int)sizeof copy) return 0;
    int folder = open(dirname(copy), O_RDONLY);
    return folder >= 0 && !fsync(folder) && !close(folder);
}

/* Opens the file, which is made where it is new and has to be there else, and locks it. */
static int open_log(const char *path, int is_new) {
    file = open(path, O_RDWR | O_CLOEXEC | (is_new ? O_CREAT | O_EXCL : 0), 0644);
    return file >= 0 && !flock(file, LOCK_EX | LOCK_NB) && (!is_new || sync_name(path));
}

/* Reads the file whole, by as many reads as that takes, unless there is no room for it. */
static int read_log(uint8_t *log, size_t room, size_t *held) {
    ssize_t more;
    for (*held = 0; (more = read(file, log + *held, room - *held)) > 0;) *held += (size_t)more;
    return !more && *held < room;
}

/* Opens the site over its file, cuts off what a stop tore, and starts it again. */
static int stand(const char *header, size_t length, const char *path, int is_new) {
    size_t held;
    uint64_t bad;
    if (!open_log(path, is_new) || !read_log(log_read, sizeof log_read, &held)) return 0;
    if (escrow_site_open(&site, (const uint8_t *)header, length, 0, log_read, held, &safe, &bad)) return 0;
    if (ftruncate(file, (off_t)safe) || lseek(file, (off_t)safe, SEEK_SET) < 0 || fdatasync(file)) return 0;
    return answer("0 restart", 9);
}
/* guide: end */

/* Tells why it ends: by the system, where that refused a call, and else by what the log is. */
static int fails(const char *path, const char *why) {
    fprintf(stderr, "durable: %s: %s\n", path, errno ? strerror(errno) : why);
    return 1;
}

int main(int count, char **words) {
    static char header[65538], line[1 << 16];
    int is_new = count == 4 && !strcmp(words[3], "new");
    if (count != 3 && !is_new) return fails("HEADER_FILE LOG_FILE [new]", "is what it takes");
    FILE *told = fopen(words[1], "r");
    if (!told || !fgets(header, sizeof header, told)) return fails(words[1], "no header is in it");
    fclose(told);
    errno = 0;
    if (!stand(header, strcspn(header, "\n"), words[2], is_new))
        return fails(words[2], "not this site's, or too long: put its own newest log back, or give the host more room");
    while (fgets(line, sizeof line, stdin)) {
        errno = 0;
        if (!answer(line, strcspn(line, "\n"))) return fails(words[2], "too long: give the host more room");
    }
    return escrow_site_close(&site) != ESCROW_DONE;
}
