/*
 * Stands between examples/store.c and what it calls, built and used by power_cuts.py: the linker leads each call of the
 * functions below here (--wrap). The desk's source is not changed by it.
 *
 * Each call is logged before and after, in a file that is mapped into memory and so outlasts a kill. POWER_CUT=P,N kills
 * the desk, by SIGKILL, when it comes to point P for the Nth time; STORE_FAILS=P,N lets the call at P fail, the Nth time,
 * as it does on a full or broken disk. SEEN names the file, whose layout is struct seen.
 */
#define _GNU_SOURCE

#include <errno.h>
#include <fcntl.h>
#include <signal.h>
#include <stdarg.h>
#include <stdio.h>
#include <stdlib.h>
#include <string.h>
#include <sys/mman.h>
#include <unistd.h>

#include "zarosnik.h"

/* What is called, in the order in which a desk does it. */
enum call {
    READ_KEY, RESERVE, WRITE_KEY, CREATE, WRITE, FSYNC, CLOSE, RENAME, FSYNC_FOLDER, SIGN, WRITE_SHEET, HAND_OUT
};
/* A point is before a call, in the middle of a write, or after a call. */
enum { BEFORE, WITHIN, AFTER, PARTS };

/* `disk` is the frame that a power cut would leave for certain, as far as the desk has waited for it: that of a file
 * which was synced before it was renamed and whose folder was synced behind that. No bytes: a file that was not. */
struct seen {
    uint32_t points;
    uint32_t signatures;
    uint32_t on_disk;
    uint32_t frame_len;
    uint8_t frame[ZAROSNIK_KEY_BYTES_MAX + 7u];
    uint32_t leaf[1024];
    uint8_t point[65536];
};

static struct seen *seen;
static int new_file = -1;
static uint8_t written[ZAROSNIK_KEY_BYTES_MAX];
static size_t written_len, synced_len, renamed_len;

static struct {
    unsigned point, turn, met;
} cut, failure;

static void ask(const char *name, unsigned *point, unsigned *turn)
{
    const char *text = getenv(name);
    if (text != NULL && sscanf(text, "%u,%u", point, turn) != 2)
        exit(99);
}

__attribute__((constructor)) static void begin(void)
{
    const char *path = getenv("SEEN");
    int file = path == NULL ? -1 : open(path, O_RDWR);
    seen = mmap(NULL, sizeof *seen, PROT_READ | PROT_WRITE, MAP_SHARED, file, 0);
    if (seen == MAP_FAILED) {
        perror("SEEN");
        exit(99);
    }
    ask("POWER_CUT", &cut.point, &cut.turn);
    ask("STORE_FAILS", &failure.point, &failure.turn);
}

/* Logs a point, and kills the process where that is asked for. */
static void at(enum call call, unsigned part)
{
    unsigned point = call * PARTS + part;
    if (seen->points < sizeof seen->point)
        seen->point[seen->points++] = (uint8_t)point;
    if (point == cut.point && cut.turn != 0 && ++cut.met == cut.turn)
        kill(getpid(), SIGKILL);
}

/* Whether this call is to fail. */
static int fails(enum call call)
{
    if (call * PARTS != failure.point || failure.turn == 0 || ++failure.met != failure.turn)
        return 0;
    errno = call == CREATE || call == WRITE ? ENOSPC : EIO;
    return 1;
}

#define REAL(name) __real_##name
#define WRAP(name) __wrap_##name

/* A call of the library. `ended` is done behind it, where it is granted. */
#define BETWEEN(call, name, parameters, arguments, ended)    \
    uint32_t REAL(name) parameters;                          \
    uint32_t WRAP(name) parameters                           \
    {                                                        \
        at(call, BEFORE);                                    \
        uint32_t outcome = REAL(name) arguments;             \
        if (outcome == ZAROSNIK_GRANTED)                     \
            ended;                                           \
        at(call, AFTER);                                     \
        return outcome;                                      \
    }
#define PROFILE uint32_t l, uint32_t w, uint32_t s, uint32_t h, uint32_t edition
#define IN const uint8_t *
#define NOTHING (void)0

static void log_leaf(IN signature)
{
    if (seen->signatures < sizeof seen->leaf / sizeof *seen->leaf)
        seen->leaf[seen->signatures++] = (uint32_t)signature[0] << 24 | (uint32_t)signature[1] << 16
            | (uint32_t)signature[2] << 8 | signature[3];
}

BETWEEN(READ_KEY, zarosnik_read_key,
        (IN frame, size_t len, uint32_t *profile, uint8_t *seed, uint8_t *secret, uint32_t *next, uint32_t *mark,
         uint32_t *line),
        (frame, len, profile, seed, secret, next, mark, line), NOTHING)
BETWEEN(RESERVE, zarosnik_reserve, (PROFILE, uint32_t *next, uint32_t *mark), (l, w, s, h, edition, next, mark), NOTHING)
BETWEEN(WRITE_KEY, zarosnik_write_key,
        (PROFILE, IN seed, IN secret, uint32_t next, uint32_t mark, uint8_t *frame, size_t len, size_t *frame_len),
        (l, w, s, h, edition, seed, secret, next, mark, frame, len, frame_len), NOTHING)
BETWEEN(SIGN, zarosnik_sign,
        (PROFILE, IN seed, IN secret, uint32_t next, uint32_t *mark, IN r, IN message, size_t message_len,
         uint32_t *table, size_t table_len, uint8_t *signature, size_t signature_len),
        (l, w, s, h, edition, seed, secret, next, mark, r, message, message_len, table, table_len, signature,
         signature_len),
        log_leaf(signature))
BETWEEN(WRITE_SHEET, zarosnik_write_sheet,
        (PROFILE, IN signature, size_t signature_len, IN message, size_t message_len, uint8_t *sheet, size_t len,
         size_t *sheet_len),
        (l, w, s, h, edition, signature, signature_len, message, message_len, sheet, len, sheet_len), NOTHING)

int REAL(openat)(int, const char *, int, ...);
int WRAP(openat)(int folder, const char *name, int flags, ...)
{
    if (!(flags & O_CREAT))
        return REAL(openat)(folder, name, flags);
    va_list more;
    va_start(more, flags);
    mode_t mode = va_arg(more, mode_t);
    va_end(more);
    at(CREATE, BEFORE);
    if (fails(CREATE))
        return -1;
    new_file = REAL(openat)(folder, name, flags, mode);
    written_len = synced_len = 0;
    at(CREATE, AFTER);
    return new_file;
}

ssize_t REAL(write)(int, const void *, size_t);
ssize_t WRAP(write)(int file, const void *bytes, size_t len)
{
    enum call call = file == new_file ? WRITE : HAND_OUT;
    at(call, BEFORE);
    if (fails(call))
        return -1;
    size_t half = 0;
    if (cut.turn != 0 && cut.point == call * PARTS + WITHIN) {
        half = len / 2;
        if (REAL(write)(file, bytes, half) != (ssize_t)half)
            exit(99);
        at(call, WITHIN);
        bytes = (const uint8_t *)bytes + half;
        len -= half;
    }
    ssize_t count = REAL(write)(file, bytes, len);
    if (call == WRITE && count > 0 && half + (size_t)count <= sizeof written) {
        memcpy(written, (const uint8_t *)bytes - half, half + (size_t)count);
        written_len = half + (size_t)count;
    }
    at(call, AFTER);
    return count < 0 ? count : (ssize_t)half + count;
}

int REAL(fsync)(int);
int WRAP(fsync)(int file)
{
    enum call call = file == new_file ? FSYNC : FSYNC_FOLDER;
    at(call, BEFORE);
    if (fails(call))
        return -1;
    int answer = REAL(fsync)(file);
    if (call == FSYNC) {
        synced_len = written_len;
    } else {
        memcpy(seen->frame, written, renamed_len);
        seen->frame_len = (uint32_t)renamed_len;
        seen->on_disk = 1;
    }
    at(call, AFTER);
    return answer;
}

int REAL(close)(int);
int WRAP(close)(int file)
{
    if (file != new_file)
        return REAL(close)(file);
    at(CLOSE, BEFORE);
    int answer = REAL(close)(file);
    new_file = -1;
    if (fails(CLOSE))
        return -1;
    at(CLOSE, AFTER);
    return answer;
}

int REAL(renameat)(int, const char *, int, const char *);
int WRAP(renameat)(int from, const char *name, int to, const char *other)
{
    at(RENAME, BEFORE);
    if (fails(RENAME))
        return -1;
    int answer = REAL(renameat)(from, name, to, other);
    renamed_len = synced_len;
    at(RENAME, AFTER);
    return answer;
}
