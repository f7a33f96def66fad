/* calls MODE IN SCRIPT OUT ANSWERS: a script over a file, by the calls of the library. The status is that of `fitsed edit`.

   run      in one run
   lines    in a session, line by line
   calls    in one run, after every other call over IN: what each gives is the same twice, and a rectangle is written back
   refuse   all of these, with each request for memory refused in turn: a run answers 3 or what it answers without, a call of a
            session is made again where it says that memory was refused, and no block is left (linked with malloc, realloc and
            free wrapped, or nothing is refused)
   threads  run and lines in ten threads, forty times in each */
#include "fitsed.h"
#include <pthread.h>
#include <stdio.h>
#include <stdlib.h>
#include <string.h>

enum { ROOM = 1 << 20 };

/* What a script came to. */
typedef struct {
    int status;
    size_t answers_len, saved_len;
    uint8_t answers[ROOM], saved[ROOM];
} result;

static uint8_t file[ROOM], script[ROOM];
static size_t file_len, script_len;

static const char *const words[] = {"",           "1 NoHdu",    "2 NoCard",      "3 NoKey",    "4 BadText", "5 EndCard",
                                    "6 Shape",    "7 BadName",  "8 BadValue",    "9 NotImage", "10 BadRect", "11 WrongCount",
                                    "12 Range",   "13 PrimaryStays", "14 TooLarge"};

static size_t put(uint8_t *to, size_t at, fitsed_bytes bytes)
{
    if (bytes.len > ROOM - at)
        exit(9);
    memcpy(to + at, bytes.at, bytes.len);
    return at + bytes.len;
}

static void by_run(result *it)
{
    fitsed_outcome outcome = {0};
    it->answers_len = it->saved_len = 0;
    it->status = fitsed_edit(file, file_len, script, script_len, 0, &outcome);
    if (it->status != FITSED_NO_RUN) {
        it->answers_len = put(it->answers, 0, outcome.answers);
        it->saved_len = put(it->saved, 0, outcome.saved);
        fitsed_free(&outcome);
    }
    fitsed_drop(&outcome);
}

static size_t say(uint8_t *to, size_t at, unsigned long line, int refusal)
{
    const char *why = refusal == FITSED_LINE_TOO_LONG ? "too long" : refusal == FITSED_NO_COMMAND ? "not a command" : words[refusal];
    return at + (size_t)sprintf((char *)to + at, "line %lu: %s%s\n", line, refusal < 16 ? "refused " : "", why);
}

/* How often memory was refused. */
static size_t by_lines(result *it)
{
    fitsed_session session = {0};
    fitsed_place place = {0, 0};
    fitsed_bytes bytes;
    unsigned long line = 0;
    size_t again = 0;
    int number;
    it->answers_len = it->saved_len = 0;
    while ((number = fitsed_open(file, file_len, &session, &place)) == FITSED_OPEN_MEMORY)
        again++;
    it->status = number ? FITSED_NO_FILE : FITSED_DONE;
    for (size_t at = 0; number == 0 && at < script_len;) {
        const uint8_t *end = memchr(script + at, '\n', script_len - at);
        size_t len = end ? (size_t)(end - (script + at)) : script_len - at;
        int refusal;
        line++;
        while ((refusal = fitsed_line(&session, script + at, len, &bytes)) == FITSED_MEMORY)
            again++;
        it->answers_len = put(it->answers, it->answers_len, bytes);
        if (refusal) {
            it->status = FITSED_UNDONE;
            it->answers_len = say(it->answers, it->answers_len, line, refusal);
        }
        at += len + 1;
    }
    if (number == 0) {
        while (fitsed_save(&session, &bytes) == FITSED_MEMORY)
            again++;
        it->saved_len = put(it->saved, 0, bytes);
    }
    fitsed_end(&session);
    fitsed_end(&session);
    return again;
}

/* ---- Every other call ------------------------------------------------------------------------------------------------ */

enum { PIXELS = 1 << 14 };

static void note(result *it, const char *what, unsigned long long number)
{
    it->answers_len += (size_t)sprintf((char *)it->answers + it->answers_len, "%s %llu\n", what, number);
}

static void note_bytes(result *it, fitsed_bytes bytes)
{
    it->answers_len = put(it->answers, it->answers_len, bytes);
}

static void note_numbers(result *it, fitsed_numbers numbers)
{
    for (size_t i = 0; i < numbers.len; i++)
        note(it, "number", numbers.at[i]);
}

/* A run: again where memory was refused, and what it gave. */
#define RUN(call)                                                                                                              \
    do {                                                                                                                       \
        fitsed_outcome outcome = {0};                                                                                          \
        int status;                                                                                                            \
        while ((status = call) == FITSED_NO_RUN)                                                                               \
            again++;                                                                                                           \
        note(it, #call, (unsigned)status);                                                                                     \
        note_bytes(it, outcome.answers);                                                                                       \
        note_bytes(it, outcome.message);                                                                                       \
        fitsed_drop(&outcome);                                                                                                 \
    } while (0)

/* A call of a session: again where memory was refused, and its number. */
#define CALL(number, call)                                                                                                     \
    do {                                                                                                                       \
        while ((number = call) == FITSED_MEMORY)                                                                               \
            again++;                                                                                                           \
        note(it, #call, (unsigned)number);                                                                                     \
    } while (0)

/* What is asked of one HDU, and its pixels, which are written as they are. */
static size_t by_hdu(result *it, fitsed_session *session, size_t hdu)
{
    static const uint64_t ones[10] = {1, 1, 1, 1, 1, 1, 1, 1, 1, 1};
    static int64_t signs[PIXELS + 1];
    static uint64_t plain[PIXELS];
    fitsed_keyword_value value;
    fitsed_hdu_shape shape;
    fitsed_hdu_sums sums;
    fitsed_hdu_stats stats;
    uint64_t hi[10];
    size_t again = 0, pixels = 1;
    int number, asked;
    CALL(number, fitsed_value(session, hdu, (const uint8_t *)"EXPTIME ", &value));
    if (number == 0) {
        note_bytes(it, value.text);
        note_bytes(it, value.imaginary);
        note_bytes(it, value.comment);
        note(it, "kind", value.kind);
    }
    CALL(number, fitsed_sums(session, hdu, &sums));
    if (number == 0)
        note(it, "sum", sums.datasum);
    CALL(number, fitsed_stats(session, hdu, &stats));
    if (number == 0)
        note(it, "pixels", stats.defined + stats.blank + stats.least.low + stats.greatest.low + stats.sum.low);
    CALL(number, fitsed_shape(session, hdu, &shape));
    if (number == 0 && shape.pixels != 0 && shape.axes.len <= 10) {
        size_t axes = shape.axes.len;
        note_numbers(it, shape.axes);
        for (size_t i = 0; i < axes; i++) {
            hi[i] = shape.axes.at[i];
            pixels = hi[i] && pixels <= PIXELS / hi[i] ? pixels * (size_t)hi[i] : PIXELS + 1;
        }
        if (pixels <= PIXELS) {
            CALL(number, fitsed_rect(session, hdu, ones, axes, hi, axes, signs, pixels + 1));
            CALL(asked, fitsed_rect(session, hdu, ones, axes, hi, axes, signs, pixels));
            if (asked == 0)
                CALL(number, fitsed_write(session, hdu, ones, axes, hi, axes, signs, pixels));
            CALL(number, fitsed_rect_u64(session, hdu, ones, axes, hi, axes, plain, pixels));
            if (number == 0)
                CALL(number, fitsed_write_u64(session, hdu, ones, axes, hi, axes, plain, pixels));
            for (size_t i = 0; number == 0 && asked == 0 && i < pixels; i++)
                if ((uint64_t)signs[i] != plain[i])
                    exit(7);
        }
    }
    return again;
}

static size_t by_calls(result *it)
{
    fitsed_session session = {0};
    fitsed_place place = {0, 0};
    fitsed_numbers numbers;
    fitsed_bytes bytes;
    size_t again = 0, hdus;
    int number;
    it->answers_len = it->saved_len = 0;
    it->status = 0;
    RUN(fitsed_ask(file, file_len, script, script_len, &outcome));
    RUN(fitsed_list(file, file_len, &outcome));
    RUN(fitsed_sum(file, file_len, &outcome));
    RUN(fitsed_stat(file, file_len, &outcome));
    RUN(fitsed_verify(file, file_len, FITSED_TABLES | FITSED_CARDS, &outcome));
    RUN(fitsed_cards(file, file_len, 0, &outcome));
    while ((number = fitsed_open(file, file_len, &session, &place)) == FITSED_OPEN_MEMORY)
        again++;
    if (number)
        return again;
    CALL(number, fitsed_problems(&session, &numbers));
    note_numbers(it, numbers);
    CALL(number, fitsed_offsets(&session, &numbers));
    note_numbers(it, numbers);
    hdus = numbers.len / 3;
    for (size_t hdu = 0; hdu <= hdus + 1; hdu++)
        again += by_hdu(it, &session, hdu);
    CALL(number, fitsed_save(&session, &bytes));
    if (bytes.len != file_len || memcmp(bytes.at, file, file_len) != 0)
        exit(6);
    fitsed_close(&session);
    return again;
}

static int same(const result *a, const result *b)
{
    return a->status == b->status && a->answers_len == b->answers_len && a->saved_len == b->saved_len
           && memcmp(a->answers, b->answers, a->answers_len) == 0 && memcmp(a->saved, b->saved, a->saved_len) == 0;
}

/* ---- Requests for memory --------------------------------------------------------------------------------------------- */

void *__real_malloc(size_t) __attribute__((weak));
void *__real_realloc(void *, size_t) __attribute__((weak));
void __real_free(void *) __attribute__((weak));

static unsigned long requests, refused, blocks;
static int counting;

void *__wrap_malloc(size_t size)
{
    if (counting && ++requests == refused)
        return NULL;
    blocks += counting != 0;
    return __real_malloc(size);
}

void *__wrap_realloc(void *at, size_t size)
{
    if (counting && ++requests == refused)
        return NULL;
    blocks += counting && !at;
    return __real_realloc(at, size);
}

void __wrap_free(void *at)
{
    blocks -= counting && at;
    __real_free(at);
}

static result wanted, called, got;

static int by_refusing(void)
{
    refused = 0;
    by_calls(&called);
    for (int way = 0; way < 3; way++) {
        for (refused = 1;; refused++) {
            size_t again = 0;
            requests = blocks = 0;
            counting = 1;
            if (way == 0)
                by_run(&got);
            else
                again = way == 1 ? by_lines(&got) : by_calls(&got);
            counting = 0;
            if (blocks != 0 || again > 1 || !(same(&got, way == 2 ? &called : &wanted) || (way == 0 && got.status == FITSED_NO_RUN && refused <= requests))) {
                printf("request %lu of %lu refused: status %d, %lu blocks are left\n", refused, requests, got.status, blocks);
                return 8;
            }
            if (requests < refused)
                break;
        }
    }
    return wanted.status;
}

/* ---- Threads --------------------------------------------------------------------------------------------------------- */

static void *work(void *unused)
{
    result *it = malloc(sizeof *it);
    (void)unused;
    for (int i = 0; it && i < 40; i++) {
        by_run(it);
        int right = same(it, &wanted);
        by_lines(it);
        if (!right || !same(it, &wanted)) {
            free(it);
            return &wanted;
        }
    }
    free(it);
    return NULL;
}

static int by_threads(void)
{
    pthread_t threads[10];
    int wrong = 0;
    for (int i = 0; i < 10; i++)
        if (pthread_create(&threads[i], NULL, work, NULL))
            return 9;
    for (int i = 0; i < 10; i++) {
        void *found;
        pthread_join(threads[i], &found);
        wrong += found != NULL;
    }
    return wrong ? 8 : wanted.status;
}

/* ---- ------------------------------------------------------------------------------------------------------------------ */

static size_t all_of(const char *path, uint8_t *to)
{
    FILE *from = fopen(path, "rb");
    if (!from)
        exit(9);
    size_t len = fread(to, 1, ROOM, from);
    fclose(from);
    return len;
}

static int keep(const char *path, const uint8_t *bytes, size_t len)
{
    FILE *to = fopen(path, "wb");
    return to && fwrite(bytes, 1, len, to) == len && fclose(to) == 0;
}

int main(int count, char **argv)
{
    if (count != 6)
        return 9;
    file_len = all_of(argv[2], file);
    script_len = all_of(argv[3], script);
    int by = argv[1][0];
    if (by == 'l')
        by_lines(&wanted);
    else
        by_run(&wanted);
    if (by == 'c') {
        by_calls(&called);
        by_calls(&got);
        if (!same(&called, &got))
            return 8;
    }
    int status = by == 'r' && argv[1][1] == 'e' ? by_refusing() : by == 't' ? by_threads() : wanted.status;
    if (!keep(argv[4], wanted.saved, wanted.saved_len) || !keep(argv[5], wanted.answers, wanted.answers_len))
        return 9;
    return status;
}
