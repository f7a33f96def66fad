/* pipeline FILE [COUNT]: a file in memory, COUNT times (1,000): a keyword corrected, two pixels masked, both HDUs stamped, the result
   verified. Prints how many results there are without an error, and the milliseconds that they took. */
#include <fitsed.h>
#include <stdio.h>
#include <stdlib.h>
#include <string.h>
#include <time.h>

static uint8_t file[1 << 24];

/* Does a line: its number, or 0. */
static int say(fitsed_session *session, const char *line)
{
    fitsed_bytes answer;
    return fitsed_line(session, (const uint8_t *)line, strlen(line), &answer);
}

/* Corrects the file, and says whether the result has no error. */
static int correct(size_t len, int number)
{
    static const char *const lines[] = {"fill 2 1:2,1:1 0", "stamp 1", "stamp 2"};
    char observer[64];
    fitsed_session session = {0};
    fitsed_outcome report = {0};
    fitsed_place place;
    fitsed_bytes saved;
    if (fitsed_open(file, len, &session, &place))
        return 0;
    snprintf(observer, sizeof observer, "set 2 OBSERVER 'N. Night %d' / corrected", number);
    int good = say(&session, observer) == 0;
    for (size_t i = 0; i < sizeof lines / sizeof *lines; i++)
        good = good && say(&session, lines[i]) == 0;
    good = good && fitsed_save(&session, &saved) == 0
           && fitsed_verify(saved.at, saved.len, FITSED_ERRORS, &report) == FITSED_DONE;
    fitsed_drop(&report);
    fitsed_end(&session);
    return good;
}

int main(int count, char **words)
{
    FILE *from = count > 1 ? fopen(words[1], "rb") : NULL;
    if (!from)
        return 2;
    size_t len = fread(file, 1, sizeof file, from);
    fclose(from);
    int wanted = count > 2 ? atoi(words[2]) : 1000, good = 0;
    struct timespec began, ended;
    timespec_get(&began, TIME_UTC);
    for (int i = 0; i < wanted; i++)
        good += correct(len, i);
    timespec_get(&ended, TIME_UTC);
    fprintf(stderr, "%.1f ms\n", 1e3 * (double)(ended.tv_sec - began.tv_sec) + 1e-6 * (double)(ended.tv_nsec - began.tv_nsec));
    printf("%d of %d\n", good, wanted);
    return good != wanted;
}
