/* by_cfitsio FILE [COUNT]: what pipeline.c does, by CFITSIO's files in memory; that a result has no error is that its sums are right.
   Built by `cc -O2 by_cfitsio.c -lcfitsio`, where CFITSIO is installed. */
#include <fitsio.h>
#include <stdio.h>
#include <stdlib.h>
#include <string.h>
#include <time.h>

static unsigned char file[1 << 24];

/* Corrects the file, and says whether the result's sums are right. */
static int correct(size_t len, int number)
{
    char observer[64];
    short masked[2] = {0, 0};
    int status = 0, good = 1;
    size_t size = len;
    void *room = malloc(len);
    fitsfile *hdus;
    if (!room)
        return 0;
    memcpy(room, file, len);
    snprintf(observer, sizeof observer, "N. Night %d", number);
    fits_open_memfile(&hdus, "a.fits", READWRITE, &room, &size, 2880, realloc, &status);
    fits_movabs_hdu(hdus, 2, NULL, &status);
    fits_update_key(hdus, TSTRING, "OBSERVER", observer, "corrected", &status);
    fits_write_img(hdus, TSHORT, 1, 2, masked, &status);
    for (int hdu = 1; hdu <= 2; hdu++) {
        fits_movabs_hdu(hdus, hdu, NULL, &status);
        fits_write_chksum(hdus, &status);
    }
    fits_close_file(hdus, &status);
    fits_open_memfile(&hdus, "a.fits", READONLY, &room, &size, 0, NULL, &status);
    for (int hdu = 1; hdu <= 2; hdu++) {
        int data = 0, all = 0;
        fits_movabs_hdu(hdus, hdu, NULL, &status);
        fits_verify_chksum(hdus, &data, &all, &status);
        good = good && data == 1 && all == 1;
    }
    fits_close_file(hdus, &status);
    free(room);
    return good && status == 0;
}

int main(int count, char **words)
{
    FILE *from = count > 1 ? fopen(words[1], "rb") : NULL;
    if (!from)
        return 2;
    size_t len = fread(file, 1, sizeof file, from);
    fclose(from);
    int wanted = count > 2 ? atoi(words[2]) : 1000, good = 0;
    struct timespec began, ended;
    timespec_get(&began, TIME_UTC);
    for (int i = 0; i < wanted; i++)
        good += correct(len, i);
    timespec_get(&ended, TIME_UTC);
    fprintf(stderr, "%.1f ms\n", 1e3 * (double)(ended.tv_sec - began.tv_sec) + 1e-6 * (double)(ended.tv_nsec - began.tv_nsec));
    printf("%d of %d\n", good, wanted);
    return good != wanted;
}
