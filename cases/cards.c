/* The cards of a file as CFITSIO reads them: cards FILE prints HDU, place and card, but not blank cards before END. */
#include <fitsio.h>
#include <stdio.h>

int main(int count, char **words)
{
    fitsfile *file;
    int status = 0, hdus = 0;
    if (count != 2 || fits_open_diskfile(&file, words[1], READONLY, &status)) {
        return 2;
    }
    fits_get_num_hdus(file, &hdus, &status);
    for (int hdu = 1; hdu <= hdus && !status; hdu++) {
        int cards = 0, room = 0;
        char card[FLEN_CARD];
        fits_movabs_hdu(file, hdu, NULL, &status);
        fits_get_hdrspace(file, &cards, &room, &status);
        for (int place = 1; place <= cards && !fits_read_record(file, place, card, &status); place++) {
            printf("%d %d %s\n", hdu, place, card);
        }
    }
    fits_close_file(file, &status);
    fits_report_error(stderr, status);
    return status != 0;
}
