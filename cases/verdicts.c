/* CFITSIO's verdicts on the sums of an HDU: verdicts FILE NUMBER.. prints DATASUM's and CHECKSUM's of each HDU. */
#include <fitsio.h>
#include <stdio.h>
#include <stdlib.h>

int main(int count, char **words)
{
    fitsfile *file;
    int status = 0;
    if (count < 2 || fits_open_file(&file, words[1], READONLY, &status)) {
        return 2;
    }
    for (int k = 2; k < count && !status; k++) {
        int datasum = 0, checksum = 0;
        fits_movabs_hdu(file, atoi(words[k]), NULL, &status);
        fits_verify_chksum(file, &datasum, &checksum, &status);
        printf("%d %d\n", datasum, checksum);
    }
    fits_close_file(file, &status);
    fits_report_error(stderr, status);
    return status != 0;
}
