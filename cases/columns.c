/* What CFITSIO reads of a table: columns FILE prints of HDU 2 the type, the count, the width and the place of each column. */
#include <fitsio.h>
#include <stdio.h>

int main(int count, char **words)
{
    fitsfile *file;
    int status = 0, type = 0, columns = 0;
    if (count != 2 || fits_open_file(&file, words[1], READONLY, &status)) {
        return 2;
    }
    fits_movabs_hdu(file, 2, &type, &status);
    fits_get_num_cols(file, &columns, &status);
    for (int k = 1; k <= columns && !status; k++) {
        int kind = 0;
        long many = 0, width = 0;
        fits_get_coltype(file, k, &kind, &many, &width, &status);
        printf("%d %ld %ld %ld\n", kind, many, width, (long)file->Fptr->tableptr[k - 1].tbcol);
    }
    fits_close_file(file, &status);
    return status != 0;
}
