/*
 * The listing of a track file, from standard input to standard output. It prints what the program target/bin/track_listing prints:
 *
 *     list_track < samples/sector-numbers.track
 */
#include "thikbromu.h"

#include <stdio.h>

int main(void)
{
    /* One byte more than the longest file is enough to see that a file is too long. */
    static uint8_t file[THIKBROMU_LONGEST_FILE + 1];
    static uint8_t listing[THIKBROMU_LONGEST_LISTING];

    size_t length = fread(file, 1, sizeof file, stdin);
    /* A file that is not read to its end has no listing, not even a refusal. */
    if (ferror(stdin)) {
        perror("list_track");
        return 1;
    }
    length = thikbromu_file_listing(file, length, listing, sizeof listing);
    if (fwrite(listing, 1, length, stdout) != length || fflush(stdout) != 0) {
        perror("list_track");
        return 1;
    }
    return 0;
}
