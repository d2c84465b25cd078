/*
 * The listing of a revolution of a SuperCard Pro track block, from standard input to standard output. It prints what the program
 * target/bin/scp_track prints with the same arguments: the number of revolutions in the image's header, the one to list, counted from 0,
 * and the drive's track and side:
 *
 *     list_block 2 1 0 0 < samples/standard-two-revolutions.block
 */
#include "thikbromu.h"

#include <stdio.h>
#include <stdlib.h>

int main(int count, char **arguments)
{
    static uint8_t block[4194304];
    static uint8_t cells[THIKBROMU_MOST_CELL_BYTES];
    static uint8_t listing[THIKBROMU_LONGEST_LISTING];
    uint32_t numbers[4];

    for (int i = 0; i < 4; i++) {
        char *end = "";
        unsigned long number = count == 5 ? strtoul(arguments[i + 1], &end, 10) : 256;
        if (number > 255 || *end != '\0' || end == arguments[i + 1]) {
            fprintf(stderr, "usage: list_block REVOLUTIONS REVOLUTION TRACK SIDE < BLOCK, each number up to 255\n");
            return 2;
        }
        numbers[i] = (uint32_t)number;
    }
    size_t length = fread(block, 1, sizeof block, stdin);
    if (fgetc(stdin) != EOF || ferror(stdin)) {
        fprintf(stderr, "list_block: the block cannot be read to its end, or is too long\n");
        return 1;
    }

    size_t border_pulses; /* which the listing does not tell */
    size_t value; /* the number of cells, or what is given beside the refusal */
    uint32_t refusal =
        thikbromu_revolution_cells(block, length, numbers[0], numbers[1], cells, sizeof cells, &border_pulses, &value);
    if (refusal != 0) {
        printf("refused %u\n", (unsigned)refusal);
        return 0;
    }
    length = thikbromu_listing(cells, sizeof cells, value, numbers[2], numbers[3], listing, sizeof listing);
    if (fwrite(listing, 1, length, stdout) != length || fflush(stdout) != 0) {
        perror("list_block");
        return 1;
    }
    return 0;
}
