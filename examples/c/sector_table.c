/*
 * The sectors of a track, as a table. Reads a track file of cells from standard input:
 *
 *     sector_table < samples/standard.track
 */
#include "thikbromu.h"

#include <inttypes.h>
#include <stdio.h>

/* Before the cells of a file come the place (a count of 2, the track, the side) and the count of the cells. */
#define BEFORE_CELLS 10

/* A count of a file: 32 bits, low byte first. */
static uint32_t count_at(const uint8_t *bytes)
{
    return (uint32_t)bytes[0] | (uint32_t)bytes[1] << 8 | (uint32_t)bytes[2] << 16 | (uint32_t)bytes[3] << 24;
}

static const char *check(uint32_t good)
{
    return good == 1 ? "good" : "bad";
}

static void print_sector(const uint32_t *sector)
{
    printf("%6" PRIu32 "  %6" PRIu32 "  %-5s  %7" PRIu32 "  ", sector[THIKBROMU_SECTOR_NUMBER], sector[THIKBROMU_SECTOR_PLACE],
           check(sector[THIKBROMU_SECTOR_ID_CHECK_GOOD]), sector[THIKBROMU_SECTOR_DENSITY]);
    if (sector[THIKBROMU_SECTOR_DATA_MARK] == 0) {
        printf("no data mark\n");
    } else {
        printf("%7" PRIu32 "  %-5s  %5" PRIu32 "  %6" PRIu32 "\n", sector[THIKBROMU_SECTOR_DATA_PLACE],
               check(sector[THIKBROMU_SECTOR_DATA_CHECK_GOOD]), sector[THIKBROMU_SECTOR_DATA_LENGTH], sector[THIKBROMU_SECTOR_END]);
    }
}

int main(void)
{
    static uint8_t file[BEFORE_CELLS + THIKBROMU_MOST_CELL_BYTES];
    size_t length = fread(file, 1, sizeof file, stdin);
    if (length < BEFORE_CELLS || count_at(file) != 2 || count_at(file + 6) == 0) {
        fprintf(stderr, "not a track file of cells\n");
        return 1;
    }
    const uint8_t *bytes = file + BEFORE_CELLS;
    size_t cells = count_at(file + 6);

    printf("number   ID at  check  density  data at  check  bytes     end\n");
    for (size_t index = 0;; index++) {
        uint32_t sector[THIKBROMU_SECTOR_NUMBERS];
        size_t value;
        /* The library judges the track, the side, the count and the bytes that are there; it reads no byte past the length. */
        uint32_t refusal = thikbromu_sector(bytes, length - BEFORE_CELLS, cells, file[4], file[5], index, sector,
                                            THIKBROMU_SECTOR_NUMBERS, &value);
        if (refusal == THIKBROMU_REFUSED_NO_SUCH_SECTOR) {
            return 0; /* all sectors are printed; `value` is how many there are */
        }
        if (refusal != 0) {
            fprintf(stderr, "refused %" PRIu32 ", which gives %zu\n", refusal, value);
            return 1;
        }
        print_sector(sector);
    }
}
