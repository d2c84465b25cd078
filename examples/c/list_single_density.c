/*
 * The listing of a track of single density. Reads a track file of cells from standard input, and prints the lines that list_track prints of
 * a track of double density:
 *
 *     list_single_density < samples/single-density.track
 */
#include "thikbromu.h"

#include <inttypes.h>
#include <stdio.h>

static const char *const names[] = {"LGT", "SHT", "NOS", "TNF", "EXT", "DSN", "ISN", "ITN", "IIF", "SSZ", "NSI",
                                    "NSD", "SBI", "SND", "SBD", "DOI", "DBI", "SWS", "SID", "MTV", "NFA"};

static int refused(uint32_t refusal)
{
    printf("refused %" PRIu32 "\n", refusal);
    return 0;
}

int main(void)
{
    static uint8_t file[THIKBROMU_LONGEST_FILE + 1];
    static uint8_t cells[THIKBROMU_MOST_CELL_BYTES];
    static struct thikbromu_finding list[THIKBROMU_MOST_FINDINGS];
    uint32_t place[THIKBROMU_PLACE_NUMBERS];
    uint32_t record[THIKBROMU_SECTOR_NUMBERS];
    size_t n, sectors, findings;

    size_t length = fread(file, 1, sizeof file, stdin);
    if (ferror(stdin)) {
        perror("list_single_density");
        return 1;
    }
    uint32_t refusal = thikbromu_file_cells(file, length, cells, sizeof cells, place, THIKBROMU_PLACE_NUMBERS, &n);
    if (refusal != 0) {
        return refused(refusal);
    }
    refusal = thikbromu_fm_finding_records(cells, sizeof cells, n, place[0], place[1], list, THIKBROMU_MOST_FINDINGS, &findings);
    if (refusal != 0) {
        return refused(refusal);
    }
    /* The number of sectors is given beside any of them, and beside the refusal of one that is not there. */
    thikbromu_fm_sector(cells, sizeof cells, n, place[0], place[1], 0, record, THIKBROMU_SECTOR_NUMBERS, &sectors);
    printf("T%02" PRIu32 " H%" PRIu32 " cells %zu sectors %zu findings %zu\n", place[0], place[1], n, sectors, findings);
    for (size_t i = 0; i < findings; i++) {
        printf("%u %s level %u place %" PRIu32 " detail %" PRIu32 "\n", list[i].kind, names[list[i].kind - 1], list[i].level,
               list[i].place, list[i].detail);
    }
    if (ferror(stdout) || fflush(stdout) != 0) {
        perror("list_single_density");
        return 1;
    }
    return 0;
}
