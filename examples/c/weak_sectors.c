/*
 * Compares two reads of each sector of a track, from two track files of cells, and says which sectors are weak:
 *
 *     weak_sectors samples/weak-sector-first-read.track samples/weak-sector-second-read.track
 */
#include "thikbromu.h"

#include <inttypes.h>
#include <stdio.h>
#include <stdlib.h>

/* Before the cells of a file come the place (a count of 2, the track, the side) and the count of the cells. */
#define BEFORE_CELLS 10

/* The cells of two check bytes. */
#define CHECK_CELLS 32

struct track {
    uint8_t file[BEFORE_CELLS + THIKBROMU_MOST_CELL_BYTES];
    size_t length;
    size_t cells;
};

/* A read of a sector: the data bytes, and the check bytes behind them. Its length is 0 where the sector has no data. */
struct read {
    uint8_t bytes[THIKBROMU_LONGEST_READ];
    size_t length;
    uint32_t number;
    uint32_t data_mark;
};

/* A count of a file: 32 bits, low byte first. */
static uint32_t count_at(const uint8_t *bytes)
{
    return (uint32_t)bytes[0] | (uint32_t)bytes[1] << 8 | (uint32_t)bytes[2] << 16 | (uint32_t)bytes[3] << 24;
}

static void load(struct track *track, const char *name)
{
    FILE *file = fopen(name, "rb");
    track->length = file == NULL ? 0 : fread(track->file, 1, sizeof track->file, file);
    if (file != NULL) {
        fclose(file);
    }
    track->cells = track->length < BEFORE_CELLS || count_at(track->file) != 2 ? 0 : count_at(track->file + 6);
    if (track->cells == 0) {
        fprintf(stderr, "%s: not a track file of cells\n", name);
        exit(1);
    }
}

/* A refused call ends this program. */
static void accept(uint32_t refusal, size_t value)
{
    if (refusal != 0) {
        fprintf(stderr, "refused %" PRIu32 ", which gives %zu\n", refusal, value);
        exit(1);
    }
}

/* Reads the sector of an index. Gives how many sectors the track has. */
static size_t read_sector(const struct track *track, size_t index, struct read *read)
{
    const uint8_t *bytes = track->file + BEFORE_CELLS;
    size_t length = track->length - BEFORE_CELLS;
    uint32_t sector[THIKBROMU_SECTOR_NUMBERS];
    size_t sectors;
    size_t value;
    uint32_t good;
    uint32_t refusal = thikbromu_sector(bytes, length, track->cells, track->file[4], track->file[5], index, sector,
                                        THIKBROMU_SECTOR_NUMBERS, &sectors);
    read->length = 0;
    read->number = sector[THIKBROMU_SECTOR_NUMBER];
    read->data_mark = sector[THIKBROMU_SECTOR_DATA_MARK];
    if (refusal == THIKBROMU_REFUSED_NO_SUCH_SECTOR) {
        return sectors;
    }
    accept(refusal, sectors);
    if (read->data_mark == 0) {
        return sectors;
    }
    refusal = thikbromu_read_out(bytes, length, track->cells, track->file[4], track->file[5], index, read->bytes,
                                 THIKBROMU_LONGEST_SECTOR, &good, &read->length);
    accept(refusal, read->length);
    /* The check bytes are the last 32 cells before the data's end. */
    uint64_t word = thikbromu_word(bytes, length, track->cells, sector[THIKBROMU_SECTOR_END] - CHECK_CELLS, CHECK_CELLS);
    const uint8_t cells[CHECK_CELLS / 8] = {(uint8_t)(word >> 24), (uint8_t)(word >> 16), (uint8_t)(word >> 8), (uint8_t)word};
    refusal = thikbromu_decode(cells, sizeof cells, read->bytes + read->length, THIKBROMU_CHECK_BYTES, &value);
    accept(refusal, value);
    read->length += THIKBROMU_CHECK_BYTES;
    return sectors;
}

static void compare(const struct read *first, const struct read *second)
{
    static const char *const whose[2] = {"the first read", "the second read"};
    uint32_t finding[THIKBROMU_FINDING_NUMBERS];
    size_t findings;
    size_t which;
    size_t length;
    if (first->length == 0 || first->length != second->length) {
        printf("there are no two reads of one length\n");
        return;
    }
    uint32_t refusal = thikbromu_compare_reads(first->bytes, first->length, second->bytes, second->length, first->data_mark, finding,
                                               THIKBROMU_FINDING_NUMBERS, &findings);
    accept(refusal, findings);
    refusal = thikbromu_good_read(first->bytes, first->length, second->bytes, second->length, first->data_mark, &which, &length);
    accept(refusal, length);
    if (findings == 0) {
        printf("the reads agree, the check is %s\n", length == 0 ? "bad" : "good");
    } else {
        printf("weak from byte %" PRIu32 " on, %" PRIu32 " bits differ, %s has a good check\n", finding[2], finding[3],
               length == 0 ? "neither read" : whose[which]);
    }
}

int main(int count, char **names)
{
    static struct track first_track;
    static struct track second_track;
    static struct read first;
    static struct read second;
    if (count != 3) {
        fprintf(stderr, "usage: weak_sectors FIRST SECOND, two track files of cells\n");
        return 2;
    }
    load(&first_track, names[1]);
    load(&second_track, names[2]);
    for (size_t index = 0;; index++) {
        size_t sectors = read_sector(&first_track, index, &first);
        if (sectors != read_sector(&second_track, index, &second)) {
            fprintf(stderr, "the files have not the same number of sectors\n");
            return 1;
        }
        if (index >= sectors) {
            return 0;
        }
        printf("sector %" PRIu32 ": ", first.number);
        compare(&first, &second);
    }
}
