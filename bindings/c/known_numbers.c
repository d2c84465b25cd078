/*
 * The numbers that docs/SPECIFICATION.md gives to know (rules 1.17, 2.4, 3.13, 3.14, 6.19, 11.10, 14.10 and 17.10), a small track block and an image
 * with it, the plain image of a track, an old track file, the page of a disk, and a track of single density, through include/thikbromu.h: every
 * routine is called, and every refusal is given.
 * The argument is samples/standard.track. It compiles as C99 and as C++.
 */
#include "thikbromu.h"

#include <stdio.h>
#include <string.h>

#define TRACK_CELLS 100000
#define TRACK_BYTES 12500
/* The file's bytes before its cells. */
#define BEFORE_CELLS 10

static int passed = 0;
static int failed = 0;

static void expect(int holds, int line, const char *text)
{
    if (holds) {
        passed++;
    } else {
        failed++;
        printf("line %d: %s\n", line, text);
    }
}

#define EXPECT(condition) expect((condition) ? 1 : 0, __LINE__, #condition)

/* An answer and the value beside it. */
#define GIVES(call, expected) EXPECT((value = 77, (call) == 0 && value == (expected)))
#define REFUSES(call, name, expected) EXPECT((value = 77, (call) == THIKBROMU_REFUSED_##name && value == (expected)))

static size_t value;
static uint8_t room[THIKBROMU_MOST_CELL_BYTES];
static uint32_t timings[THIKBROMU_MOST_TIMINGS + 1];
static const uint8_t nothing[1] = {0};

static uint32_t coded(uint8_t byte, bool before)
{
    uint8_t cells[2] = {0, 0};
    uint32_t refusal = thikbromu_encode(&byte, 1, before, cells, 2, &value);
    return refusal == 0 && value == 2 ? (uint32_t)cells[0] << 8 | cells[1] : 0;
}

static void test_cells(void)
{
    uint8_t cells[3] = {0x44, 0x89, 0xFF};
    EXPECT(thikbromu_cell(cells, 3, 16, 1) == 1);
    EXPECT(thikbromu_cell(cells, 3, 16, 17) == 1);
    EXPECT(thikbromu_cell(cells, 3, 16, 18) == 0);
    EXPECT(thikbromu_word(cells, 3, 16, 0, 16) == 0x4489);
    EXPECT(thikbromu_word(cells, 3, 16, 8, 16) == 0x8944);
    EXPECT(thikbromu_find_word(cells, 3, 16, 0x8944, 16, 0, 16) == 8);
    EXPECT(thikbromu_find_word(cells, 3, 16, 0x8945, 16, 0, 16) == 16);
    EXPECT(thikbromu_find_word(cells, 3, 16, 0x8944, 16, 20, 9) == 20);
    thikbromu_clear(cells, 3, 2);
    EXPECT(cells[0] == 0 && cells[1] == 0 && cells[2] == 0xFF);
    thikbromu_put_one(cells, 3, 9);
    thikbromu_put_one(cells, 3, 24);
    EXPECT(cells[0] == 0 && cells[1] == 0x40 && cells[2] == 0xFF);
}

static void test_coding(void)
{
    EXPECT(coded(0x4E, false) == 0x9254);
    EXPECT(coded(0x00, false) == 0xAAAA);
    EXPECT(coded(0x00, true) == 0x2AAA);
    EXPECT(coded(0xFF, false) == 0x5555);
    EXPECT(coded(0xA1, false) == 0x44A9);
    EXPECT(coded(0xC2, false) == 0x52A4);

    const uint8_t syncs[5] = {0x44, 0x89, 0x52, 0x24, 0xFF};
    uint8_t bytes[3] = {7, 7, 7};
    GIVES(thikbromu_decode(syncs, 5, bytes, 3, &value), 2);
    EXPECT(bytes[0] == 0xA1 && bytes[1] == 0xC2 && bytes[2] == 7);
    REFUSES(thikbromu_decode(syncs, 5, bytes, 1, &value), NO_ROOM_FOR_BYTES, 2);
    REFUSES(thikbromu_encode(syncs, 5, false, bytes, 3, &value), NO_ROOM_FOR_BYTES, 10);
    EXPECT(bytes[0] == 0xA1 && bytes[1] == 0xC2 && bytes[2] == 7);
    GIVES(thikbromu_encode(nothing, 0, true, bytes, 0, &value), 0);
    REFUSES(thikbromu_encode(room, THIKBROMU_MOST_BYTES_TO_CODE + 1, false, bytes, 0, &value), TOO_MANY_BYTES, 8193);
    static const uint8_t many[THIKBROMU_MOST_BYTES_TO_DECODE + 1] = {0};
    REFUSES(thikbromu_decode(many, sizeof many, bytes, 0, &value), TOO_MANY_BYTES, 16385);

    const uint8_t mark[4] = {0xA1, 0xA1, 0xA1, 0xFE};
    const uint8_t data_mark[1] = {0xFB};
    EXPECT(thikbromu_check_word(mark, 3) == 0xCDB4);
    EXPECT(thikbromu_check_word(mark, 4) == 0xB230);
    EXPECT(thikbromu_check_word_from(0xCDB4, data_mark, 1) == 0xE295);
}

/* Fills bytes from `at` on, and gives the place behind them. */
static size_t filled(uint8_t *list, size_t at, uint8_t byte, size_t count)
{
    memset(list + at, byte, count);
    return at + count;
}

/* The list of the standard track, as rule 17.10 has it. */
static size_t standard_list(uint8_t *list, uint8_t track, uint8_t side)
{
    size_t at = filled(list, 0, 0x4E, 60);
    for (uint8_t number = 1; number <= 9; number++) {
        at = filled(list, at, 0x00, 12);
        at = filled(list, at, 0xF5, 3);
        at = filled(list, at, 0xFE, 1);
        at = filled(list, at, track, 1);
        at = filled(list, at, side, 1);
        at = filled(list, at, number, 1);
        at = filled(list, at, 0x02, 1);
        at = filled(list, at, 0xF7, 1);
        at = filled(list, at, 0x4E, 22);
        at = filled(list, at, 0x00, 12);
        at = filled(list, at, 0xF5, 3);
        at = filled(list, at, 0xFB, 1);
        at = filled(list, at, 0xE5, 512);
        at = filled(list, at, 0xF7, 1);
        at = filled(list, at, 0x4E, 40);
    }
    return filled(list, at, 0x4E, 664);
}

/* Write Track: the standard track, each byte that is a command, and the refusals. */
static void test_write_track(const uint8_t *cells)
{
    static uint8_t list[THIKBROMU_MOST_BYTES_TO_CODE + 1];
    static uint8_t kept[THIKBROMU_MOST_CELL_BYTES];
    size_t length = standard_list(list, 0, 0);
    EXPECT(length == 6232);
    memset(room, 77, sizeof room);
    GIVES(thikbromu_write_track(list, length, room, sizeof room, &value), TRACK_CELLS);
    EXPECT(memcmp(room, cells, TRACK_BYTES) == 0 && room[TRACK_BYTES] == 77 && room[sizeof room - 1] == 77);
    GIVES(thikbromu_write_track(list, length, room, TRACK_BYTES, &value), TRACK_CELLS);
    REFUSES(thikbromu_write_track(list, length, room, TRACK_BYTES - 1, &value), NO_ROOM, TRACK_BYTES);

    /* The check word of three syncs and FE is B230; then both its bytes count, and 0000 comes of that. */
    const uint8_t commands[8] = {0xF6, 0xF5, 0xF5, 0xF5, 0xFE, 0xF7, 0xF7, 0x80};
    const uint8_t bytes[6] = {0xFE, 0xB2, 0x30, 0x00, 0x00, 0x80};
    uint8_t made[22];
    memset(made, 77, sizeof made);
    GIVES(thikbromu_write_track(commands, 8, made, sizeof made, &value), 160);
    EXPECT(made[0] == 0x52 && made[1] == 0x24 && made[2] == 0x44 && made[3] == 0x89);
    EXPECT(memcmp(made + 2, made + 4, 4) == 0 && made[20] == 77 && made[21] == 77);
    uint8_t after[12];
    GIVES(thikbromu_encode(bytes, 6, true, after, sizeof after, &value), 12);
    EXPECT(memcmp(made + 8, after, sizeof after) == 0);
    GIVES(thikbromu_write_track(nothing, 0, made, 0, &value), 0);

    /* 8,192 bytes on the track are the most; F7 makes two. Too many are judged before the room, and nothing is written. */
    memset(list, 0x4E, sizeof list);
    memset(room, 77, sizeof room);
    memset(kept, 77, sizeof kept);
    REFUSES(thikbromu_write_track(list, 8193, room, 0, &value), TOO_LONG_A_TRACK, 0);
    REFUSES(thikbromu_write_track(list, 8192, room, 16383, &value), NO_ROOM, 16384);
    list[8191] = 0xF7;
    REFUSES(thikbromu_write_track(list, 8192, room, sizeof room, &value), TOO_LONG_A_TRACK, 0);
    EXPECT(memcmp(room, kept, sizeof room) == 0);
    GIVES(thikbromu_write_track(list, 8191, room, sizeof room, &value), 131056);
    EXPECT(room[16382] == 77 && room[16383] == 77);
    list[8190] = 0xF7;
    GIVES(thikbromu_write_track(list, 8191, room, sizeof room, &value), 131072);
}

/* A step of a row of rule 3.13 or 3.18, from a residual: its cells, its offset, and the next residual. */
static void test_step(int32_t residual, uint32_t timing, size_t cells, int32_t e, int32_t after)
{
    int32_t offset = 7;
    GIVES(thikbromu_step(&residual, timing, &offset, &value), cells);
    EXPECT(offset == e);
    EXPECT(residual == after);
}

/* The border pulses of a list of at most two timings. */
static void test_border_pulses(uint32_t first, uint32_t second, size_t count, size_t expected)
{
    const uint32_t list[2] = {first, second};
    uint8_t cells[1];
    size_t border_pulses = 7;
    size_t given;
    EXPECT(thikbromu_separate(list, count, cells, 1, &border_pulses, &given) == 0);
    EXPECT(border_pulses == expected);
}

static void test_separator(void)
{
    test_step(0, 4900, 2, 900, 450);
    test_step(450, 4000, 2, 450, 225);
    test_step(0, 4999, 2, 999, 499);
    test_step(0, 5000, 3, -1000, -500);
    test_step(-500, 5000, 2, 500, 250);
    test_step(0, 5001, 3, -999, -499);
    test_step(0, 500, 0, 500, 250);
    test_step(250, 3500, 2, -250, -125);
    test_step(0, 10000000, 5000, 0, 0);
    test_step(500, 4900, 2, 900, 450);
    test_step(0, 4901, 2, 901, 450);
    test_step(0, 4902, 2, 902, 451);
    test_step(0, 5098, 3, -902, -451);
    test_step(0, 5099, 3, -901, -450);
    int32_t residual = 3;
    int32_t offset = 7;
    REFUSES(thikbromu_step(&residual, 0, &offset, &value), TIMING_OUT_OF_RANGE, 0);
    EXPECT(residual == 3 && offset == 7);
    residual = 700;
    REFUSES(thikbromu_step(&residual, 10000001, &offset, &value), TIMING_OUT_OF_RANGE, 0);
    EXPECT(residual == 700 && offset == 7);
    /* Step by step, as the row 4900, 4000 has it. */
    residual = 0;
    GIVES(thikbromu_step(&residual, 4900, &offset, &value), 2);
    GIVES(thikbromu_step(&residual, 4000, &offset, &value), 2);
    EXPECT(residual == 225);

    const uint32_t two[2] = {5000, 5000};
    uint8_t cells[2] = {7, 7};
    size_t border_pulses = 7;
    GIVES(thikbromu_separate(two, 2, cells, 2, &border_pulses, &value), 5);
    EXPECT(border_pulses == 1);
    border_pulses = 7;
    EXPECT(cells[0] == 0x28 && cells[1] == 7);
    REFUSES(thikbromu_separate(two, 0, cells, 2, &border_pulses, &value), NO_TIMINGS, 0);
    REFUSES(thikbromu_separate(two, 2, cells, 0, &border_pulses, &value), NO_ROOM, 1);
    EXPECT(cells[0] == 0x28 && cells[1] == 7);
    for (size_t i = 0; i <= THIKBROMU_MOST_TIMINGS; i++) {
        timings[i] = 6000;
    }
    REFUSES(thikbromu_separate(timings, THIKBROMU_MOST_TIMINGS + 1, cells, 2, &border_pulses, &value), TOO_MANY_TIMINGS, 65537);
    REFUSES(thikbromu_separate(timings, THIKBROMU_MOST_TIMINGS, cells, 2, &border_pulses, &value), TOO_MANY_CELLS, 196608);
    timings[9] = 0;
    REFUSES(thikbromu_separate(timings, THIKBROMU_MOST_TIMINGS, cells, 2, &border_pulses, &value), TIMING_OUT_OF_RANGE, 9);
    EXPECT(border_pulses == 7);

    test_border_pulses(4901, 0, 1, 0);
    test_border_pulses(4902, 0, 1, 1);
    test_border_pulses(5098, 0, 1, 1);
    test_border_pulses(5099, 0, 1, 0);
    test_border_pulses(4902, 4451, 2, 2);
}

static void test_histogram(void)
{
    const uint32_t some[5] = {1, 99, 100, 25500, 10000000};
    uint32_t counts[THIKBROMU_HISTOGRAM_COUNTS];
    GIVES(thikbromu_histogram(some, 5, counts, THIKBROMU_HISTOGRAM_COUNTS, &value), 5);
    EXPECT(counts[0] == 2 && counts[1] == 1 && counts[2] == 0 && counts[254] == 0 && counts[255] == 2);
    REFUSES(thikbromu_histogram(some, 0, counts, THIKBROMU_HISTOGRAM_COUNTS, &value), NO_TIMINGS, 0);
    EXPECT(counts[0] == 0 && counts[1] == 0 && counts[255] == 0);
}

/* Two revolutions on track 5. The table ends at 28; the first has three values there, the second two at 34. The block has 38 bytes. */
#define BLOCK_BYTES 38
#define SECOND_COUNT 20
#define SECOND_OFFSET 24
static const uint8_t two_revolutions[BLOCK_BYTES] = {
    'T', 'R', 'K', 5,
    0xD0, 2, 0, 0, 3, 0, 0, 0, 28, 0, 0, 0,
    1, 0, 1, 0, 2, 0, 0, 0, 34, 0, 0, 0,
    0, 160, 0, 240, 1, 64,
    0, 0, 0, 1};

static void test_track_blocks(void)
{
    uint8_t block[BLOCK_BYTES];
    uint32_t list[4] = {7, 7, 7, 7};
    uint8_t cells[3] = {7, 7, 7};

    /* 160, 240 and 320 units of 25 ns; 65,536 + 1 units. */
    size_t border_pulses = 7;
    GIVES(thikbromu_revolution_timings(two_revolutions, BLOCK_BYTES, 2, 0, list, 4, &border_pulses, &value), 3);
    EXPECT(list[0] == 4000 && list[1] == 6000 && list[2] == 8000 && list[3] == 7);
    EXPECT(border_pulses == 0);
    border_pulses = 7;
    GIVES(thikbromu_revolution_timings(two_revolutions, BLOCK_BYTES, 2, 1, list, 1, &border_pulses, &value), 1);
    EXPECT(list[0] == 1638425 && list[1] == 6000 && border_pulses == 0);
    /* 197 units end 925 ns after 2 cells, and 98 then 912 ns after one: both are border pulses. */
    memcpy(block, two_revolutions, BLOCK_BYTES);
    block[BLOCK_BYTES - 3] = 197;
    block[BLOCK_BYTES - 1] = 98;
    GIVES(thikbromu_revolution_timings(block, BLOCK_BYTES, 2, 1, list, 2, &border_pulses, &value), 2);
    EXPECT(list[0] == 4925 && list[1] == 2450 && border_pulses == 2);
    list[1] = 6000;
    /* 2, 3 and 4 cells: 01, 001, 0001. */
    border_pulses = 7;
    GIVES(thikbromu_revolution_cells(two_revolutions, BLOCK_BYTES, 2, 0, cells, 3, &border_pulses, &value), 9);
    EXPECT(border_pulses == 0);
    border_pulses = 7;
    EXPECT(cells[0] == 0x48 && cells[1] == 0x80 && cells[2] == 7);

    /* What is refused leaves the memory as it was. */
    list[0] = 7;
    cells[0] = 7;
    REFUSES(thikbromu_revolution_timings(two_revolutions, BLOCK_BYTES - 1, 2, 0, list, 4, &border_pulses, &value), NOT_A_TRACK_BLOCK, 0);
    REFUSES(thikbromu_revolution_timings(two_revolutions, BLOCK_BYTES, 3, 0, list, 4, &border_pulses, &value), NOT_A_TRACK_BLOCK, 0);
    REFUSES(thikbromu_revolution_timings(two_revolutions, BLOCK_BYTES, 2, 2, list, 0, &border_pulses, &value), NO_SUCH_REVOLUTION, 0);
    REFUSES(thikbromu_revolution_timings(two_revolutions, BLOCK_BYTES, 2, 0, list, 2, &border_pulses, &value), NO_ROOM, 3);
    REFUSES(thikbromu_revolution_cells(two_revolutions, BLOCK_BYTES, 3, 0, cells, 3, &border_pulses, &value), NOT_A_TRACK_BLOCK, 0);
    REFUSES(thikbromu_revolution_cells(two_revolutions, BLOCK_BYTES, 2, 2, cells, 3, &border_pulses, &value), NO_SUCH_REVOLUTION, 0);
    REFUSES(thikbromu_revolution_cells(two_revolutions, BLOCK_BYTES, 2, 0, cells, 1, &border_pulses, &value), NO_ROOM, 2);
    /* The second revolution without values, and with one, which is a 0. */
    memcpy(block, two_revolutions, BLOCK_BYTES);
    block[SECOND_COUNT] = 0;
    REFUSES(thikbromu_revolution_timings(block, BLOCK_BYTES, 2, 1, list, 4, &border_pulses, &value), NO_TIMINGS, 0);
    REFUSES(thikbromu_revolution_cells(block, BLOCK_BYTES, 2, 1, cells, 3, &border_pulses, &value), NO_TIMINGS, 0);
    block[SECOND_COUNT] = 1;
    REFUSES(thikbromu_revolution_timings(block, BLOCK_BYTES, 2, 0, list, 4, &border_pulses, &value), NOT_A_TRACK_BLOCK, 0);
    /* Its values from the last byte of the table on. */
    block[SECOND_OFFSET] = 27;
    REFUSES(thikbromu_revolution_timings(block, BLOCK_BYTES, 2, 0, list, 4, &border_pulses, &value), NOT_A_TRACK_BLOCK, 0);
    EXPECT(list[0] == 7 && list[1] == 6000 && list[2] == 8000 && list[3] == 7);
    EXPECT(cells[0] == 7 && cells[1] == 0x80 && cells[2] == 7);

    /* 65,537 values of 1 in one revolution. */
    static uint8_t many[16 + 2 * (THIKBROMU_MOST_TIMINGS + 1)];
    static const uint8_t front[16] = {'T', 'R', 'K', 0, 0, 0, 0, 0, 1, 0, 1, 0, 16, 0, 0, 0};
    memcpy(many, front, sizeof front);
    for (size_t i = 17; i < sizeof many; i += 2) {
        many[i] = 1;
    }
    REFUSES(thikbromu_revolution_timings(many, sizeof many, 1, 0, timings, THIKBROMU_MOST_TIMINGS + 1, &border_pulses, &value),
            TOO_MANY_TIMINGS, 65537);
    /* With its sixth to twelfth value 0, the thirteenth is more than seven times 65,536 units. */
    memset(many + 16 + 2 * 5, 0, 2 * 7);
    REFUSES(thikbromu_revolution_timings(many, sizeof many, 1, 0, timings, THIKBROMU_MOST_TIMINGS + 1, &border_pulses, &value),
            TIMING_OUT_OF_RANGE, 5);
    EXPECT(border_pulses == 7);
}

/* A number of a state: so many timings and zeros, and 1 more than the byte that is held, or 0. */
static uint32_t number_of(uint32_t ended, uint32_t zeros, uint32_t held)
{
    return held + 257 * (zeros + 8 * ended);
}

/* An image that has the block of two revolutions twice: for track 1, side 1, and behind it for track 0, side 0. */
#define IMAGE_BYTES (THIKBROMU_IMAGE_HEADER_BYTES + 2 * BLOCK_BYTES)

static void make_image(uint8_t *image)
{
    static const uint8_t front[12] = {'S', 'C', 'P', 0x22, 0x15, 2, 0, 3, 1, 0, 0, 0};
    memset(image, 0, IMAGE_BYTES);
    memcpy(image, front, sizeof front);
    image[16] = (THIKBROMU_IMAGE_HEADER_BYTES + BLOCK_BYTES) % 256;
    image[17] = (THIKBROMU_IMAGE_HEADER_BYTES + BLOCK_BYTES) / 256;
    image[28] = THIKBROMU_IMAGE_HEADER_BYTES % 256;
    image[29] = THIKBROMU_IMAGE_HEADER_BYTES / 256;
    memcpy(image + THIKBROMU_IMAGE_HEADER_BYTES, two_revolutions, BLOCK_BYTES);
    memcpy(image + THIKBROMU_IMAGE_HEADER_BYTES + BLOCK_BYTES, two_revolutions, BLOCK_BYTES);
}

static void test_images(void)
{
    static uint8_t image[IMAGE_BYTES];
    uint32_t numbers[THIKBROMU_IMAGE_HEADER_NUMBERS + 1];
    uint32_t places[THIKBROMU_IMAGE_PLACE_NUMBERS + 1];
    make_image(image);
    const size_t length = THIKBROMU_IMAGE_HEADER_BYTES;
    const size_t second = THIKBROMU_IMAGE_HEADER_BYTES + BLOCK_BYTES;

    for (size_t i = 0; i <= THIKBROMU_IMAGE_HEADER_NUMBERS; i++) numbers[i] = 7;
    image[12] = 0x78;
    image[15] = 0x12;
    GIVES(thikbromu_image_header(image, length, IMAGE_BYTES, numbers, THIKBROMU_IMAGE_HEADER_NUMBERS, &value), 10);
    EXPECT(numbers[THIKBROMU_IMAGE_VERSION] == 0x22 && numbers[THIKBROMU_IMAGE_DISK_TYPE] == 0x15);
    EXPECT(numbers[THIKBROMU_IMAGE_REVOLUTIONS] == 2 && numbers[THIKBROMU_IMAGE_FIRST_TRACK] == 0);
    EXPECT(numbers[THIKBROMU_IMAGE_LAST_TRACK] == 3 && numbers[THIKBROMU_IMAGE_FLAGS] == 1);
    EXPECT(numbers[THIKBROMU_IMAGE_CELL_WIDTH] == 0 && numbers[THIKBROMU_IMAGE_HEADS] == 0);
    EXPECT(numbers[THIKBROMU_IMAGE_RESOLUTION] == 0 && numbers[THIKBROMU_IMAGE_CHECK_SUM] == 0x12000078);
    EXPECT(numbers[THIKBROMU_IMAGE_HEADER_NUMBERS] == 7);

    for (size_t i = 0; i <= THIKBROMU_IMAGE_PLACE_NUMBERS; i++) places[i] = 7;
    GIVES(thikbromu_image_entries(image, length, IMAGE_BYTES, places, THIKBROMU_IMAGE_PLACE_NUMBERS, &value), 2);
    EXPECT(places[0] == second && places[1] == IMAGE_BYTES);
    EXPECT(places[6] == THIKBROMU_IMAGE_HEADER_BYTES && places[7] == second);
    uint32_t others = 0;
    for (size_t i = 0; i < THIKBROMU_IMAGE_PLACE_NUMBERS; i++) others += i > 1 && i != 6 && i != 7 ? places[i] : 0;
    EXPECT(others == 0 && places[THIKBROMU_IMAGE_PLACE_NUMBERS] == 7);
    size_t border_pulses = 7;
    GIVES(thikbromu_revolution_timings(image + places[6], places[7] - places[6], 2, 0, timings, 3, &border_pulses, &value), 3);
    EXPECT(timings[0] == 4000 && timings[1] == 6000 && timings[2] == 8000 && border_pulses == 0);

    /* The sum of all bytes from 16 on, in two portions. */
    uint32_t sum = 0;
    for (size_t i = 16; i < IMAGE_BYTES; i++) sum += image[i];
    EXPECT(thikbromu_image_sum(0, image + 16, IMAGE_BYTES - 16) == sum);
    EXPECT(thikbromu_image_sum(thikbromu_image_sum(0, image + 16, 600), image + 616, IMAGE_BYTES - 616) == sum);
    EXPECT(thikbromu_image_sum(4294967295u, image + 12, 1) == 0x77);
    REFUSES(thikbromu_image_check(image, length, IMAGE_BYTES, sum, &value), IMAGE_CHECK_SUM, sum);
    GIVES(thikbromu_image_check(image, length, IMAGE_BYTES, 0x12000078, &value), 0x12000078);
    image[8] |= 16;
    GIVES(thikbromu_image_check(image, length, IMAGE_BYTES, sum, &value), sum);

    /* What is refused leaves the memory as it was. */
    numbers[0] = 7;
    places[0] = 7;
    REFUSES(thikbromu_image_header(image, length - 1, IMAGE_BYTES, numbers, 1, &value), NOT_AN_IMAGE, 0);
    REFUSES(thikbromu_image_entries(image, length, length - 1, places, 1, &value), NOT_AN_IMAGE, 0);
    REFUSES(thikbromu_image_entries(image, length, IMAGE_BYTES - BLOCK_BYTES + 27, places, 1, &value), IMAGE_ENTRY, 0);
    image[28] -= 1;
    REFUSES(thikbromu_image_entries(image, length, IMAGE_BYTES, places, 1, &value), IMAGE_ENTRY, 3);
    image[11] = 1;
    REFUSES(thikbromu_image_header(image, length, IMAGE_BYTES, numbers, 1, &value), IMAGE_HEADER, 11);
    REFUSES(thikbromu_image_entries(image, length, IMAGE_BYTES, places, 1, &value), IMAGE_HEADER, 11);
    REFUSES(thikbromu_image_check(image, length, IMAGE_BYTES, sum, &value), IMAGE_HEADER, 11);
    image[0] = 's';
    REFUSES(thikbromu_image_check(image, length, IMAGE_BYTES, sum, &value), NOT_AN_IMAGE, 0);
    EXPECT(numbers[0] == 7 && places[0] == 7);
}

static void test_portions(void)
{
    /* 0, 1 and 160 in three portions: 65,537 units and 160. */
    const uint8_t *values = two_revolutions + 34;
    const uint8_t last[2] = {0, 160};
    uint32_t list[2] = {7, 7};
    uint32_t number = 0;
    GIVES(thikbromu_revolution_portion(&number, values, 3, list, 0, &value), 0);
    EXPECT(number == number_of(0, 1, 1));
    REFUSES(thikbromu_revolution_portion(&number, values + 3, 1, list, 0, &value), NO_ROOM, 1);
    EXPECT(number == number_of(0, 1, 1) && list[0] == 7);
    GIVES(thikbromu_revolution_portion(&number, values + 3, 1, list, 2, &value), 1);
    EXPECT(number == 2056 && list[0] == 1638425 && list[1] == 7);
    GIVES(thikbromu_revolution_portion(&number, nothing, 0, list, 2, &value), 0);
    EXPECT(number == 2056);
    GIVES(thikbromu_revolution_portion(&number, last, 2, list, 1, &value), 1);
    EXPECT(number == number_of(2, 0, 0) && list[0] == 4000 && list[1] == 7);

    /* Counted from the revolution's start. */
    number = number_of(65535, 7, 0);
    REFUSES(thikbromu_revolution_portion(&number, last, 2, list, 2, &value), TIMING_OUT_OF_RANGE, 65535);
    EXPECT(number == number_of(65535, 7, 0));
    number = number_of(65536, 7, 1);
    REFUSES(thikbromu_revolution_portion(&number, last + 1, 1, list, 2, &value), TOO_MANY_TIMINGS, 65537);
    EXPECT(number == number_of(65536, 7, 1) && list[0] == 4000 && list[1] == 7);

    /* A number that no call leaves counts as 0, and is kept beside a refusal. */
    number = number_of(65537, 0, 0);
    REFUSES(thikbromu_revolution_portion(&number, last, 2, list, 0, &value), NO_ROOM, 1);
    EXPECT(number == number_of(65537, 0, 0));
    GIVES(thikbromu_revolution_portion(&number, values, 4, list, 2, &value), 1);
    EXPECT(number == 2056 && list[0] == 1638425 && list[1] == 7);
}

static void test_standard_track(const uint8_t *cells)
{
    uint32_t sector[THIKBROMU_SECTOR_NUMBERS];
    for (size_t index = 0; index < 9; index++) {
        uint32_t place = 1152 + 9824 * (uint32_t)index;
        const uint32_t expected[THIKBROMU_SECTOR_NUMBERS] = {
            place, 0xFE, 0, 0, (uint32_t)index + 1, 2, 1, place + 704, 0xFB, 512, 1, place + 704 + 8288, 2};
        GIVES(thikbromu_sector(cells, TRACK_BYTES, TRACK_CELLS, 0, 0, index, sector, THIKBROMU_SECTOR_NUMBERS, &value), 9);
        EXPECT(memcmp(sector, expected, sizeof expected) == 0);
    }
    const uint32_t zeros[THIKBROMU_SECTOR_NUMBERS] = {0};
    REFUSES(thikbromu_sector(cells, TRACK_BYTES, TRACK_CELLS, 0, 0, 9, sector, THIKBROMU_SECTOR_NUMBERS, &value),
            NO_SUCH_SECTOR, 9);
    EXPECT(memcmp(sector, zeros, sizeof zeros) == 0);

    uint8_t data[THIKBROMU_LONGEST_SECTOR] = {0};
    uint8_t decoded[512];
    uint32_t good = 77;
    data[512] = 7;
    GIVES(thikbromu_read_out(cells, TRACK_BYTES, TRACK_CELLS, 0, 0, 0, data, sizeof data, &good, &value), 512);
    EXPECT(good == 1 && data[512] == 7);
    GIVES(thikbromu_decode(cells + (1152 + 704 + 64) / 8, 1024, decoded, sizeof decoded, &value), 512);
    EXPECT(memcmp(data, decoded, sizeof decoded) == 0);
    good = 77;
    REFUSES(thikbromu_read_out(cells, TRACK_BYTES, TRACK_CELLS, 0, 0, 0, data, 511, &good, &value), NO_ROOM_FOR_BYTES, 512);
    EXPECT(good == 77);

    /* With the syncs of the first data mark spoilt, its ID has no data; all other sectors keep theirs. */
    memcpy(room, cells, TRACK_BYTES);
    thikbromu_clear(room + (1152 + 704) / 8, 6, 6);
    REFUSES(thikbromu_read_out(room, TRACK_BYTES, TRACK_CELLS, 0, 0, 0, data, sizeof data, &good, &value), NO_DATA, 0);
}

/* Writes an ID or data from a cell on, which begins a byte of cells: three syncs, the mark, so many bytes, and their check. */
static void write_after_syncs(uint8_t *cells, size_t place, uint8_t mark, const uint8_t *bytes, size_t count)
{
    static const uint8_t syncs[6] = {0x44, 0x89, 0x44, 0x89, 0x44, 0x89};
    uint8_t all[4 + 512 + THIKBROMU_CHECK_BYTES] = {0xA1, 0xA1, 0xA1, mark};
    memcpy(all + 4, bytes, count);
    uint16_t check = thikbromu_check_word(all, 4 + count);
    all[4 + count] = (uint8_t)(check >> 8);
    all[5 + count] = (uint8_t)(check & 0xFF);
    memcpy(cells + place / 8, syncs, sizeof syncs);
    /* The last bit of the syncs is a one. */
    GIVES(thikbromu_encode(all + 3, count + 3, true, cells + place / 8 + sizeof syncs, 2 * (count + 3), &value), 2 * (count + 3));
}

/* Where the sector of an index stands on the standard track, and its data mark. */
#define PLACE_OF(index) (1152 + 9824 * (size_t)(index))
#define DATA_PLACE_OF(index) (PLACE_OF(index) + 704)

static void write_id(uint8_t *cells, size_t place, uint8_t number, uint8_t size_code)
{
    const uint8_t id[4] = {0, 0, number, size_code};
    write_after_syncs(cells, place, 0xFE, id, sizeof id);
}

#define IMAGE_OF(cells, length) thikbromu_sector_image(cells, TRACK_BYTES, TRACK_CELLS, 0, 0, image, length, &value)

/* The plain image: the sectors of the standard track with other numbers, each data byte its sector's number. */
static void test_sector_image(const uint8_t *cells)
{
    static const uint8_t numbers[9] = {5, 1, 9, 3, 7, 2, 8, 4, 6};
    static uint8_t image[THIKBROMU_SECTOR_IMAGE_BYTES + 2];
    static uint8_t kept[THIKBROMU_SECTOR_IMAGE_BYTES + 2];
    uint8_t data[512];
    memset(image, 77, sizeof image);
    memset(kept, 77, sizeof kept);

    /* As it is, with E5 in every byte. */
    GIVES(IMAGE_OF(cells, sizeof image), 4608);
    EXPECT(image[0] == 0xE5 && image[4607] == 0xE5 && image[4608] == 77 && image[4609] == 77);
    EXPECT(memcmp(image, image + 1, 4607) == 0);

    memcpy(room, cells, TRACK_BYTES);
    for (size_t index = 0; index < 9; index++) {
        memset(data, numbers[index], sizeof data);
        write_id(room, PLACE_OF(index), numbers[index], 2);
        write_after_syncs(room, DATA_PLACE_OF(index), 0xFB, data, sizeof data);
    }
    memset(image, 77, sizeof image);
    GIVES(IMAGE_OF(room, THIKBROMU_SECTOR_IMAGE_BYTES), 4608);
    for (size_t number = 1; number <= 9; number++) {
        memset(data, (int)number, sizeof data);
        EXPECT(memcmp(image + 512 * (number - 1), data, sizeof data) == 0);
    }
    EXPECT(image[4608] == 77 && image[4609] == 77);

    /* What is refused leaves the memory as it was. Too little room is judged last. */
    memset(image, 77, sizeof image);
    REFUSES(IMAGE_OF(room, 4607), NO_ROOM_FOR_BYTES, 4608);
    REFUSES(IMAGE_OF(room, 0), NO_ROOM_FOR_BYTES, 4608);
    /* One sector more, in the last gap: the number 0, then 10, which are none of the nine, and then 6 a second time. */
    write_id(room, PLACE_OF(9), 0, 2);
    REFUSES(IMAGE_OF(room, sizeof image), NO_PLAIN_IMAGE, 0);
    write_id(room, PLACE_OF(9), 10, 2);
    REFUSES(IMAGE_OF(room, 0), NO_PLAIN_IMAGE, 0);
    write_id(room, PLACE_OF(9), 6, 2);
    REFUSES(IMAGE_OF(room, sizeof image), NO_PLAIN_IMAGE, 6);
    /* A size code of 6, whose data has 512 bytes too: sector 5, which is less than 6. */
    write_id(room, PLACE_OF(0), 5, 6);
    REFUSES(IMAGE_OF(room, sizeof image), NO_PLAIN_IMAGE, 5);
    /* A bad data check of sector 4, a bad ID check of sector 3, no data of sector 2, no sector 1. */
    room[DATA_PLACE_OF(7) / 8 + 100] ^= 0x04;
    REFUSES(IMAGE_OF(room, sizeof image), NO_PLAIN_IMAGE, 4);
    room[PLACE_OF(3) / 8 + 17] ^= 0x01;
    REFUSES(IMAGE_OF(room, sizeof image), NO_PLAIN_IMAGE, 3);
    thikbromu_clear(room + DATA_PLACE_OF(5) / 8, 6, 6);
    REFUSES(IMAGE_OF(room, sizeof image), NO_PLAIN_IMAGE, 2);
    write_id(room, PLACE_OF(1), 11, 2);
    REFUSES(IMAGE_OF(room, 0), NO_PLAIN_IMAGE, 1);

    /* The track is judged first. */
    REFUSES(thikbromu_sector_image(room, 0, 0, 84, 0, image, 0, &value), TRACK_OR_SIDE, 0);
    REFUSES(thikbromu_sector_image(room, 0, 0, 0, 2, image, 0, &value), TRACK_OR_SIDE, 0);
    REFUSES(thikbromu_sector_image(room, 0, 19999, 83, 1, image, 0, &value), CELL_COUNT, 19999);
    REFUSES(thikbromu_sector_image(room, 2499, 20000, 83, 1, image, 0, &value), TOO_FEW_BYTES, 2500);
    EXPECT(memcmp(image, kept, sizeof image) == 0);
}

/* Two reads of a sector, as rule 14.10 has them. */
static void test_two_reads(void)
{
    enum { LENGTH = 512 + THIKBROMU_CHECK_BYTES };
    uint8_t first[LENGTH];
    uint8_t second[LENGTH];
    uint32_t numbers[THIKBROMU_FINDING_NUMBERS + 1] = {7, 7, 7, 7, 7};
    size_t which = 77;
    memset(first, 0xE5, sizeof first);
    first[512] = 0xC4;
    first[513] = 0x0B;
    memcpy(second, first, sizeof second);

    GIVES(thikbromu_compare_reads(first, LENGTH, second, LENGTH, 0xFB, numbers, THIKBROMU_FINDING_NUMBERS, &value), 0);
    EXPECT(numbers[0] == 0 && numbers[1] == 0 && numbers[2] == 0 && numbers[3] == 0 && numbers[4] == 7);
    GIVES(thikbromu_good_read(first, LENGTH, second, LENGTH, 0xFB, &which, &value), 512);
    EXPECT(which == 0);
    GIVES(thikbromu_good_read(first, LENGTH, second, LENGTH, 0x100FB, &which, &value), 512);
    GIVES(thikbromu_good_read(first, LENGTH, second, LENGTH, 0xFA, &which, &value), 0);
    EXPECT(which == 0);

    first[100] ^= 0x03;
    first[513] ^= 0x80;
    GIVES(thikbromu_compare_reads(first, LENGTH, second, LENGTH, 0xFB, numbers, THIKBROMU_FINDING_NUMBERS, &value), 1);
    EXPECT(numbers[0] == THIKBROMU_KIND_FZD && numbers[1] == 1 && numbers[2] == 100 && numbers[3] == 3 && numbers[4] == 7);
    GIVES(thikbromu_good_read(first, LENGTH, second, LENGTH, 0xFB, &which, &value), 512);
    EXPECT(which == 1);

    REFUSES(thikbromu_compare_reads(first, LENGTH, second, LENGTH - 1, 0xFB, numbers, 1, &value), LENGTHS_DIFFER, 0);
    EXPECT(numbers[0] == 0 && numbers[1] == 1);
    REFUSES(thikbromu_good_read(first, LENGTH - 1, second, LENGTH, 0xFB, &which, &value), LENGTHS_DIFFER, 0);
    EXPECT(which == 0);
    which = 77;
    REFUSES(thikbromu_compare_reads(first, 512, second, 512, 0xFB, numbers, 0, &value), NOT_A_SECTOR_LENGTH, 0);
    REFUSES(thikbromu_good_read(first, 512, second, 512, 0xFB, &which, &value), NOT_A_SECTOR_LENGTH, 0);
    EXPECT(which == 0);
}

static void test_findings(const uint8_t *cells)
{
    EXPECT(sizeof(struct thikbromu_finding) == 12);
    EXPECT(offsetof(struct thikbromu_finding, level) == 1);
    EXPECT(offsetof(struct thikbromu_finding, place) == 4);
    EXPECT(offsetof(struct thikbromu_finding, detail) == 8);

    static struct thikbromu_finding records[THIKBROMU_MOST_FINDINGS];
    uint32_t numbers[2 * THIKBROMU_FINDING_NUMBERS];
    GIVES(thikbromu_finding_records(cells, TRACK_BYTES, TRACK_CELLS, 0, 0, records, THIKBROMU_MOST_FINDINGS, &value), 0);

    /* All bytes AA, at track 5. */
    memset(room, 0xAA, TRACK_BYTES);
    GIVES(thikbromu_finding_records(room, TRACK_BYTES, TRACK_CELLS, 5, 0, records, THIKBROMU_MOST_FINDINGS, &value), 2);
    EXPECT(records[0].kind == THIKBROMU_KIND_NOS && records[0].level == 3);
    EXPECT(records[1].kind == THIKBROMU_KIND_TNF && records[1].level == 2);

    /* All zero cells, at track 80. */
    memset(room, 0, TRACK_BYTES);
    const uint32_t expected[8] = {THIKBROMU_KIND_NOS, 3, 0, 0, THIKBROMU_KIND_NFA, 1, 0, 100000};
    GIVES(thikbromu_findings(room, TRACK_BYTES, TRACK_CELLS, 80, 0, numbers, 8, &value), 2);
    EXPECT(memcmp(numbers, expected, sizeof expected) == 0);
    REFUSES(thikbromu_findings(room, TRACK_BYTES, TRACK_CELLS, 80, 0, numbers, 7, &value), LIST_TOO_SHORT, 2);
    REFUSES(thikbromu_finding_records(room, TRACK_BYTES, TRACK_CELLS, 80, 0, records, 1, &value), LIST_TOO_SHORT, 2);

    REFUSES(thikbromu_findings(room, 0, 0, 84, 0, numbers, 0, &value), TRACK_OR_SIDE, 0);
    REFUSES(thikbromu_findings(room, 0, 19999, 83, 1, numbers, 0, &value), CELL_COUNT, 19999);
    REFUSES(thikbromu_findings(room, 0, 131073, 83, 1, numbers, 0, &value), CELL_COUNT, 131073);
    REFUSES(thikbromu_findings(room, 2499, 20000, 83, 1, numbers, 0, &value), TOO_FEW_BYTES, 2500);
}

/* The records and the numbers of the same findings, by their names: the fields of the struct stand where the library writes them. In each
 * of these findings the kind, the level, the place and the detail are four different numbers. */
static void test_records(const uint8_t *cells)
{
    enum { FINDINGS = 3 };
    struct thikbromu_finding records[FINDINGS];
    uint32_t numbers[FINDINGS][THIKBROMU_FINDING_NUMBERS];
    /* Zeros in the data of the second sector: its check is bad, two ones are far apart, and a stretch has no flux. */
    memcpy(room, cells, TRACK_BYTES);
    memset(room + 2000, 0, 200);
    GIVES(thikbromu_finding_records(room, TRACK_BYTES, TRACK_CELLS, 0, 0, records, FINDINGS, &value), FINDINGS);
    GIVES(thikbromu_findings(room, TRACK_BYTES, TRACK_CELLS, 0, 0, numbers[0], FINDINGS * THIKBROMU_FINDING_NUMBERS, &value),
          FINDINGS);
    for (size_t i = 0; i < FINDINGS; i++) {
        EXPECT(records[i].kind == numbers[i][0]);
        EXPECT(records[i].level == numbers[i][1]);
        EXPECT(records[i].place == numbers[i][2]);
        EXPECT(records[i].detail == numbers[i][3]);
        for (size_t j = 0; j < THIKBROMU_FINDING_NUMBERS; j++) {
            for (size_t k = 0; k < j; k++) {
                EXPECT(numbers[i][j] != numbers[i][k]);
            }
        }
    }
    EXPECT(records[0].kind == THIKBROMU_KIND_SBD && records[0].level == 1 && records[0].place == 10976 && records[0].detail == 2);
    EXPECT(records[1].kind == THIKBROMU_KIND_MTV && records[1].level == 3);
    EXPECT(records[2].kind == THIKBROMU_KIND_NFA && records[2].level == 1 && records[2].detail >= 1600);
}

/* An ID mark every 40 bytes of cells, 65 in all. */
static void test_too_many_sectors(void)
{
    const uint8_t mark[8] = {0x44, 0x89, 0x44, 0x89, 0x44, 0x89, 0x55, 0x54};
    memset(room, 0xAA, sizeof room);
    for (size_t sector = 0; sector < 65; sector++) {
        memcpy(room + 40 * sector, mark, sizeof mark);
    }
    uint32_t numbers[4];
    REFUSES(thikbromu_findings(room, 65 * 40, 65 * 320, 0, 0, numbers, 4, &value), TOO_MANY_SECTORS, 65);
    uint8_t image[1] = {77};
    REFUSES(thikbromu_sector_image(room, 65 * 40, 65 * 320, 0, 0, image, 1, &value), TOO_MANY_SECTORS, 65);
    REFUSES(thikbromu_sector_image(room, 64 * 40, 64 * 320, 0, 0, image, 1, &value), NO_PLAIN_IMAGE, 1);
    EXPECT(image[0] == 77);
}

/* The standard track of single density has 50,000 cells: 20 bytes FF, 18 sectors, 27 bytes FF. */
#define SINGLE_CELLS 50000
#define SINGLE_BYTES 6250
/* Where its first sector stands, from one to the next, and from a sector to its data mark. */
#define SINGLE_FIRST 416
#define SINGLE_RECORD 2736
#define SINGLE_TO_DATA 384

/* Writes bytes in FM, with a clock of 1 before each bit, and gives where the next go. */
static uint8_t *write_fm(uint8_t *to, const uint8_t *bytes, size_t count)
{
    for (size_t i = 0; i < count; i++) {
        uint32_t cells = 0xAAAA;
        for (unsigned bit = 0; bit < 8; bit++) {
            cells |= ((uint32_t)bytes[i] >> bit & 1) << 2 * bit;
        }
        *to++ = (uint8_t)(cells >> 8);
        *to++ = (uint8_t)(cells & 0xFF);
    }
    return to;
}

/* The same byte, so many times. */
static uint8_t *repeat_fm(uint8_t *to, uint8_t byte, size_t count)
{
    for (size_t i = 0; i < count; i++) {
        to = write_fm(to, &byte, 1);
    }
    return to;
}

/* A mark by its cells, and what follows its byte, which stands first in `bytes`; then the check of all. */
static uint8_t *write_marked(uint8_t *to, uint32_t mark, const uint8_t *bytes, size_t count)
{
    uint16_t check = thikbromu_check_word(bytes, count);
    const uint8_t check_bytes[2] = {(uint8_t)(check >> 8), (uint8_t)(check & 0xFF)};
    *to++ = (uint8_t)(mark >> 8);
    *to++ = (uint8_t)(mark & 0xFF);
    to = write_fm(to, bytes + 1, count - 1);
    return write_fm(to, check_bytes, 2);
}

/* The standard track, at track 2 and side 0, with every data byte 11. The data of its fourth sector is marked as deleted. */
static void write_single_track(uint8_t *cells)
{
    uint8_t *to = repeat_fm(cells, 0xFF, 20);
    for (uint8_t number = 1; number <= 18; number++) {
        const uint8_t id[5] = {0xFE, 2, 0, number, 0};
        uint8_t data[129];
        memset(data, 0x11, sizeof data);
        data[0] = number == 4 ? 0xF8 : 0xFB;
        to = repeat_fm(to, 0x00, 6);
        to = write_marked(to, 0xF57E, id, sizeof id);
        to = repeat_fm(to, 0xFF, 11);
        to = repeat_fm(to, 0x00, 6);
        to = write_marked(to, number == 4 ? 0xF56A : 0xF56F, data, sizeof data);
        to = repeat_fm(to, 0xFF, 10);
    }
    to = repeat_fm(to, 0xFF, 27);
    EXPECT(to == cells + SINGLE_BYTES);
}

/* A step of single density: its cells, its offset, and the next residual. */
static void test_single_step(int32_t residual, uint32_t timing, size_t cells, int32_t e, int32_t after)
{
    int32_t offset = 7;
    GIVES(thikbromu_fm_step(&residual, timing, &offset, &value), cells);
    EXPECT(offset == e);
    EXPECT(residual == after);
}

static void test_single_separator(void)
{
    test_single_step(0, 9800, 2, 1800, 900);
    test_single_step(900, 8000, 2, 900, 450);
    test_single_step(0, 9999, 2, 1999, 999);
    test_single_step(0, 10000, 3, -2000, -1000);
    test_single_step(-1000, 10000, 2, 1000, 500);
    test_single_step(0, 10001, 3, -1999, -999);
    test_single_step(0, 1000, 0, 1000, 500);
    test_single_step(500, 7000, 2, -500, -250);
    test_single_step(0, 10000000, 2500, 0, 0);
    test_single_step(999, 8000, 2, 999, 499);
    test_single_step(1000, 9800, 2, 1800, 900);
    test_single_step(-1001, 9800, 2, 1800, 900);
    int32_t residual = 3;
    int32_t offset = 7;
    REFUSES(thikbromu_fm_step(&residual, 0, &offset, &value), TIMING_OUT_OF_RANGE, 0);
    EXPECT(residual == 3 && offset == 7);

    /* A window's border, an offset of 1804 ns at the end of a window and at its beginning, and just within both. */
    const uint32_t two[2] = {10000, 10000};
    const uint32_t late[2] = {9804, 8902};
    const uint32_t early[1] = {10196};
    const uint32_t within[2] = {9803, 9294};
    uint8_t cells[2] = {7, 7};
    size_t border_pulses = 7;
    GIVES(thikbromu_fm_separate(two, 2, cells, 2, &border_pulses, &value), 5);
    EXPECT(border_pulses == 1 && cells[0] == 0x28 && cells[1] == 7);
    GIVES(thikbromu_fm_separate(late, 2, cells, 2, &border_pulses, &value), 4);
    EXPECT(border_pulses == 2 && cells[0] == 0x50 && cells[1] == 7);
    GIVES(thikbromu_fm_separate(early, 1, cells, 2, &border_pulses, &value), 3);
    EXPECT(border_pulses == 1 && cells[0] == 0x20);
    /* The second offset is 9294 + 901 - 3 * 4000, which is -1805. */
    GIVES(thikbromu_fm_separate(within, 2, cells, 2, &border_pulses, &value), 5);
    EXPECT(border_pulses == 1 && cells[0] == 0x48);
    GIVES(thikbromu_fm_separate(within, 1, cells, 2, &border_pulses, &value), 2);
    EXPECT(border_pulses == 0);
    border_pulses = 7;
    cells[0] = 7;
    REFUSES(thikbromu_fm_separate(two, 0, cells, 2, &border_pulses, &value), NO_TIMINGS, 0);
    REFUSES(thikbromu_fm_separate(two, 2, cells, 0, &border_pulses, &value), NO_ROOM, 1);
    EXPECT(border_pulses == 7 && cells[0] == 7);
}

static void test_single_track(void)
{
    uint32_t sector[THIKBROMU_SECTOR_NUMBERS];
    write_single_track(room);
    for (size_t index = 0; index < 18; index++) {
        uint32_t place = SINGLE_FIRST + SINGLE_RECORD * (uint32_t)index;
        uint32_t data_place = place + SINGLE_TO_DATA;
        const uint32_t expected[THIKBROMU_SECTOR_NUMBERS] = {
            place, 0xFE, 2, 0, (uint32_t)index + 1, 0, 1, data_place, index == 3 ? 0xF8u : 0xFBu, 128, 1, data_place + 16 + 16 * 128 + 32, 1};
        GIVES(thikbromu_fm_sector(room, SINGLE_BYTES, SINGLE_CELLS, 2, 0, index, sector, THIKBROMU_SECTOR_NUMBERS, &value), 18);
        EXPECT(memcmp(sector, expected, sizeof expected) == 0);
    }
    const uint32_t zeros[THIKBROMU_SECTOR_NUMBERS] = {0};
    REFUSES(thikbromu_fm_sector(room, SINGLE_BYTES, SINGLE_CELLS, 2, 0, 18, sector, THIKBROMU_SECTOR_NUMBERS, &value),
            NO_SUCH_SECTOR, 18);
    EXPECT(memcmp(sector, zeros, sizeof zeros) == 0);
    /* In double density there is no sector. */
    REFUSES(thikbromu_sector(room, SINGLE_BYTES, SINGLE_CELLS, 2, 0, 0, sector, THIKBROMU_SECTOR_NUMBERS, &value), NO_SUCH_SECTOR, 0);

    uint8_t data[129];
    uint8_t expected[129];
    uint32_t good = 77;
    memset(data, 7, sizeof data);
    memset(expected, 0x11, 128);
    expected[128] = 7;
    GIVES(thikbromu_fm_read_out(room, SINGLE_BYTES, SINGLE_CELLS, 2, 0, 17, data, sizeof data, &good, &value), 128);
    EXPECT(good == 1 && memcmp(data, expected, sizeof expected) == 0);
    good = 77;
    REFUSES(thikbromu_fm_read_out(room, SINGLE_BYTES, SINGLE_CELLS, 2, 0, 17, data, 127, &good, &value), NO_ROOM_FOR_BYTES, 128);
    EXPECT(good == 77);
}

static void test_single_findings(void)
{
    struct thikbromu_finding records[3];
    uint32_t numbers[3][THIKBROMU_FINDING_NUMBERS];
    write_single_track(room);
    /* The deleted data is no finding. */
    GIVES(thikbromu_fm_findings(room, SINGLE_BYTES, SINGLE_CELLS, 2, 0, numbers[0], 0, &value), 0);
    GIVES(thikbromu_fm_finding_records(room, SINGLE_BYTES, SINGLE_CELLS, 2, 0, records, 0, &value), 0);

    /* Another cell in the data mark of the second sector, and a clock missing in the bytes 00 before the third, so that two ones are 4 apart:
     * no data, and a violation. */
    room[(SINGLE_FIRST + SINGLE_RECORD + SINGLE_TO_DATA) / 8 + 1] = 0x6E;
    room[(SINGLE_FIRST + 2 * SINGLE_RECORD) / 8 - 6] = 0x8A;
    const uint32_t expected[2][THIKBROMU_FINDING_NUMBERS] = {
        {THIKBROMU_KIND_SND, 1, SINGLE_FIRST + SINGLE_RECORD, 2},
        {THIKBROMU_KIND_MTV, 3, SINGLE_FIRST + 2 * SINGLE_RECORD - 48, 1}};
    GIVES(thikbromu_fm_findings(room, SINGLE_BYTES, SINGLE_CELLS, 2, 0, numbers[0], 8, &value), 2);
    EXPECT(memcmp(numbers, expected, sizeof expected) == 0);
    GIVES(thikbromu_fm_finding_records(room, SINGLE_BYTES, SINGLE_CELLS, 2, 0, records, 3, &value), 2);
    for (size_t i = 0; i < 2; i++) {
        EXPECT(records[i].kind == expected[i][0] && records[i].level == expected[i][1]);
        EXPECT(records[i].place == expected[i][2] && records[i].detail == expected[i][3]);
    }
    uint32_t good = 77;
    uint8_t data[128];
    REFUSES(thikbromu_fm_read_out(room, SINGLE_BYTES, SINGLE_CELLS, 2, 0, 1, data, sizeof data, &good, &value), NO_DATA, 0);
    REFUSES(thikbromu_fm_findings(room, SINGLE_BYTES, SINGLE_CELLS, 2, 0, numbers[0], 7, &value), LIST_TOO_SHORT, 2);
    REFUSES(thikbromu_fm_finding_records(room, SINGLE_BYTES, SINGLE_CELLS, 2, 0, records, 1, &value), LIST_TOO_SHORT, 2);

    /* Ones alone, at track 80, at each end of the usual numbers of cells. */
    memset(room, 0xFF, sizeof room);
    GIVES(thikbromu_fm_findings(room, sizeof room, 48500, 80, 0, numbers[0], 12, &value), 1);
    EXPECT(numbers[0][0] == THIKBROMU_KIND_NOS && numbers[0][3] == 0);
    GIVES(thikbromu_fm_findings(room, sizeof room, 51500, 80, 0, numbers[0], 12, &value), 1);
    GIVES(thikbromu_fm_findings(room, sizeof room, 48499, 80, 0, numbers[0], 12, &value), 2);
    EXPECT(numbers[0][0] == THIKBROMU_KIND_SHT && numbers[0][3] == 48499);
    GIVES(thikbromu_fm_finding_records(room, sizeof room, 51501, 80, 0, records, 3, &value), 2);
    EXPECT(records[0].kind == THIKBROMU_KIND_LGT && records[0].detail == 51501);

    REFUSES(thikbromu_fm_findings(room, 0, 0, 84, 0, numbers[0], 0, &value), TRACK_OR_SIDE, 0);
    REFUSES(thikbromu_fm_finding_records(room, 0, 19999, 83, 1, records, 0, &value), CELL_COUNT, 19999);
    REFUSES(thikbromu_fm_findings(room, 2499, 20000, 83, 1, numbers[0], 0, &value), TOO_FEW_BYTES, 2500);
    /* An ID mark every 40 bytes of cells, 65 in all. */
    for (size_t i = 0; i < 65; i++) {
        room[40 * i] = 0xF5;
        room[40 * i + 1] = 0x7E;
    }
    REFUSES(thikbromu_fm_findings(room, 65 * 40, 65 * 320, 0, 0, numbers[0], 12, &value), TOO_MANY_SECTORS, 65);
}

/* What a refused file leaves as it was: the cells and the place. */
#define KEPT() (room[0] == 7 && room[TRACK_BYTES - 1] == 7 && room[sizeof room - 1] == 7 && place[0] == 77 && place[1] == 77)

/* A file in its whole length, to all the room that there is. */
#define CELLS_OF(file, length) thikbromu_file_cells(file, length, room, sizeof room, place, THIKBROMU_PLACE_NUMBERS, &value)

static void test_file_cells(const uint8_t *file, size_t length)
{
    uint32_t place[THIKBROMU_PLACE_NUMBERS] = {77, 77};
    memset(room, 7, sizeof room);

    /* Refusals that a count gives, whatever follows it. */
    const uint8_t other_place_count[5] = {3, 0, 0, 0, 7};
    const uint8_t many_cells[11] = {2, 0, 0, 0, 0, 0, 1, 0, 2, 0, 7};
    const uint8_t some_timings[15] = {2, 0, 0, 0, 0, 0, 0, 0, 0, 0, 1, 0, 1, 0, 7};
    const uint8_t behind_cells[15] = {2, 0, 0, 0, 0, 0, 8, 0, 0, 0, 0xAA, 0, 0, 0, 1};
    REFUSES(CELLS_OF(other_place_count, 5), NOT_A_TRACK_FILE, 0);
    REFUSES(CELLS_OF(many_cells, 11), CELL_COUNT, 131073);
    REFUSES(CELLS_OF(some_timings, 15), FLUX_SECTION, 0);
    REFUSES(CELLS_OF(some_timings, 14), FLUX_SECTION, 0);
    REFUSES(CELLS_OF(behind_cells, 15), FLUX_SECTION, 0);
    /* Those of a whole file: cut short, neither cells nor timings. */
    const uint8_t neither[14] = {2, 0, 0, 0, 0, 0, 0, 0, 0, 0, 0, 0, 0, 0};
    REFUSES(CELLS_OF(nothing, 0), NOT_A_TRACK_FILE, 0);
    REFUSES(CELLS_OF(file, length - 1), NOT_A_TRACK_FILE, 0);
    REFUSES(CELLS_OF(neither, 14), NOT_A_TRACK_FILE, 0);
    REFUSES(CELLS_OF(some_timings, 13), NOT_A_TRACK_FILE, 0);
    /* Too little room is judged last. */
    REFUSES(thikbromu_file_cells(file, length, room, TRACK_BYTES - 1, place, THIKBROMU_PLACE_NUMBERS, &value), NO_ROOM, 12500);
    REFUSES(thikbromu_file_cells(file, length - 1, room, 0, place, THIKBROMU_PLACE_NUMBERS, &value), NOT_A_TRACK_FILE, 0);
    EXPECT(KEPT());

    GIVES(CELLS_OF(file, length), TRACK_CELLS);
    EXPECT(place[0] == 0 && place[1] == 0);
    EXPECT(memcmp(room, file + BEFORE_CELLS, TRACK_BYTES) == 0);
    EXPECT(room[TRACK_BYTES] == 7 && room[sizeof room - 1] == 7);

    /* Five cells, at track 83 and side 1; room for these, and for the track alone. Spare bits are the file's. */
    const uint8_t five_cells[15] = {2, 0, 0, 0, 83, 1, 5, 0, 0, 0, 0x2F, 0, 0, 0, 0};
    uint32_t places[3] = {77, 77, 77};
    GIVES(thikbromu_file_cells(five_cells, 15, room, 1, places, 1, &value), 5);
    EXPECT(room[0] == 0x2F && places[0] == 83 && places[1] == 77);
    GIVES(thikbromu_file_cells(five_cells, 15, room, 1, places, 3, &value), 5);
    EXPECT(places[0] == 83 && places[1] == 1 && places[2] == 77);
}

/* An old file, to so much room. */
#define CONVERTED(file, length, out_room) thikbromu_convert_file(file, length, out, out_room, &value)

static void test_convert_file(const uint8_t *file, size_t length)
{
    static uint8_t out[THIKBROMU_LONGEST_FILE + 1];
    memset(out, 7, sizeof out);

    /* At once: another place count, a number of cells, and too many timings. */
    const uint8_t other_place_count[5] = {3, 0, 0, 0, 7};
    const uint8_t one_cell[11] = {2, 0, 0, 0, 0, 0, 1, 0, 0, 0, 7};
    const uint8_t many_timings[15] = {2, 0, 0, 0, 0, 0, 0, 0, 0, 0, 1, 0, 1, 0, 7};
    REFUSES(CONVERTED(other_place_count, 5, sizeof out), NOT_A_TRACK_FILE, 0);
    REFUSES(CONVERTED(one_cell, 11, sizeof out), NOT_A_TRACK_FILE, 0);
    REFUSES(CONVERTED(file, length, sizeof out), NOT_A_TRACK_FILE, 0);
    REFUSES(CONVERTED(many_timings, 15, sizeof out), TOO_MANY_TIMINGS, 65537);
    /* Of a whole file: no timings, a timing of 0 behind one of 256, 30 timings of 5,000 cells, and one of 500 ns, which makes no cell. */
    const uint8_t none[14] = {2, 0, 0, 0, 0, 0, 0, 0, 0, 0, 0, 0, 0, 0};
    const uint8_t timing_of_0[22] = {2, 0, 0, 0, 0, 0, 0, 0, 0, 0, 2, 0, 0, 0, 0, 1, 0, 0, 0, 0, 0, 0};
    const uint8_t no_cells[18] = {2, 0, 0, 0, 84, 2, 0, 0, 0, 0, 1, 0, 0, 0, 0xF4, 1, 0, 0};
    uint8_t long_timings[14 + 30 * 4] = {2, 0, 0, 0, 0, 0, 0, 0, 0, 0, 30, 0, 0, 0};
    for (size_t i = 14; i < sizeof long_timings; i += 4) {
        long_timings[i] = 0x80; /* 10,000,000 is 989680 in hexadecimal */
        long_timings[i + 1] = 0x96;
        long_timings[i + 2] = 0x98;
    }
    REFUSES(CONVERTED(nothing, 0, sizeof out), NOT_A_TRACK_FILE, 0);
    REFUSES(CONVERTED(none, 14, sizeof out), NOT_A_TRACK_FILE, 0);
    REFUSES(CONVERTED(timing_of_0, 21, sizeof out), NOT_A_TRACK_FILE, 0);
    REFUSES(CONVERTED(timing_of_0, 22, 0), TIMING_OUT_OF_RANGE, 1);
    REFUSES(CONVERTED(long_timings, sizeof long_timings, 0), TOO_MANY_CELLS, 150000);
    REFUSES(CONVERTED(no_cells, 18, 0), CELL_COUNT, 0);

    /* 5,000 and 5,000 ns are the cells 00101. Too little room is judged last. */
    const uint8_t two_timings[22] = {2, 0, 0, 0, 83, 1, 0, 0, 0, 0, 2, 0, 0, 0, 0x88, 0x13, 0, 0, 0x88, 0x13, 0, 0};
    const uint8_t five_cells[15] = {2, 0, 0, 0, 83, 1, 5, 0, 0, 0, 0x28, 0, 0, 0, 0};
    REFUSES(CONVERTED(two_timings, 22, 14), NO_ROOM, 15);
    EXPECT(out[0] == 7 && out[14] == 7 && out[sizeof out - 1] == 7);
    GIVES(CONVERTED(two_timings, 22, 15), 15);
    EXPECT(memcmp(out, five_cells, 15) == 0 && out[15] == 7);

    /* The most timings, and one byte more. */
    static uint8_t most[THIKBROMU_LONGEST_OLD_FILE + 1] = {2, 0, 0, 0, 0, 0, 0, 0, 0, 0, 0, 0, 1, 0};
    for (size_t i = 14; i < THIKBROMU_LONGEST_OLD_FILE; i += 4) {
        most[i] = 0xA0; /* 4,000 is FA0 in hexadecimal */
        most[i + 1] = 0x0F;
    }
    REFUSES(CONVERTED(most, sizeof most, sizeof out), NOT_A_TRACK_FILE, 0);
    GIVES(CONVERTED(most, THIKBROMU_LONGEST_OLD_FILE, sizeof out), THIKBROMU_LONGEST_FILE);
    EXPECT(out[8] == 2 && out[10] == 0x55 && out[THIKBROMU_LONGEST_FILE - 5] == 0x55 && out[THIKBROMU_LONGEST_FILE - 4] == 0);
    EXPECT(out[THIKBROMU_LONGEST_FILE] == 7);
}

static void test_listings(const uint8_t *file, size_t length)
{
    static const char listing[] = "T00 H0 cells 100000 sectors 9 findings 0\n";
    static const char refused[] = "refused 15\n";
    uint8_t out[64];

    EXPECT(thikbromu_listing(file + BEFORE_CELLS, TRACK_BYTES, TRACK_CELLS, 0, 0, out, sizeof out) == sizeof listing - 1);
    EXPECT(memcmp(out, listing, sizeof listing - 1) == 0);
    memset(out, 7, sizeof out);
    EXPECT(thikbromu_file_listing(file, length, out, sizeof out) == sizeof listing - 1);
    EXPECT(memcmp(out, listing, sizeof listing - 1) == 0 && out[sizeof listing - 1] == 7);
    /* As much as there is room for. */
    memset(out, 7, sizeof out);
    EXPECT(thikbromu_file_listing(file, length, out, 3) == sizeof listing - 1);
    EXPECT(memcmp(out, "T00", 3) == 0 && out[3] == 7);
    EXPECT(thikbromu_file_listing(file, length - 1, out, sizeof out) == sizeof refused - 1);
    EXPECT(memcmp(out, refused, sizeof refused - 1) == 0);
}

/* The page of a disk, in so much room. */
static uint8_t page[8192];

static uint32_t page_of(const uint32_t *tracks, size_t track_count, const uint32_t *findings, size_t finding_count, size_t page_room)
{
    return thikbromu_disk_page(tracks, THIKBROMU_DISK_TRACK_NUMBERS * track_count, findings, THIKBROMU_FINDING_NUMBERS * finding_count, page,
                               page_room, &value);
}

/* Whether the page has this text at its front and is as it was behind it. */
static int page_is(const char *text)
{
    size_t length = strlen(text);
    for (size_t place = length; place < sizeof page; place++) {
        if (page[place] != 77) {
            return 0;
        }
    }
    return memcmp(page, text, length) == 0;
}

/* The page is this text, in a room that it fills and in others, of which it takes the front. */
static void test_page(const uint32_t *tracks, size_t track_count, const uint32_t *findings, size_t finding_count, const char *text)
{
    size_t length = strlen(text);
    char front[sizeof page] = "";
    const size_t rooms[5] = {length, length + 1, 0, length / 2, length == 0 ? 0 : length - 1};
    for (size_t index = 0; index < 5; index++) {
        size_t written = rooms[index] < length ? rooms[index] : length;
        memcpy(front, text, written);
        front[written] = 0;
        memset(page, 77, sizeof page);
        GIVES(page_of(tracks, track_count, findings, finding_count, rooms[index]), length);
        EXPECT(page_is(front));
    }
}

/* Three tracks, of which the first two have one finding each. */
static void test_refused_page(uint32_t first, uint32_t second, uint32_t third, uint32_t side, uint32_t number)
{
    const uint32_t tracks[9] = {first, 0, 1, second, side, 1, third, 1, 0};
    const uint32_t findings[8] = {THIKBROMU_KIND_MTV, 3, 5, 6, THIKBROMU_KIND_NFA, 1, 7, 8};
    memset(page, 77, sizeof page);
    EXPECT((value = 77, page_of(tracks, 3, findings, 2, sizeof page) == number && value == 0));
    EXPECT(page_is(""));
}

static void test_refused_findings(uint32_t track, const uint32_t *findings, size_t finding_count)
{
    const uint32_t tracks[3] = {track, 1, (uint32_t)finding_count};
    memset(page, 77, sizeof page);
    REFUSES(page_of(tracks, 1, findings, finding_count, sizeof page), NOT_THEIR_FINDINGS, 0);
    EXPECT(page_is(""));
}

static void test_disk_page(void)
{
    /* Both sides, given in a mixed order; tracks 5 to 7 of side 1 have TNF, track 9 too, and track 8 is not given. */
    const uint32_t tracks[] = {7, 1, 1, 9, 1, 1, 5, 0, 1, 6, 1, 2, 83, 0, 2, 5, 1, 2, 4, 1, 0};
    const uint32_t findings[] = {4, 2, 0, 0, 4, 2, 0, 0, 3, 3, 0, 12, 3, 3, 0, 0, 4, 2, 0, 0,
                                 20, 4294967295u, 4294967295u, 10, 21, 1, 0, 1000, 4, 2, 0, 0, 5, 9, 8, 7};
    test_page(tracks, 7, findings, 9,
              "T05 H0 3 NOS level 3 place 0 detail 12\n"
              "T83 H0 20 MTV level 4294967295 place 4294967295 detail 10\n"
              "T83 H0 21 NFA level 1 place 0 detail 1000\n"
              "T05-07 H1 4 TNF level 2 place 0 detail 0\n"
              "T05 H1 5 EXT level 9 place 8 detail 7\n"
              "T06 H1 3 NOS level 3 place 0 detail 0\n"
              "T09 H1 4 TNF level 2 place 0 detail 0\n");
    test_page(tracks, 0, findings, 0, "");
    const uint32_t without_findings[3] = {83, 1, 0};
    test_page(without_findings, 1, findings, 0, "");

    /* All tracks of both sides, from the last to the first; 0 to 79 of side 0 have TNF, then all of both sides. */
    static uint32_t disk[THIKBROMU_DISK_TRACK_NUMBERS * (THIKBROMU_MOST_TRACKS + 1)];
    static uint32_t tnf[THIKBROMU_FINDING_NUMBERS * THIKBROMU_MOST_TRACKS];
    for (uint32_t index = 0; index < THIKBROMU_MOST_TRACKS; index++) {
        uint32_t track = 83 - index / 2;
        disk[3 * index] = track;
        disk[3 * index + 1] = index % 2;
        disk[3 * index + 2] = track < 80 && index % 2 == 0;
        tnf[4 * index] = THIKBROMU_KIND_TNF;
        tnf[4 * index + 1] = 2;
    }
    test_page(disk, THIKBROMU_MOST_TRACKS, tnf, 80, "T00-79 H0 4 TNF level 2 place 0 detail 0\nsingle-sided\n");
    /* Track 40 of side 1 has it also, then track 40 of side 0 has it no longer. */
    disk[3 * 87 + 2] = 1;
    test_page(disk, THIKBROMU_MOST_TRACKS, tnf, 81,
              "T00-79 H0 4 TNF level 2 place 0 detail 0\nT40 H1 4 TNF level 2 place 0 detail 0\nsingle-sided\n");
    disk[3 * 86 + 2] = 0;
    test_page(disk, THIKBROMU_MOST_TRACKS, tnf, 80,
              "T00-39 H0 4 TNF level 2 place 0 detail 0\nT41-79 H0 4 TNF level 2 place 0 detail 0\n"
              "T40 H1 4 TNF level 2 place 0 detail 0\n");
    for (uint32_t index = 0; index < THIKBROMU_MOST_TRACKS; index++) {
        disk[3 * index + 2] = disk[3 * index] < 80;
    }
    test_page(disk, THIKBROMU_MOST_TRACKS, tnf, 160, "T00-79 H0 4 TNF level 2 place 0 detail 0\nT00-79 H1 4 TNF level 2 place 0 detail 0\n");

    /* 22, then 1, then 21, then 25; the lists are as they were. */
    memset(page, 77, sizeof page);
    REFUSES(page_of(disk, THIKBROMU_MOST_TRACKS + 1, tnf, 160, sizeof page), TOO_MANY_TRACKS, 0);
    disk[0] = 84;
    REFUSES(page_of(disk, THIKBROMU_MOST_TRACKS + 1, tnf, 0, sizeof page), TOO_MANY_TRACKS, 0);
    REFUSES(page_of(disk, THIKBROMU_MOST_TRACKS, tnf, 0, sizeof page), TRACK_OR_SIDE, 0);
    disk[0] = 82;
    REFUSES(page_of(disk, THIKBROMU_MOST_TRACKS, tnf, 0, sizeof page), TRACK_GIVEN_TWICE, 0);
    disk[0] = 83;
    REFUSES(page_of(disk, THIKBROMU_MOST_TRACKS, tnf, 159, sizeof page), NOT_THEIR_FINDINGS, 0);
    EXPECT(page_is(""));
    test_refused_page(84, 3, 3, 1, THIKBROMU_REFUSED_TRACK_OR_SIDE);
    test_refused_page(3, 3, 3, 2, THIKBROMU_REFUSED_TRACK_OR_SIDE);
    test_refused_page(2, 3, 3, 1, THIKBROMU_REFUSED_TRACK_GIVEN_TWICE);
    test_refused_page(3, 3, 83, 0, THIKBROMU_REFUSED_TRACK_GIVEN_TWICE);

    /* Findings that a track cannot have: track 80 without sectors; the kinds 0 and 22; TNF with other numbers; not in order, or one twice. */
    test_refused_findings(80, tnf, 1);
    const uint32_t kinds[8] = {0, 1, 0, 0, 22, 1, 0, 0};
    test_refused_findings(0, kinds, 1);
    test_refused_findings(0, kinds + 4, 1);
    for (size_t place = 1; place < 4; place++) {
        uint32_t other[4] = {THIKBROMU_KIND_TNF, 2, 0, 0};
        other[place] = 1;
        test_refused_findings(79, other, 1);
    }
    const uint32_t pairs[] = {3, 3, 0, 0, 2, 1, 0, 0, 6, 1, 9, 0, 6, 1, 8, 0, 7, 1, 5, 1, 7, 1, 5, 2};
    for (size_t pair = 0; pair < 3; pair++) {
        test_refused_findings(0, pairs + 8 * pair, 2);
    }
    /* Numbers that are no whole track or finding, and counts whose sum is 2^32 more than the findings. */
    memset(page, 77, sizeof page);
    for (size_t rest = 1; rest < 4; rest++) {
        REFUSES(thikbromu_disk_page(without_findings, rest % 3, findings, rest, page, sizeof page, &value), NOT_THEIR_FINDINGS, 0);
    }
    REFUSES(thikbromu_disk_page(disk, 4, tnf, 4, page, sizeof page, &value), NOT_THEIR_FINDINGS, 0);
    REFUSES(thikbromu_disk_page(disk, 3 * 168 + 1, tnf, 4 * 160, page, sizeof page, &value), NOT_THEIR_FINDINGS, 0);
    const uint32_t too_many[6] = {0, 0, 2147483649u, 1, 0, 2147483648u};
    REFUSES(page_of(too_many, 2, tnf, 1, sizeof page), NOT_THEIR_FINDINGS, 0);
    EXPECT(page_is(""));
}

int main(int count, char **arguments)
{
    static uint8_t file[BEFORE_CELLS + TRACK_BYTES + 4];
    FILE *input = count == 2 ? fopen(arguments[1], "rb") : NULL;
    if (input == NULL || fread(file, 1, sizeof file, input) != sizeof file) {
        fprintf(stderr, "usage: known_numbers samples/standard.track\n");
        return 2;
    }
    fclose(input);

    test_cells();
    test_coding();
    test_separator();
    test_histogram();
    test_track_blocks();
    test_images();
    test_portions();
    test_standard_track(file + BEFORE_CELLS);
    test_sector_image(file + BEFORE_CELLS);
    test_write_track(file + BEFORE_CELLS);
    test_two_reads();
    test_findings(file + BEFORE_CELLS);
    test_records(file + BEFORE_CELLS);
    test_too_many_sectors();
    test_single_separator();
    test_single_track();
    test_single_findings();
    test_file_cells(file, sizeof file);
    test_convert_file(file, sizeof file);
    test_listings(file, sizeof file);
    test_disk_page();
    printf("%d passed, %d failed\n", passed, failed);
    return failed == 0 ? 0 : 1;
}
