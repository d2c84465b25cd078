/*
 * The library's routines for C and C++. Link target/staticlib/libthikbromu.a, which `.ci/archive` writes.
 *
 * The numbers of rules are those of docs/SPECIFICATION.md. What each routine gives is proved; the statements are the `ensures` clauses in
 * crates/thikbromu/src. That these declarations are its own is not proved: .ci/bindings compares the names and calls every routine.
 *
 * Answers (rules 8.31 to 8.33 and 9.31). A routine of which some calls are refused returns 0 where it accepts the call, else the refusal's
 * number (enum thikbromu_refusal). At `value` it stores what the call gives, or what is given beside the refusal. A refused call writes
 * nothing else, except that it sets the numbers of a record, of a histogram or of the finding of two reads to 0. The refusals of a routine
 * are judged in the order in which its comment names them, and the first that holds is given.
 *
 * What a caller must see to:
 * - each address is valid for its length, counted in elements, and aligned for its type; it is not NULL, also where the length is 0;
 * - memory that a routine writes overlaps nothing else that is passed to it;
 * - a bool is 0 or 1.
 * Nothing is asked of the values: every number, and all contents of the memory, have an answer.
 *
 * The routines keep nothing between calls and allocate nothing, so threads may call them at the same time.
 */
#ifndef THIKBROMU_H
#define THIKBROMU_H

#include <stdbool.h>
#include <stddef.h>
#include <stdint.h>

#ifdef __cplusplus
extern "C" {
#endif

/* Limits (rules 3.1 and 8.1 to 8.14). */
#define THIKBROMU_HIGHEST_TRACK 83
#define THIKBROMU_HIGHEST_SIDE 1
#define THIKBROMU_FEWEST_CELLS 20000
#define THIKBROMU_MOST_CELLS 131072
#define THIKBROMU_MOST_SECTORS 64
#define THIKBROMU_MOST_TIMINGS 65536
#define THIKBROMU_SHORTEST_TIMING 1
#define THIKBROMU_LONGEST_TIMING 10000000
#define THIKBROMU_MOST_BYTES_TO_CODE 8192
#define THIKBROMU_MOST_BYTES_TO_DECODE 16384

/* Lengths of what is lent. */
#define THIKBROMU_MOST_CELL_BYTES 16384 /* the bytes of 131,072 cells */
#define THIKBROMU_HISTOGRAM_COUNTS 256
#define THIKBROMU_SECTOR_NUMBERS 13
#define THIKBROMU_FINDING_NUMBERS 4
#define THIKBROMU_MOST_FINDINGS 901 /* no track of 64 sectors brings more (rule 7.35) */
#define THIKBROMU_LONGEST_SECTOR 1024
#define THIKBROMU_CHECK_BYTES 2
#define THIKBROMU_LONGEST_READ 1026 /* the longest sector with its check bytes */
#define THIKBROMU_SECTOR_IMAGE_BYTES 4608 /* nine sectors of 512 bytes */
#define THIKBROMU_PLACE_NUMBERS 2 /* the track and the side */
#define THIKBROMU_DISK_TRACK_NUMBERS 3 /* the track, the side and how many findings */
#define THIKBROMU_MOST_TRACKS 168 /* tracks 0 to 83 of two sides */
#define THIKBROMU_IMAGE_HEADER_BYTES 688 /* the first bytes of an image: its header and its entries */
#define THIKBROMU_IMAGE_HEADER_NUMBERS 10
#define THIKBROMU_IMAGE_ENTRIES 168 /* tracks 0 to 83 of two sides */
#define THIKBROMU_IMAGE_PLACE_NUMBERS 336 /* two for each entry */
#define THIKBROMU_LONGEST_LISTING 65536
#define THIKBROMU_LONGEST_FILE 16398 /* the most cells; a longer file is answered as its first 16,399 bytes are */
#define THIKBROMU_LONGEST_OLD_FILE 262158 /* the most timings; a longer one is converted as its first 262,159 bytes are */

/* The refusals by their numbers: rule 8.K is refusal K. After the semicolon, what is given beside it. */
enum thikbromu_refusal {
    THIKBROMU_REFUSED_TRACK_OR_SIDE = 1,        /* the track is above 83 or the side above 1; 0 */
    THIKBROMU_REFUSED_CELL_COUNT = 2,           /* less than 20,000 cells, or more than 131,072; how many */
    THIKBROMU_REFUSED_TOO_FEW_BYTES = 3,        /* bytes of the cells are missing; how many bytes they need */
    THIKBROMU_REFUSED_TOO_MANY_SECTORS = 4,     /* more than 64 sectors; how many */
    THIKBROMU_REFUSED_LIST_TOO_SHORT = 5,       /* more findings than the list holds; how many */
    THIKBROMU_REFUSED_NO_TIMINGS = 6,           /* there is no timing; 0 */
    THIKBROMU_REFUSED_TOO_MANY_TIMINGS = 7,     /* more than 65,536 timings; how many */
    THIKBROMU_REFUSED_TIMING_OUT_OF_RANGE = 8,  /* some timing is not 1 to 10,000,000; the least index of such a one */
    THIKBROMU_REFUSED_TOO_MANY_CELLS = 9,       /* more than 131,072 cells come of the timings; how many */
    THIKBROMU_REFUSED_NO_ROOM = 10,             /* no room for the cells, the timings or the new file; how many bytes, or timings */
    THIKBROMU_REFUSED_NO_SUCH_SECTOR = 11,      /* the index is not below the number of sectors; that number */
    THIKBROMU_REFUSED_NO_DATA = 12,             /* this sector has no data (rule 6.12); 0 */
    THIKBROMU_REFUSED_NO_ROOM_FOR_BYTES = 13,   /* no room for the bytes; how many */
    THIKBROMU_REFUSED_TOO_MANY_BYTES = 14,      /* over 8,192 bytes to code, or 16,384 to decode; how many */
    THIKBROMU_REFUSED_NOT_A_TRACK_FILE = 15,    /* the bytes are no track file; 0 */
    THIKBROMU_REFUSED_NOT_A_TRACK_BLOCK = 16,   /* the bytes are no track block; 0 */
    THIKBROMU_REFUSED_NO_SUCH_REVOLUTION = 17,  /* the block has no such revolution; 0 */
    THIKBROMU_REFUSED_LENGTHS_DIFFER = 18,      /* two reads of a sector differ in length; 0 */
    THIKBROMU_REFUSED_NOT_A_SECTOR_LENGTH = 19, /* the reads have not 130, 258, 514 or 1,026 bytes; 0 */
    THIKBROMU_REFUSED_TOO_LONG_A_TRACK = 20,    /* the cells of the list come to more than 131,072; 0 */
    THIKBROMU_REFUSED_TRACK_GIVEN_TWICE = 21,   /* a disk has the same track and side twice; 0 */
    THIKBROMU_REFUSED_TOO_MANY_TRACKS = 22,     /* a disk of more than 168 tracks; 0 */
    THIKBROMU_REFUSED_FLUX_SECTION = 23,        /* the track file has a flux section, so it is an old one to convert; 0 */
    THIKBROMU_REFUSED_NO_PLAIN_IMAGE = 24,      /* the track has no plain image; the first number from 1 to 9 in the way, or 0 (rule 15.4) */
    THIKBROMU_REFUSED_NOT_THEIR_FINDINGS = 25,  /* the numbers are no findings of the tracks (rules 16.6 to 16.8); 0 */
    THIKBROMU_REFUSED_NOT_AN_IMAGE = 26,        /* the bytes are no image (rule 19.5); 0 */
    THIKBROMU_REFUSED_IMAGE_HEADER = 27,        /* a byte of the header is not taken (rule 19.6); the first such place, 5 to 11 */
    THIKBROMU_REFUSED_IMAGE_ENTRY = 28,         /* a block cannot stand where it is said to begin (rule 19.9); the first such entry */
    THIKBROMU_REFUSED_IMAGE_CHECK_SUM = 29      /* the bytes have another sum than the header says (rule 19.14); their sum */
};

/* The kinds of findings by their numbers, with their levels: rule 7.K is that of kind K, up to 21. T is the track of the drive, N how many
 * cells there are, p the place of a sector, q that of its data mark. The finding's place is 0 for kinds 1 to 5 and p for kinds 6 to 19. The
 * numbers of LGT, SHT, NOS, SSZ, SID and MTV are those of double density; the routines of single density below have others. Kind 22 is that
 * of two reads (rule 14.3), and no track has it. */
enum thikbromu_kind {
    THIKBROMU_KIND_LGT = 1,   /* level 1: N is more than 103,000; detail: N */
    THIKBROMU_KIND_SHT = 2,   /* level 1: N is less than 97,000; detail: N */
    THIKBROMU_KIND_NOS = 3,   /* level 3: less than 9 sectors, or more than 10; detail: how many */
    THIKBROMU_KIND_TNF = 4,   /* level 2: there are no sectors, and T is 79 or less; detail: 0 */
    THIKBROMU_KIND_EXT = 5,   /* level 2: there are sectors, and T is 80 or more; detail: how many */
    THIKBROMU_KIND_DSN = 6,   /* level 1: a sector with a smaller place has the same number; detail: the number */
    THIKBROMU_KIND_ISN = 7,   /* level 1: the number is 245, 246 or 247; detail: the number */
    THIKBROMU_KIND_ITN = 8,   /* level 2: the track in the ID differs from T; detail: the track in the ID */
    THIKBROMU_KIND_IIF = 9,   /* level 2: the ID has a track from 84 on, a side from 2 on, or a size code from 4 on; detail: the ID's side */
    THIKBROMU_KIND_SSZ = 10,  /* level 2: the size code is not 2 and not 3; detail: the size code */
    THIKBROMU_KIND_NSI = 11,  /* level 2: the ID mark is FC, FD or FF; detail: the mark */
    THIKBROMU_KIND_NSD = 12,  /* level 2: the data mark is F9 or FA; detail: the mark */
    THIKBROMU_KIND_SBI = 13,  /* level 1: the ID check is bad; detail: the number */
    THIKBROMU_KIND_SND = 14,  /* level 1: the ID check is good, but there is no data; detail: the number */
    THIKBROMU_KIND_SBD = 15,  /* level 1: there is data, and its check is bad; detail: the number */
    THIKBROMU_KIND_DOI = 16,  /* level 1: there is data, its mark before the index and its end behind it; detail: its end - N */
    THIKBROMU_KIND_DBI = 17,  /* level 1: the data mark is behind the index, so q is N or more; detail: q - N */
    THIKBROMU_KIND_SWS = 18,  /* level 1: the data of another sector covers p (rule 7.37); detail: the number */
    THIKBROMU_KIND_SID = 19,  /* level 3: syncs stand in the ID or in the data (rule 7.38); detail: how many */
    THIKBROMU_KIND_MTV = 20,  /* level 3: ones with a distance of 1, or of 5 or more, to the next; place: the first, detail: how many */
    THIKBROMU_KIND_NFA = 21,  /* level 1: a run of 1,000 zeros or more; place: the start of the longest, detail: its length */
    THIKBROMU_KIND_FZD = 22   /* level 1: two reads of a sector differ; place: the least index at which they do, detail: how many bits */
};

/* A finding (rule 7.31): its kind, the level of the kind, its place in cells, and its detail. Two bytes lie unused after the level, so
 * that the record has twelve. */
struct thikbromu_finding {
    uint8_t kind;
    uint8_t level;
    uint32_t place;
    uint32_t detail;
};

/* Where what stands among the thirteen numbers of a sector's record (rules 6.16 and 9.34). */
enum thikbromu_sector_number {
    THIKBROMU_SECTOR_PLACE = 0,            /* p, the cell of the ID mark, 0 to N-1 */
    THIKBROMU_SECTOR_MARK = 1,             /* the byte of the ID mark, FC to FF; in single density FE */
    THIKBROMU_SECTOR_TRACK = 2,            /* the ID's track, */
    THIKBROMU_SECTOR_SIDE = 3,             /* side, */
    THIKBROMU_SECTOR_NUMBER = 4,           /* number */
    THIKBROMU_SECTOR_SIZE_CODE = 5,        /* and size code */
    THIKBROMU_SECTOR_ID_CHECK_GOOD = 6,    /* 1 where the ID check is good, else 0 */
    THIKBROMU_SECTOR_DATA_PLACE = 7,       /* q, the cell of the data mark, perhaps N or more; 0 where none is found */
    THIKBROMU_SECTOR_DATA_MARK = 8,        /* the byte of the data mark, F8 to FB, in single density FB or F8; 0 where none is found */
    THIKBROMU_SECTOR_DATA_LENGTH = 9,      /* L, how many data bytes; 0 where there is no data */
    THIKBROMU_SECTOR_DATA_CHECK_GOOD = 10, /* 1 where the data check is good; 0 where it is bad or there is no data */
    THIKBROMU_SECTOR_END = 11,             /* the cell where the data with its check bytes ends, perhaps N or more; 0 where there is no data */
    THIKBROMU_SECTOR_DENSITY = 12          /* 1 for single density, FM; 2 for double density, MFM */
};

/* Where what stands among the ten numbers of an image's header (rules 19.2, 19.3 and 19.7). */
enum thikbromu_image_number {
    THIKBROMU_IMAGE_VERSION = 0,
    THIKBROMU_IMAGE_DISK_TYPE = 1,
    THIKBROMU_IMAGE_REVOLUTIONS = 2, /* how many each block has, 1 or more; the routines on track blocks take it */
    THIKBROMU_IMAGE_FIRST_TRACK = 3, /* the first entry that may have a block, */
    THIKBROMU_IMAGE_LAST_TRACK = 4,  /* and the last, at most 167 */
    THIKBROMU_IMAGE_FLAGS = 5,       /* bit 4: it may be written to; bit 5: it ends with a footer; bit 6 is 0 */
    THIKBROMU_IMAGE_CELL_WIDTH = 6,  /* 0 or 16, the bits of a value */
    THIKBROMU_IMAGE_HEADS = 7,       /* 0: both sides; 1: side 0; 2: side 1 */
    THIKBROMU_IMAGE_RESOLUTION = 8,  /* 0: 25 ns */
    THIKBROMU_IMAGE_CHECK_SUM = 9
};

/*
 * Cells (rules 1.1 to 1.9). A track is a ring of n cells. A byte holds eight of them, the first as its highest bit; `bytes` has `length`
 * bytes. A cell for which there is no byte is 0, and so are all cells where n is 0. A place may be n or more.
 */

/* The cell at place p. */
uint64_t thikbromu_cell(const uint8_t *bytes, size_t length, size_t n, size_t p);

/* The word of k cells from p, the first of them its highest bit; a k above 64 counts as 64. */
uint64_t thikbromu_word(const uint8_t *bytes, size_t length, size_t n, size_t p, size_t k);

/* The least place from `from` on and before `to` at which the word x of k cells stands; a k above 64 counts as 64. Where there is none,
 * the greater of the two. */
size_t thikbromu_find_word(const uint8_t *bytes, size_t length, size_t n, uint64_t x, size_t k, size_t from, size_t to);

/* Sets the first k bytes, or all where there are fewer, to 0. */
void thikbromu_clear(uint8_t *bytes, size_t length, size_t k);

/* Puts a one at cell p, where the bytes have such a cell. */
void thikbromu_put_one(uint8_t *bytes, size_t length, size_t p);

/* The check word of bytes (rules 2.1 and 2.2). */
uint16_t thikbromu_check_word(const uint8_t *bytes, size_t length);

/* The check word after bytes, from the word that the bytes before them left (rule 2.3). */
uint16_t thikbromu_check_word_from(uint16_t word, const uint8_t *bytes, size_t length);

/* Coding (rule 9.8). `before` is the data bit ahead of the first byte. Gives how many bytes of cells it wrote to the front of `cells`, two
 * for each byte; those behind keep their contents. Refuses 14, 13. */
uint32_t thikbromu_encode(const uint8_t *bytes, size_t length, bool before, uint8_t *cells, size_t room, size_t *value);

/* Decoding (rule 9.9). Two bytes of cells make a byte; where their number is odd, the last is passed over. Gives how many bytes it wrote to
 * the front of `bytes`. Refuses 14, 13. */
uint32_t thikbromu_decode(const uint8_t *cells, size_t length, uint8_t *bytes, size_t room, size_t *value);

/* The controller's command Write Track (rules 9.63 and 17.1 to 17.9), which makes a track of a list of bytes. F5 gives the sync 4489 and F6 the
 * sync 5224, F7 gives the two check bytes, and every other byte is coded, the first one after a data bit 0. The check word is FFFF before the
 * list and before each F5 that has no F5 before it. It goes over all bytes on the track, where F5 is an A1, F6 a C2 and F7 two bytes. Gives the
 * number of cells, 16 for each byte on the track, which stand packed at the front of `cells`; the bytes behind keep their contents. Refuses 20,
 * then 10 with the bytes that the cells need. */
uint32_t thikbromu_write_track(const uint8_t *list, size_t length, uint8_t *cells, size_t room, size_t *value);

/*
 * The separator of double density, from timings in nanoseconds to cells (rules 3.1 to 3.14). Its state is the residual r, which is 0 before
 * the first timing. An r below -500 or above 499 counts as 0.
 */

/* One step (rules 9.5 and 9.37) on a residual that the caller lends: it becomes the next one. Gives the number of cells, of which the last is
 * a one and the others are zeros; it may be 0. `offset` becomes the offset e: how far the pulse lies from the centre of its window, in
 * nanoseconds. Refuses 8, with index 0; the residual and the offset then stay as they are. */
uint32_t thikbromu_step(int32_t *residual, uint32_t timing, int32_t *offset, size_t *value);

/* The separator on a list (rules 9.6 and 9.38), from r = 0. Gives the number of cells, packed at the front of `cells`. Spare bits in the last
 * byte of the cells become 0; what stands behind that byte is kept. `border_pulses` becomes the number of pulses with an offset of -902 or
 * less or of 902 or more; beside a refusal it stays as it is. Refuses 6, 7, 8, 9, 10. */
uint32_t thikbromu_separate(const uint32_t *timings, size_t length, uint8_t *cells, size_t room, size_t *border_pulses, size_t *value);

/* The histogram (rules 5.1 to 5.3, 9.7 and 9.35): 256 counts to the front of `counts`, or as many as it has room for. A timing t raises
 * count t / 100, rounded down, and one from 25,500 on count 255. Gives the number of timings. Refuses 6, 7, 8, all counts then 0. */
uint32_t thikbromu_histogram(const uint32_t *timings, size_t length, uint32_t *counts, size_t room, size_t *value);

/*
 * A SuperCard Pro track block (rules 12.1 to 12.7): the three letters TRK and a track number; then a table, which has for each revolution
 * its index time, how many values it has, and at which byte of the block they begin, as numbers of four bytes, the lowest first; then the
 * values, two bytes each, the higher first. Their unit is 25 ns, and a value of 0 makes the value after it longer by 65,536 units.
 * `revolutions` is how many the header of the image says there are; `revolution` is the chosen one, counted from 0. Each revolution stands
 * alone: the end of one adds nothing to the next. The track number and the index times are not looked at. In an image that the device
 * writes, revolution 0 begins at the index, and not at a flux transition: its cells there may be wrong.
 *
 * The block is refused with 16 by rules 12.8 to 12.11: the letters are others, bytes of the table are missing, or a revolution, the chosen
 * one or another, has an offset within the table, values that do not all lie in the block, or a 0 as its last value.
 */

/* The timings of the chosen revolution (rules 9.14 and 9.38), in nanoseconds, at the front of `timings`; those behind keep their contents. Gives
 * the number of timings, and in `border_pulses` the number of border pulses among them, as thikbromu_separate counts them, however many cells they
 * give; beside a refusal it stays as it is. Refuses 16, 17, 6, 7, 8, 10, the last with how many timings there are. */
uint32_t thikbromu_revolution_timings(const uint8_t *block, size_t length, uint32_t revolutions, uint32_t revolution, uint32_t *timings,
                                      size_t room, size_t *border_pulses, size_t *value);

/* The same by portions (rules 12.15 to 12.24): the caller hands over the bytes of one revolution's values in their order, a part at a time,
 * cut anywhere. A call gives the timings whose last byte is in its part. As long as no call is refused, they are together those of the
 * whole revolution. Refuses 7 and 8, with numbers that count all timings of the revolution so far, and 10, with how many timings end in
 * this portion; the state is then kept, so that the portion may be handed over again. No portion is the last, so none is refused with 6, 16
 * or 17: zeros or half a value at the very end of a revolution give nothing, where thikbromu_revolution_timings refuses the block.
 *
 * The state is one number, which the caller keeps from call to call; it is 0 before the first portion. Calls leave the numbers
 * held + 257 * (zeros + 8 * timings): held is 0, or 1 more than the first byte of a value whose second is still to come; zeros is how many
 * stand before the next value, counted up to 7; timings is how many have ended, at most 65,536. Any other number counts as 0. */
uint32_t thikbromu_revolution_portion(uint32_t *state, const uint8_t *portion, size_t length, uint32_t *timings, size_t room,
                                      size_t *value);

/* The cells of the chosen revolution (rules 9.16 and 9.38): its timings go to the separator. Gives the number of cells, packed at the front of
 * `cells`, and in `border_pulses` the number of border pulses, as thikbromu_separate leaves both. Refuses 16, 17, 6, 7, 8, 9, 10, the last with
 * the bytes that the cells need. The timings take 262,144 bytes of the stack. */
uint32_t thikbromu_revolution_cells(const uint8_t *block, size_t length, uint32_t revolutions, uint32_t revolution, uint8_t *cells,
                                    size_t room, size_t *border_pulses, size_t *value);

/*
 * A whole SuperCard Pro image (rules 19.1 to 19.15): `first` has its first 688 bytes, or more, of which the others are not looked at, and the image has
 * `image_length` bytes in all. The image is refused with 26 where it has fewer than 688 bytes or more than 4,294,967,295, where fewer than 688 are
 * handed over, or where the letters are not SCP. Then its header is refused with 27 and the place of the first byte that is not taken: 5 for no
 * revolutions, 6 for a first track above the last, 7 for a last track above 167, 8 for another medium than a floppy disk, 9 for a cell width other than 0
 * and 16, 10 for heads above 2, 11 for a unit other than 25 ns. No timing is scaled.
 */

/* The header (rules 9.71 and 9.75). Its numbers go to the front of `numbers`, ten as enum thikbromu_image_number has them, or as many as there is room
 * for. Gives 10. Refuses 26, 27; the numbers are then kept. */
uint32_t thikbromu_image_header(const uint8_t *first, size_t length, size_t image_length, uint32_t *numbers, size_t room, size_t *value);

/* The entries (rules 9.72, 9.75 and 19.8 to 19.12). Entry 2 T + H is that of track T and side H; number 2 e of `places` becomes the byte of the image at
 * which the block of entry e begins, and number 2 e + 1 the one before which it has to end: the start of another block, the footer or the image's end. Both
 * are 0 where the track is not there. Gives how many tracks are there. No two blocks overlap, all lie behind the first 688 bytes and within the image, and
 * each has room for its letters, its number and its table. Where `places` has room for fewer numbers, it gets as many. Refuses 26, 27, 28; the places are
 * then kept. */
uint32_t thikbromu_image_entries(const uint8_t *first, size_t length, size_t image_length, uint32_t *places, size_t room, size_t *value);

/* The sum of an image's bytes after a portion more (rules 9.73 and 19.13), modulo 2^32. It begins with 0 and goes over all bytes of the image from byte 16
 * on, in portions that are cut anywhere. */
uint32_t thikbromu_image_sum(uint32_t sum, const uint8_t *portion, size_t length);

/* Whether that sum is the one in the header (rules 9.74 and 19.14). Gives the sum. An image that may be written to is not judged by it. Refuses 26, 27,
 * 29. */
uint32_t thikbromu_image_check(const uint8_t *first, size_t length, size_t image_length, uint32_t sum, size_t *value);

/*
 * A track of double density, MFM: n cells in `bytes`; `track` and `side` are the drive's, T and H. Bytes after those that the cells need are
 * not looked at.
 */

/* A sector (rules 6.5 and 9.2). `index` counts from 0, in the order of their places. Its record goes to the front of `numbers`, thirteen as
 * enum thikbromu_sector_number has them, or as many as there is room for. Gives the number of sectors. Refuses 1, 2, 3, 4, 11, all numbers
 * then 0. */
uint32_t thikbromu_sector(const uint8_t *bytes, size_t length, size_t n, uint32_t track, uint32_t side, size_t index, uint32_t *numbers,
                          size_t room, size_t *value);

/* Reads out sector `index` to the front of `buffer` (rules 6.18, 9.4 and 9.32). Gives the number of bytes, and stores at `good` 1 where
 * their check is good, else 0. A bad check does not refuse the call. Refuses 1, 2, 3, 4, 11, 12, 13. */
uint32_t thikbromu_read_out(const uint8_t *bytes, size_t length, size_t n, uint32_t track, uint32_t side, size_t index, uint8_t *buffer,
                            size_t room, uint32_t *good, size_t *value);

/* The plain image (rules 9.61 and 15.1 to 15.5), which an .ST file is made of: the 512 data bytes of sector 1, then those of sector 2, and so on
 * up to 9, at the front of `image`. Gives 4,608, how many bytes that is; those behind keep their contents. The track has to have just the
 * sectors 1 to 9, each once, with size code 2 and both checks good; the marks and the track and side in the IDs do not count. Refuses 1, 2, 3,
 * 4, then 24 where the track is another, with the first number from 1 to 9 that is missing, stands twice, or has a sector that is not so, or
 * with 0 where all nine are in order and a sector has a number besides them; then 13. */
uint32_t thikbromu_sector_image(const uint8_t *bytes, size_t length, size_t n, uint32_t track, uint32_t side, uint8_t *image, size_t room,
                                size_t *value);

/* The findings (rules 7.32, 7.34 and 9.1) at the front of the list, in the order of their kinds, those of one kind by their places. Each
 * has four numbers: its kind, level, place and detail. `room` counts numbers. Gives the number of findings. Refuses 1, 2, 3, 4, 5. */
uint32_t thikbromu_findings(const uint8_t *bytes, size_t length, size_t n, uint32_t track, uint32_t side, uint32_t *list, size_t room,
                            size_t *value);

/* The same in records; `room` counts records. */
uint32_t thikbromu_finding_records(const uint8_t *bytes, size_t length, size_t n, uint32_t track, uint32_t side,
                                   struct thikbromu_finding *list, size_t room, size_t *value);

/*
 * Single density, FM, as 8-bit Atari drives write it (rules 3.19 to 3.22, 6.20 to 6.26, 7.44 to 7.47 and 9.41 to 9.48). Each routine takes,
 * gives and refuses what the routine without `fm` in its name does; the same cells may be read by both. What differs:
 * - a cell has 4,000 ns. The residual is -1000 to 999, and another counts as 0. A border pulse has an offset of -1804 or less or of 1804 or
 *   more. The tolerance of section 4 is not claimed;
 * - a mark is one word of 16 cells: F57E for an ID, F56F for data (its byte is FB), F56A for deleted data (F8). The ID ends at p + 112, and
 *   a data mark is looked for from there to p + 576. A check begins with the mark's own byte;
 * - LGT has more than 51,500 cells and SHT less than 48,500, NOS other than 18 sectors, SSZ a size code other than 0, which is that of 128
 *   bytes. SID counts the word F57E, and MTV a next one that is 3 cells on or more. No track has NSI or NSD.
 * Listings are those of double density alone, and so is what thikbromu_convert_file, thikbromu_revolution_cells and
 * thikbromu_revolution_timings make of timings: their cells and their border pulses.
 */

/* As thikbromu_step. */
uint32_t thikbromu_fm_step(int32_t *residual, uint32_t timing, int32_t *offset, size_t *value);

/* As thikbromu_separate. */
uint32_t thikbromu_fm_separate(const uint32_t *timings, size_t length, uint8_t *cells, size_t room, size_t *border_pulses, size_t *value);

/* As thikbromu_sector; the density in the record is 1. */
uint32_t thikbromu_fm_sector(const uint8_t *bytes, size_t length, size_t n, uint32_t track, uint32_t side, size_t index, uint32_t *numbers,
                             size_t room, size_t *value);

/* As thikbromu_read_out. */
uint32_t thikbromu_fm_read_out(const uint8_t *bytes, size_t length, size_t n, uint32_t track, uint32_t side, size_t index, uint8_t *buffer,
                               size_t room, uint32_t *good, size_t *value);

/* As thikbromu_findings. */
uint32_t thikbromu_fm_findings(const uint8_t *bytes, size_t length, size_t n, uint32_t track, uint32_t side, uint32_t *list, size_t room,
                               size_t *value);

/* As thikbromu_finding_records. */
uint32_t thikbromu_fm_finding_records(const uint8_t *bytes, size_t length, size_t n, uint32_t track, uint32_t side,
                                      struct thikbromu_finding *list, size_t room, size_t *value);

/*
 * Two reads of one sector (rules 14.1 to 14.9): of each the data bytes, 128, 256, 512 or 1,024, with the two check bytes behind them, the
 * high one first. `data_mark` is the byte of the data mark, by which the check goes; any byte will do, and of a greater number the low byte
 * counts. Both routines refuse 18 where the lengths differ, and then 19 where the length is another.
 */

/* Compares two reads (rules 9.51 and 9.53). Gives how many findings they have: 0 where they are equal, and else 1, which is FZD. Its four
 * numbers go to the front of `numbers`, or as many as there is room for: kind, level, the least index at which the reads differ, and how many
 * bits differ. The check bytes count too. Where there is no finding and beside a refusal the numbers are 0. */
uint32_t thikbromu_compare_reads(const uint8_t *first, size_t first_length, const uint8_t *second, size_t second_length, uint32_t data_mark,
                                 uint32_t *numbers, size_t room, size_t *value);

/* Says which of two reads has a good check (rules 9.52 and 9.54): `which` becomes 0 for the first, also where both are good, and 1 for the
 * second. Gives how many data bytes it has, which are the front of that read. Both are 0 where neither check is good, and beside a
 * refusal. */
uint32_t thikbromu_good_read(const uint8_t *first, size_t first_length, const uint8_t *second, size_t second_length, uint32_t data_mark,
                             size_t *which, size_t *value);

/*
 * A track file, whole in memory (rules 10.1 to 10.3): the number 2, the track and the side; how many cells there are, and these, packed; then
 * the number 0. The track and the side have a byte, the other numbers four bytes, the lowest first. In old files the last number is that of the
 * flux timings that follow it, and there are no cells: such a file has to be converted first.
 *
 * Refusals of a file (rules 10.4 to 10.7): at once, whatever follows, 15 where the first number is not 2, 2 where there are more than
 * 131,072 cells, 23 where the last number is not 0. Then 15 where bytes are missing or left over, or where there are no cells. Both routines
 * read the cells into 16,384 bytes of the stack first.
 */

/* The cells of a file (rules 9.11, 9.33 and 10.16), packed at the front of `cells`; bytes behind them keep their contents. Spare bits of the
 * last byte are the file's. Gives the number of cells, and stores the track and the side at the front of `place`, or as many of the two as there
 * is room for. Refuses a file as above, and then 10, with the bytes that its cells need. The track, the side and a number of cells below 20,000
 * are not judged here: the routines on a track do that. */
uint32_t thikbromu_file_cells(const uint8_t *file, size_t length, uint8_t *cells, size_t room, uint32_t *place, size_t places,
                              size_t *value);

/* Makes a track file of an old one with flux timings, whole in memory: the same track and side, which are not judged, the cells that
 * thikbromu_separate makes of the timings, and 0 as the last number. It stands at the front of `out`; bytes behind it keep their contents. Gives
 * its length, which is at most THIKBROMU_LONGEST_FILE. It is listed as the old file was. Refuses at once, whatever follows, 15 where the first
 * number is not 2 or the number of cells is not 0, and 7 where there are more than 65,536 timings. Then 15 where bytes are missing or left over,
 * or where there are no timings; 8 and 9 for the timings; 2, with 0, where they give no cells; and last 10, with the length of the new file. */
uint32_t thikbromu_convert_file(const uint8_t *file, size_t length, uint8_t *out, size_t out_room, size_t *value);

/* The listing of a file (rules 9.13, 11.8 and 11.9) at the front of `out`, or as much of it as there is room for. The answer is the length
 * of the whole, which is at most 65,536. Of a refused file it is one line, the word `refused` and the number: the file is refused as above,
 * and then as thikbromu_listing refuses its track. */
size_t thikbromu_file_listing(const uint8_t *file, size_t length, uint8_t *out, size_t out_room);

/* The listing of a track (rules 9.12 and 11.1 to 11.7), in the same way. */
size_t thikbromu_listing(const uint8_t *bytes, size_t length, size_t n, uint32_t track, uint32_t side, uint8_t *out, size_t out_room);

/*
 * The page of a disk (section 16 of the specification): the findings of up to 168 tracks in one text.
 *
 * `tracks` has three numbers for each track, in any order: the track, the side, and how many findings it has. `findings` has four for each
 * finding, as thikbromu_findings and thikbromu_fm_findings write them: those of the first track, then those of the second, and so on. Both
 * lengths count numbers.
 */

/* The page (rules 9.62 and 16.10 to 16.18) at the front of `out`, or as much of it as there is room for; what is behind it keeps its contents.
 * Gives the length of the whole. A line has the track, the side and a finding, as in `T05 H0 3 NOS level 3 place 0 detail 0`. The lines stand
 * in the order of side, track, kind and place. Tracks of a side that follow each other and have TNF share the TNF line of the first, as in
 * `T74-79 H0 4 TNF level 2 place 0 detail 0`. Where just one of the sides has TNF on all of the tracks 0 to 79, the last line is `single-sided`. No
 * tracks give an empty page.
 *
 * Refuses 22 where there are more than 168 tracks; 1; 21 where a track and side stands twice; 25 where the length of `tracks` is no multiple of
 * three, that of `findings` none of four, the counts do not add up to the number of findings, or a track has findings that it cannot have: not
 * strictly in order by kind and place, of a kind that is none of 1 to 21, or TNF above track 79 or with other numbers than level 2, place 0
 * and detail 0. Levels of other kinds are not judged. */
uint32_t thikbromu_disk_page(const uint32_t *tracks, size_t track_numbers, const uint32_t *findings, size_t finding_numbers, uint8_t *out,
                             size_t out_room, size_t *value);

#ifdef __cplusplus
}
#endif

#endif
