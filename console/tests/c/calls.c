/* Calls each function of dezghuri.h from C and checks its answers on example A of the paper, of moves on E, of
 * certificates on E, F and K, and of losses on A, E and K.
 * Prints what is wrong, and ends with status 1 if anything is. */
#include "dezghuri.h"

#include <stdio.h>
#include <string.h>

static int faults = 0;

#define EXPECT(condition)                                          \
    do {                                                           \
        if (!(condition)) {                                        \
            printf("line %d: not so: %s\n", __LINE__, #condition); \
            faults++;                                              \
        }                                                          \
    } while (0)

/* Example A: k 1, R 3, Z 2; nodes 1/1/100, 2/1/70, 3/2/50, of which 94, 66 and 47 may be filled, all with the
 * ceiling 256; no former layout. */
static const uint8_t CLUSTER[57] = {
    1, 0, 1, 1, 2, 0, 1, 3, 3, 0, 1, 2,
    4, 0, 12, 0, 0, 0, 1, 0, 1, 0, 0, 0, 100, 1, 0,
    4, 0, 12, 0, 0, 0, 2, 0, 1, 0, 0, 0, 70, 1, 0,
    4, 0, 12, 0, 0, 0, 3, 0, 2, 0, 0, 0, 50, 1, 0,
};

/* Its layout record: size 23, 6 copies sent, finished, no improvements, rows 1 2 3 twice. */
static const uint8_t LAYOUT[63] = {
    1, 0, 1, 1, 2, 0, 1, 3, 6, 0, 4, 0, 0, 0, 23, 7, 0, 2, 0, 6, 8, 0, 1, 1, 9, 0, 2, 0, 0,
    10, 0, 14, 0, 0, 0, 0, 0, 1, 0, 0, 0, 2, 0, 0, 0, 3,
    10, 0, 14, 0, 1, 0, 0, 0, 1, 0, 0, 0, 2, 0, 0, 0, 3,
};

/* Changes of its nodes: node 5 in zone 2 with 80 MB and the ceiling 2 is added, node 1 removed, node 3 resized
 * to 90 MB. */
static const uint8_t CHANGES[33] = {
    20, 0, 12, 0, 0, 0, 5, 0, 2, 0, 0, 0, 80, 0, 2,
    21, 0, 4, 0, 0, 0, 1,
    22, 0, 8, 0, 0, 0, 3, 0, 0, 0, 90,
};

/* Example E: k 1, R 1, Z 1; nodes 1/1/10 and 2/1/4 with the ceiling 256. Both partitions lie at node 2. */
static const uint8_t MOVING[42] = {
    1, 0, 1, 1, 2, 0, 1, 1, 3, 0, 1, 1,
    4, 0, 12, 0, 0, 0, 1, 0, 1, 0, 0, 0, 10, 1, 0,
    4, 0, 12, 0, 0, 0, 2, 0, 1, 0, 0, 0, 4, 1, 0,
};

/* The same with its former rows, 2 and 2; their ids end at bytes 50 and 59. */
static const uint8_t HELD[60] = {
    1, 0, 1, 1, 2, 0, 1, 1, 3, 0, 1, 1,
    4, 0, 12, 0, 0, 0, 1, 0, 1, 0, 0, 0, 10, 1, 0,
    4, 0, 12, 0, 0, 0, 2, 0, 1, 0, 0, 0, 4, 1, 0,
    5, 0, 6, 0, 0, 0, 0, 0, 2, 5, 0, 6, 0, 1, 0, 0, 0, 2,
};

/* Example K: k 0, R 3, Z 2; nodes 1/1/9, 2/1/9, 3/1/9 and 4/2/1 with the ceiling 256; former row 1 2 3. */
static const uint8_t ZONES[89] = {
    1, 0, 1, 0, 2, 0, 1, 3, 3, 0, 1, 2,
    4, 0, 12, 0, 0, 0, 1, 0, 1, 0, 0, 0, 9, 1, 0,
    4, 0, 12, 0, 0, 0, 2, 0, 1, 0, 0, 0, 9, 1, 0,
    4, 0, 12, 0, 0, 0, 3, 0, 1, 0, 0, 0, 9, 1, 0,
    4, 0, 12, 0, 0, 0, 4, 0, 2, 0, 0, 0, 1, 1, 0,
    5, 0, 14, 0, 0, 0, 0, 0, 1, 0, 0, 0, 2, 0, 0, 0, 3,
};

/* Its steps to the rows 1 and 1: each partition is sent to node 1 from node 2, and then dropped there. */
static const uint32_t STEPS[16] = {
    DEZGHURI_SEND, 0, 1, 2, DEZGHURI_DROP, 0, 2, 0, DEZGHURI_SEND, 1, 1, 2, DEZGHURI_DROP, 1, 2, 0,
};

/* What the buffers are filled with before a call; each has one cell more than it needs. */
#define PATTERN 0xA5A5A5A5u
enum {
    CELLS = DEZGHURI_LAYOUT_CELLS,
    SCRATCH = DEZGHURI_SCRATCH_CELLS,
    FIGURES = DEZGHURI_FIGURES_CELLS,
    ANSWER = DEZGHURI_READ_CLUSTER_ANSWER,
    REVERSE = DEZGHURI_REVERSE_BYTES,
    MADE = DEZGHURI_CHANGE_ANSWER,
    WIDE = DEZGHURI_WIDE_CELLS,
    WIDE_ROW = DEZGHURI_WIDE_ROW_CELLS,
    MOVES = DEZGHURI_MOVES_ANSWER,
    CERTIFY = DEZGHURI_CERTIFY_ANSWER,
    WORST = DEZGHURI_WORST_LOSS_ANSWER,
    LOSS = DEZGHURI_LOSS_ANSWER,
};
static uint32_t cells[CELLS + 1];
static uint32_t scratch[SCRATCH + 1];
static uint32_t figures[FIGURES + 1];
static uint32_t answer[ANSWER + 1];
static uint8_t reverse[REVERSE + 1];
static uint32_t made[MADE + 1];
static uint32_t wide[WIDE + 1];
static uint32_t moves[17];

static void fill(uint32_t *buffer, size_t length) {
    for (size_t i = 0; i < length; i++) buffer[i] = PATTERN;
}

static int all(const uint32_t *buffer, size_t from, size_t to, uint32_t value) {
    for (size_t i = from; i < to; i++)
        if (buffer[i] != value) return 0;
    return 1;
}

static int holds(const uint32_t *buffer, const uint32_t *expected, size_t length) {
    return memcmp(buffer, expected, length * sizeof *expected) == 0;
}

static uint32_t read_cluster(const uint8_t *record, size_t length, size_t room) {
    fill(cells, CELLS + 1);
    fill(answer, ANSWER + 1);
    return dezghuri_read_cluster(record, length, cells, room, answer, ANSWER);
}

static uint32_t plan(const uint8_t *record, uint16_t allowance) {
    fill(cells, CELLS + 1);
    fill(scratch, SCRATCH + 1);
    fill(answer, ANSWER + 1);
    return dezghuri_plan(record, 57, allowance, cells, CELLS + 1, scratch, SCRATCH + 1,
                         answer, DEZGHURI_PLAN_ANSWER);
}

static uint32_t check(const uint8_t *record, uint32_t size) {
    fill(answer, ANSWER + 1);
    return dezghuri_check(record, 57, cells, CELLS, size, answer, DEZGHURI_CHECK_ANSWER);
}

/* Leaves so many rows in `cells`, whose ids come one after the other, as many to a row as the record has copies. */
static void lay(const uint8_t *record, const uint32_t *ids, size_t rows) {
    memset(cells, 0, CELLS * sizeof *cells);
    const size_t width = record[7];
    for (size_t i = 0; i < rows * width; i++) cells[i / width * DEZGHURI_ROW_CELLS + i % width] = ids[i];
}

/* Certifies a layout of one partition or two. */
static uint32_t certify(const uint8_t *record, size_t length, const uint32_t *ids, size_t rows, uint32_t size) {
    lay(record, ids, rows);
    fill(answer, ANSWER + 1);
    const uint32_t refusal = dezghuri_certify(record, length, cells, CELLS, size, answer, CERTIFY);
    EXPECT(answer[CERTIFY] == PATTERN);
    EXPECT(refusal == DEZGHURI_OK || all(answer, DEZGHURI_CERTIFY_PRICES, CERTIFY, 0));
    return refusal;
}

/* The worst loss of so many nodes, of the layout in so many of `cells`. */
static uint32_t worst(const uint8_t *record, size_t length, size_t rows, uint32_t number) {
    fill(answer, ANSWER + 1);
    const uint32_t refusal = dezghuri_worst_loss(record, length, cells, rows, number, answer, WORST);
    EXPECT(all(answer, WORST, ANSWER + 1, PATTERN));
    EXPECT(refusal == DEZGHURI_OK || all(answer, DEZGHURI_WORST_LOSS_LOST, WORST, 0));
    return refusal;
}

/* The loss of the nodes of so many ids, of the layout in so many of `cells`. */
static uint32_t loss(const uint8_t *record, size_t length, size_t rows, const uint32_t *ids, size_t many) {
    fill(answer, ANSWER + 1);
    const uint32_t refusal = dezghuri_loss(record, length, cells, rows, ids, many, answer, LOSS);
    EXPECT(all(answer, LOSS, ANSWER + 1, PATTERN));
    EXPECT(refusal == DEZGHURI_OK || answer[DEZGHURI_LOSS_LOST] == 0);
    return refusal;
}

static uint32_t count(uint32_t size, size_t room) {
    fill(figures, FIGURES + 1);
    fill(answer, ANSWER + 1);
    return dezghuri_figures(CLUSTER, 57, cells, CELLS, size, figures, room,
                            answer, DEZGHURI_FIGURES_ANSWER);
}

static uint32_t write(uint32_t replication, uint32_t size, uint32_t sent, uint8_t *out, size_t room) {
    memset(out, 0x5A, 64);
    fill(answer, ANSWER + 1);
    return dezghuri_write_layout(1, replication, size, sent, DEZGHURI_FINISHED, 0, cells, CELLS,
                                 out, room, answer, DEZGHURI_WRITE_LAYOUT_ANSWER);
}

static uint32_t change(const uint8_t *record, size_t length, const uint8_t *changes, size_t changes_len,
                       size_t at) {
    memset(reverse, 0x5A, REVERSE + 1);
    fill(made, MADE + 1);
    return dezghuri_change(record, length, changes, changes_len, at, reverse, REVERSE, made, MADE);
}

/* The steps from what is held in `wide` to the rows in `cells`, in so many cells; counted, too, where the list is
 * not refused for want of these. */
static uint32_t list(const uint8_t *record, size_t length, size_t held, size_t rows, size_t room) {
    static uint32_t counted[MOVES + 1];
    fill(answer, ANSWER + 1);
    fill(counted, MOVES + 1);
    fill(moves, 17);
    const uint32_t refusal = dezghuri_moves(record, length, wide, held, cells, rows, moves, room, answer, MOVES);
    const uint32_t count = dezghuri_count_moves(record, length, wide, held, cells, rows, counted, MOVES);
    const int is_short = refusal == DEZGHURI_SHORT && held >= WIDE && rows >= CELLS;
    EXPECT(is_short || (count == refusal && holds(counted, answer, MOVES)));
    EXPECT(answer[MOVES] == PATTERN && counted[MOVES] == PATTERN);
    EXPECT(all(moves, DEZGHURI_STEP_CELLS * answer[DEZGHURI_MOVES_STEPS], 17, PATTERN));
    return refusal;
}

/* The record of the cluster in `made`, which has no former rows; its length. */
static size_t record_made(uint8_t *record) {
    size_t length = 0;
    for (uint32_t i = 0; i < 3; i++) {
        const uint8_t field[4] = {(uint8_t)(i + 1), 0, 1, (uint8_t)made[DEZGHURI_CHANGE_BITS + i]};
        memcpy(record + length, field, 4);
        length += 4;
    }
    for (uint32_t b = 0; b < made[DEZGHURI_CHANGE_NODES]; b++) {
        const uint32_t *node = made + DEZGHURI_CHANGE_FIRST_NODE + DEZGHURI_NODE_CELLS * b;
        const uint32_t id = node[DEZGHURI_NODE_ID], zone = node[DEZGHURI_NODE_ZONE];
        const uint32_t capacity = node[DEZGHURI_NODE_CAPACITY], ceiling = node[DEZGHURI_NODE_CEILING];
        const uint8_t field[15] = {
            4, 0, 12, (uint8_t)(id >> 24), (uint8_t)(id >> 16), (uint8_t)(id >> 8), (uint8_t)id,
            (uint8_t)(zone >> 8), (uint8_t)zone, (uint8_t)(capacity >> 24), (uint8_t)(capacity >> 16),
            (uint8_t)(capacity >> 8), (uint8_t)capacity, (uint8_t)(ceiling >> 8), (uint8_t)ceiling,
        };
        memcpy(record + length, field, 15);
        length += 15;
    }
    return length;
}

static void reading_a_cluster(void) {
    static const uint32_t read[18] = {0, 0, 1, 3, 2, 3, 1, 1, 100, 256, 2, 1, 70, 256, 3, 2, 50, 256};
    static const uint32_t refused[6] = {0, 42, 0, 1, 1, 0};
    EXPECT(read_cluster(CLUSTER, 57, CELLS + 1) == DEZGHURI_OK);
    EXPECT(holds(answer, read, 18) && all(answer, 18, ANSWER, 0));
    EXPECT(answer[DEZGHURI_READ_CLUSTER_BITS] == 1 && answer[DEZGHURI_READ_CLUSTER_REPLICATION] == 3);
    EXPECT(answer[DEZGHURI_READ_CLUSTER_REDUNDANCY] == 2 && answer[DEZGHURI_READ_CLUSTER_NODES] == 3);
    EXPECT(answer[DEZGHURI_READ_CLUSTER_FIRST_NODE + DEZGHURI_NODE_CELLS + DEZGHURI_NODE_CAPACITY] == 70);
    EXPECT(answer[ANSWER] == PATTERN);
    EXPECT(all(cells, 0, CELLS, 0) && cells[CELLS] == PATTERN);

    EXPECT(read_cluster(CLUSTER, 56, CELLS) == DEZGHURI_CUT);
    EXPECT(holds(answer, refused, 6) && all(answer, 6, ANSWER, 0));
    EXPECT(all(cells, 0, CELLS + 1, PATTERN));
    EXPECT(read_cluster(CLUSTER, 57, CELLS - 1) == DEZGHURI_SHORT);
    EXPECT(all(cells, 0, CELLS + 1, PATTERN));
}

static void planning(void) {
    static const uint32_t numbers[6] = {0, 0, 23, 6, DEZGHURI_FINISHED, 0};
    static const uint32_t rows[16] = {1, 2, 3, 0, 0, 0, 0, 0, 1, 2, 3, 0, 0, 0, 0, 0};
    EXPECT(plan(CLUSTER, DEZGHURI_ENOUGH_ALLOWANCE) == DEZGHURI_OK);
    EXPECT(holds(answer, numbers, 6) && answer[DEZGHURI_PLAN_ANSWER] == PATTERN);
    EXPECT(answer[DEZGHURI_PLAN_SIZE] == 23 && answer[DEZGHURI_PLAN_SENT] == 6);
    EXPECT(answer[DEZGHURI_PLAN_VERDICT] == DEZGHURI_FINISHED && answer[DEZGHURI_PLAN_IMPROVEMENTS] == 0);
    EXPECT(holds(cells, rows, 16) && all(cells, 16, CELLS, 0) && cells[CELLS] == PATTERN);
    EXPECT(all(scratch, 0, SCRATCH, 0) && scratch[SCRATCH] == PATTERN);

    uint8_t other[57];
    memcpy(other, CLUSTER, 57);
    other[11] = 3; /* example B: three zones are wanted, and there are two */
    EXPECT(plan(other, 65535) == DEZGHURI_NO_LAYOUT);
    EXPECT(all(answer, 0, 6, 0));
    EXPECT(all(cells, 0, CELLS + 1, PATTERN));
    EXPECT(all(scratch, 0, SCRATCH, 0) && scratch[SCRATCH] == PATTERN);
    other[11] = 4; /* more zones than copies */
    EXPECT(plan(other, 0) == DEZGHURI_RANGE);
    EXPECT(answer[DEZGHURI_BYTE_LOW] == 8);
    EXPECT(all(scratch, 0, SCRATCH + 1, PATTERN));
}

/* Leaves the rows of example A in `cells`. */
static void reading_a_layout(void) {
    static const uint32_t numbers[8] = {0, 0, 1, 3, 23, 6, DEZGHURI_FINISHED, 0};
    static const uint32_t rows[16] = {1, 2, 3, 0, 0, 0, 0, 0, 1, 2, 3, 0, 0, 0, 0, 0};
    fill(cells, CELLS + 1);
    EXPECT(dezghuri_read_layout(LAYOUT, 46, cells, CELLS, answer, 8) == DEZGHURI_MISSING);
    EXPECT(answer[DEZGHURI_BYTE_LOW] == 46 && all(answer, 2, 8, 0));
    EXPECT(all(cells, 0, CELLS + 1, PATTERN));
    EXPECT(dezghuri_read_layout(LAYOUT, 63, cells, CELLS, answer, 8) == DEZGHURI_OK);
    EXPECT(holds(answer, numbers, 8));
    EXPECT(answer[DEZGHURI_READ_LAYOUT_BITS] == 1 && answer[DEZGHURI_READ_LAYOUT_REPLICATION] == 3);
    EXPECT(answer[DEZGHURI_READ_LAYOUT_SIZE] == 23 && answer[DEZGHURI_READ_LAYOUT_SENT] == 6);
    EXPECT(answer[DEZGHURI_READ_LAYOUT_VERDICT] == DEZGHURI_FINISHED);
    EXPECT(answer[DEZGHURI_READ_LAYOUT_IMPROVEMENTS] == 0);
    EXPECT(holds(cells, rows, 16) && all(cells, 16, CELLS, 0) && cells[CELLS] == PATTERN);
}

static void a_layout_in_hand(void) {
    static const uint32_t copies[3] = {2, 2, 2}, in_zones[3] = {4, 4, 2};
    static const uint32_t shown[DEZGHURI_ROW_CELLS] = {1, 2, 3, 0, 0, 0, 0, 0};
    EXPECT(check(CLUSTER, 23) == DEZGHURI_OK && all(answer, 0, 3, 0));
    EXPECT(check(CLUSTER, 24) == DEZGHURI_CAPACITY && answer[DEZGHURI_PLACE] == 3);
    EXPECT(check(CLUSTER, 25) == DEZGHURI_CAPACITY && answer[DEZGHURI_PLACE] == 3); /* it fills the disk to the brim */
    EXPECT(check(CLUSTER, 0) == DEZGHURI_RANGE && all(answer, 0, 3, 0));

    EXPECT(count(23, FIGURES + 1) == DEZGHURI_OK);
    EXPECT(holds(figures + DEZGHURI_FIGURES_COPIES, copies, 3) && all(figures, 3, 32, 0));
    EXPECT(holds(figures + DEZGHURI_FIGURES_ZONE_COPIES, in_zones, 3) && all(figures, 35, 64, 0));
    EXPECT(figures[FIGURES] == PATTERN);
    EXPECT(answer[DEZGHURI_FIGURES_HOPE_HIGH] == 0 && answer[DEZGHURI_FIGURES_HOPE_LOW] == (94 + 66 + 47) / 6);
    EXPECT(count(23, FIGURES - 1) == DEZGHURI_SHORT && all(figures, 0, FIGURES + 1, PATTERN));

    uint32_t row[DEZGHURI_ROW_CELLS];
    fill(row, DEZGHURI_ROW_CELLS);
    EXPECT(dezghuri_show_row(cells, CELLS, 256, row, 8) == DEZGHURI_RANGE);
    EXPECT(dezghuri_show_row(cells, CELLS, 1, row, 7) == DEZGHURI_SHORT);
    EXPECT(all(row, 0, 8, PATTERN));
    EXPECT(dezghuri_show_row(cells, CELLS, 1, row, 8) == DEZGHURI_OK);
    EXPECT(holds(row, shown, 8));
}

/* Example A with another ceiling for node 2, whose field ends at byte 41; the rows in `cells` have it twice. */
static void ceilings(void) {
    uint8_t other[57];
    memcpy(other, CLUSTER, 57);
    other[40] = 0, other[41] = 2;
    EXPECT(check(other, 23) == DEZGHURI_OK && all(answer, 0, 3, 0));
    other[41] = 1; /* one partition of two, and there is no other row */
    EXPECT(check(other, 1) == DEZGHURI_CAPACITY && answer[DEZGHURI_PLACE] == 2);
    EXPECT(plan(other, DEZGHURI_ENOUGH_ALLOWANCE) == DEZGHURI_NO_LAYOUT);
    other[40] = 1; /* 257 */
    EXPECT(check(other, 1) == DEZGHURI_RANGE && answer[DEZGHURI_BYTE_LOW] == 27 && answer[DEZGHURI_PLACE] == 0);
    EXPECT(plan(other, 0) == DEZGHURI_RANGE && answer[DEZGHURI_BYTE_LOW] == 27);
    EXPECT(read_cluster(other, 57, CELLS) == DEZGHURI_RANGE && answer[DEZGHURI_BYTE_LOW] == 27);
    EXPECT(change(other, 57, CHANGES, 33, 0) == DEZGHURI_RANGE && made[DEZGHURI_BYTE_LOW] == 27);
    EXPECT(made[DEZGHURI_CHANGE_NODES] == 0);
    other[29] = 10; /* a node without a ceiling */
    EXPECT(read_cluster(other, 57, CELLS) == DEZGHURI_LENGTH && answer[DEZGHURI_BYTE_LOW] == 27);
    EXPECT(read_cluster(other, 30, CELLS) == DEZGHURI_LENGTH && answer[DEZGHURI_BYTE_LOW] == 27);
}

static void writing(void) {
    uint8_t out[64];
    EXPECT(write(3, 23, 6, out, 64) == DEZGHURI_OK);
    EXPECT(answer[DEZGHURI_WRITE_LAYOUT_LENGTH_HIGH] == 0 && answer[DEZGHURI_WRITE_LAYOUT_LENGTH_LOW] == 63);
    EXPECT(answer[DEZGHURI_WRITE_LAYOUT_ANSWER] == PATTERN);
    EXPECT(memcmp(out, LAYOUT, 63) == 0 && out[63] == 0x5A);
    EXPECT(write(3, 23, 6, out, 62) == DEZGHURI_SHORT && out[0] == 0x5A);
    EXPECT(write(2, 23, 6, out, 64) == DEZGHURI_ROW && out[0] == 0x5A);
    EXPECT(write(3, 0, 6, out, 64) == DEZGHURI_RANGE && out[0] == 0x5A);
    EXPECT(all(answer, 0, DEZGHURI_WRITE_LAYOUT_ANSWER, 0));
}

/* No layout has more than 2,048 copies. Field 7 begins at byte 15. */
static void most_copies_sent(void) {
    uint8_t out[64];
    EXPECT(write(3, 23, 2049, out, 64) == DEZGHURI_RANGE && out[0] == 0x5A);
    EXPECT(write(3, 23, 2048, out, 64) == DEZGHURI_OK);
    EXPECT(out[15] == 7 && out[18] == 8 && out[19] == 0);
    EXPECT(dezghuri_read_layout(out, 63, cells, CELLS, answer, 8) == DEZGHURI_OK);
    EXPECT(answer[DEZGHURI_READ_LAYOUT_SENT] == 2048);
    out[19] = 1;
    EXPECT(dezghuri_read_layout(out, 63, cells, CELLS, answer, 8) == DEZGHURI_RANGE);
    EXPECT(answer[DEZGHURI_BYTE_HIGH] == 0 && answer[DEZGHURI_BYTE_LOW] == 15 && all(answer, 2, 8, 0));
}

/* Each cluster made becomes the record of the next call; the reverses, made in backward order, restore the
 * first one byte for byte. */
static void changing_and_undoing(void) {
    static const uint32_t last[21] = {0, 0, 0, 33, 11, 1, 3, 2, 3, 2, 1, 70, 256, 3, 2, 90, 256, 5, 2, 80, 2};
    static const uint8_t removed[REVERSE] = {20, 0, 12, 0, 0, 0, 1, 0, 1, 0, 0, 0, 100, 1, 0};
    static const uint8_t resized[REVERSE] = {22, 0, 8, 0, 0, 0, 3, 0, 0, 0, 50, 0, 0, 0, 0};
    uint8_t record[12 + 15 * 4], reverses[3][REVERSE];
    size_t lengths[3], length = 57, at = 0;
    memcpy(record, CLUSTER, 57);
    for (int i = 0; i < 3; i++) {
        EXPECT(change(record, length, CHANGES, 33, at) == DEZGHURI_OK);
        EXPECT(reverse[REVERSE] == 0x5A && made[MADE] == PATTERN);
        memcpy(reverses[i], reverse, REVERSE);
        lengths[i] = made[DEZGHURI_CHANGE_REVERSE_LENGTH];
        at = made[DEZGHURI_CHANGE_NEXT_LOW];
        length = record_made(record);
    }
    EXPECT(holds(made, last, 21) && all(made, 21, MADE, 0));
    EXPECT(made[DEZGHURI_CHANGE_REPLICATION] == 3 && made[DEZGHURI_CHANGE_REDUNDANCY] == 2);
    EXPECT(memcmp(reverses[1], removed, REVERSE) == 0);
    EXPECT(memcmp(reverses[2], resized, REVERSE) == 0);
    for (int i = 2; i >= 0; i--) {
        EXPECT(change(record, length, reverses[i], lengths[i], 0) == DEZGHURI_OK);
        EXPECT(made[DEZGHURI_CHANGE_NEXT_HIGH] == 0 && made[DEZGHURI_CHANGE_NEXT_LOW] == lengths[i]);
        length = record_made(record);
    }
    EXPECT(length == 57 && memcmp(record, CLUSTER, 57) == 0);
}

static int kept(void) {
    for (size_t i = 0; i < REVERSE + 1; i++)
        if (reverse[i] != 0x5A) return 0;
    return made[MADE] == PATTERN;
}

static void refused_changes(void) {
    static const uint32_t read[21] = {0, 0, 0, 15, 0, 1, 3, 2, 3, 1, 1, 100, 256, 2, 1, 70, 256, 3, 2, 50, 256};
    static const uint32_t none[9] = {0, 42, 0, 15, 0, 0, 1, 1, 0};
    uint8_t changes[33];
    memcpy(changes, CHANGES, 33);
    changes[6] = 3;
    EXPECT(change(CLUSTER, 57, changes, 33, 0) == DEZGHURI_PRESENT && made[DEZGHURI_CHANGE_NEXT_LOW] == 0 && kept());
    changes[13] = 255; /* a ceiling above 256, which is looked at before the id */
    EXPECT(change(CLUSTER, 57, changes, 33, 0) == DEZGHURI_RANGE && made[DEZGHURI_CHANGE_NEXT_LOW] == 0 && kept());
    changes[21] = 4;
    EXPECT(change(CLUSTER, 57, changes, 33, 15) == DEZGHURI_ABSENT && kept());
    EXPECT(holds(made, read, 21) && all(made, 21, MADE, 0));
    EXPECT(change(CLUSTER, 57, changes, 32, 22) == DEZGHURI_CUT && made[DEZGHURI_CHANGE_NEXT_LOW] == 22 && kept());
    EXPECT(change(CLUSTER, 57, changes, 33, 33) == DEZGHURI_MISSING && made[DEZGHURI_CHANGE_NEXT_LOW] == 33 && kept());
    EXPECT(change(CLUSTER, 57, changes, 33, SIZE_MAX) == DEZGHURI_MISSING && kept());
    EXPECT(made[DEZGHURI_CHANGE_NEXT_HIGH] == SIZE_MAX >> 16 >> 16 && made[DEZGHURI_CHANGE_NEXT_LOW] == 0xFFFFFFFF);
    EXPECT(change(CLUSTER, 56, changes, 33, 15) == DEZGHURI_CUT && kept());
    EXPECT(holds(made, none, 9) && all(made, 9, MADE, 0));

    fill(made, MADE + 1);
    EXPECT(dezghuri_change(CLUSTER, 57, CHANGES, 33, 0, reverse, REVERSE - 1, made, MADE) == DEZGHURI_SHORT);
    EXPECT(dezghuri_change(CLUSTER, 57, CHANGES, 33, 0, reverse, REVERSE, made, MADE - 1) == DEZGHURI_SHORT);
    EXPECT(kept() && all(made, 0, MADE + 1, PATTERN));
}

/* Fills `wide` and `cells` with what is held, partition 0 at these nodes and 1 at node 2, and with the rows 1 and 1;
 * what is not looked at keeps the pattern. */
static void hold(uint32_t first, uint32_t second) {
    fill(wide, WIDE + 1);
    fill(cells, CELLS + 1);
    memset(wide, 0, 2 * WIDE_ROW * sizeof *wide);
    memset(cells, 0, CELLS * sizeof *cells);
    wide[0] = first, wide[1] = second, wide[WIDE_ROW] = 2;
    cells[0] = 1, cells[DEZGHURI_ROW_CELLS] = 1;
}

static void moving(void) {
    static uint32_t wide_before[WIDE + 1], cells_before[CELLS + 1];
    static const uint32_t numbers[MOVES] = {0, 0, 0, 4}, left[MOVES] = {0, 0, 0, 3};
    hold(2, 9); /* node 9 is gone */
    memcpy(wide_before, wide, sizeof wide);
    memcpy(cells_before, cells, sizeof cells);
    EXPECT(list(MOVING, 42, WIDE + 1, CELLS + 1, 17) == DEZGHURI_OK);
    EXPECT(holds(answer, numbers, MOVES) && holds(moves, STEPS, 16));
    EXPECT(moves[DEZGHURI_STEP_KIND] == DEZGHURI_SEND && moves[DEZGHURI_STEP_SOURCE] == 2);
    EXPECT(moves[2 * DEZGHURI_STEP_CELLS + DEZGHURI_STEP_PARTITION] == 1 && moves[DEZGHURI_STEP_NODE] == 1);
    EXPECT(list(MOVING, 42, WIDE, CELLS, 16) == DEZGHURI_OK && holds(moves, STEPS, 16));
    EXPECT(list(MOVING, 42, WIDE, CELLS, 15) == DEZGHURI_SHORT && all(answer, 0, MOVES, 0));
    EXPECT(holds(wide, wide_before, WIDE + 1) && holds(cells, cells_before, CELLS + 1));

    hold(1, 2); /* the power went after the first step */
    EXPECT(list(MOVING, 42, WIDE, CELLS, 12) == DEZGHURI_OK);
    EXPECT(holds(answer, left, MOVES) && holds(moves, STEPS + 4, 12));
    hold(1, 0);
    wide[WIDE_ROW] = 1;
    EXPECT(list(MOVING, 42, WIDE, CELLS, 0) == DEZGHURI_OK && all(answer, 0, MOVES, 0));
}

/* Each call has what is refused later, too. */
static void refused_moves(void) {
    uint8_t other[42];
    memcpy(other, MOVING, 42);
    other[24] = 1; /* node 1 takes one of the two copies */
    hold(2, 2);
    cells[DEZGHURI_ROW_CELLS] = 3;
    EXPECT(list(other, 41, 0, 0, 0) == DEZGHURI_CUT && answer[DEZGHURI_BYTE_LOW] == 27 && answer[DEZGHURI_PLACE] == 0);
    EXPECT(list(other, 42, WIDE - 1, CELLS, 0) == DEZGHURI_SHORT && all(answer, 0, MOVES, 0));
    EXPECT(list(other, 42, WIDE, CELLS - 1, 0) == DEZGHURI_SHORT && all(answer, 0, MOVES, 0));
    EXPECT(list(other, 42, WIDE, CELLS, 0) == DEZGHURI_ROW && answer[DEZGHURI_PLACE] == 1);
    EXPECT(answer[DEZGHURI_MOVES_STEPS] == 0);
    cells[DEZGHURI_ROW_CELLS] = 1;
    EXPECT(list(other, 42, WIDE, CELLS, 0) == DEZGHURI_CAPACITY && answer[DEZGHURI_PLACE] == 1);
    EXPECT(answer[DEZGHURI_MOVES_STEPS] == 0);
    EXPECT(list(MOVING, 42, WIDE, CELLS, 0) == DEZGHURI_ORDER && all(answer, 0, MOVES, 0));

    fill(answer, ANSWER + 1);
    fill(moves, 17);
    EXPECT(dezghuri_moves(MOVING, 42, wide, WIDE, cells, CELLS, moves, 17, answer, MOVES - 1) == DEZGHURI_SHORT);
    EXPECT(dezghuri_count_moves(MOVING, 42, wide, WIDE, cells, CELLS, answer, MOVES - 1) == DEZGHURI_SHORT);
    EXPECT(all(moves, 0, 17, PATTERN) && all(answer, 0, ANSWER + 1, PATTERN));
}

/* Whether nothing is refused, and the prices are 0 but for those of the first two nodes. */
static int prices(uint32_t refusal, uint32_t first, uint32_t second) {
    const uint32_t *found = answer + DEZGHURI_CERTIFY_PRICES;
    return refusal == DEZGHURI_OK && all(answer, 0, DEZGHURI_CERTIFY_PRICES, 0) && found[0] == first &&
           found[1] == second && all(found, 2, DEZGHURI_MOST_NODES, 0);
}

/* Of E both partitions have to leave node 2, which has no room for 5 MB and the price 1: 2 x 1 - 0 = 2 are sent. Of
 * F one has to leave node 1, whose room for one costs 1: 2 x 1 - 1 = 1; both layouts have these prices. Of K no
 * price is needed: the cheapest row, 1 2 4, costs 0 + 0 + 1. */
static void certifying(void) {
    static const uint32_t ones[2] = {1, 1}, apart[2] = {1, 2}, crossed[2] = {2, 1}, row[3] = {1, 2, 4};
    uint8_t other[60];
    memcpy(other, HELD, 60);
    EXPECT(prices(certify(HELD, 60, ones, 2, 5), 0, 1));
    other[39] = 10, other[50] = 1, other[59] = 1; /* example F */
    EXPECT(prices(certify(other, 60, apart, 2, 10), 1, 0));
    EXPECT(prices(certify(other, 60, crossed, 2, 10), 1, 0));
    EXPECT(prices(certify(ZONES, 89, row, 1, 1), 0, 0));

    EXPECT(certify(HELD, 60, ones, 2, 4) == DEZGHURI_LARGER && all(answer, 0, CERTIFY, 0));
    other[59] = 2; /* the former rows are 1 and 2, and can stay */
    EXPECT(prices(certify(other, 60, apart, 2, 10), 0, 0));
    EXPECT(certify(other, 60, crossed, 2, 10) == DEZGHURI_FEWER && all(answer, 0, CERTIFY, 0));
    EXPECT(certify(other, 60, crossed, 2, 9) == DEZGHURI_LARGER); /* the size comes first */
}

static void refused_certificates(void) {
    static const uint32_t ones[2] = {1, 1}, gone[2] = {1, 3}, former[3] = {1, 2, 3}, row[3] = {1, 2, 4};
    EXPECT(certify(HELD, 60, ones, 2, 6) == DEZGHURI_CAPACITY && answer[DEZGHURI_PLACE] == 1);
    EXPECT(certify(HELD, 60, gone, 2, 5) == DEZGHURI_ROW && answer[DEZGHURI_PLACE] == 1);
    EXPECT(certify(HELD, 60, ones, 2, 0) == DEZGHURI_RANGE && all(answer, 0, CERTIFY, 0));
    EXPECT(certify(HELD, 59, ones, 2, 5) == DEZGHURI_CUT && answer[DEZGHURI_BYTE_LOW] == 51);
    EXPECT(certify(ZONES, 89, former, 1, 1) == DEZGHURI_ZONES && all(answer, 0, CERTIFY, 0)); /* partition 0 */
    EXPECT(certify(ZONES, 89, row, 1, 2) == DEZGHURI_CAPACITY && answer[DEZGHURI_PLACE] == 4);

    EXPECT(dezghuri_certify(ZONES, 89, cells, CELLS - 1, 1, answer, CERTIFY) == DEZGHURI_SHORT);
    EXPECT(all(answer, 0, CERTIFY, 0));
    fill(answer, ANSWER + 1);
    EXPECT(dezghuri_certify(ZONES, 89, cells, CELLS, 1, answer, CERTIFY - 1) == DEZGHURI_SHORT);
    EXPECT(all(answer, 0, ANSWER + 1, PATTERN));
}

/* Whether nothing is refused, and so many partitions are lost with the nodes 1, 2 and on up to `nodes`. */
static int costs(uint32_t refusal, uint32_t lost, uint32_t nodes) {
    const uint32_t *ids = answer + DEZGHURI_WORST_LOSS_NODES;
    int is_so = refusal == DEZGHURI_OK && all(answer, 0, DEZGHURI_WORST_LOSS_LOST, 0);
    for (uint32_t i = 0; i < nodes; i++) is_so = is_so && ids[i] == i + 1;
    return is_so && answer[DEZGHURI_WORST_LOSS_LOST] == lost && all(ids, nodes, DEZGHURI_MOST_LOST, 0);
}

/* Of A both partitions lie at nodes 1, 2 and 3: nothing is lost before all three are. Of E both lie at node 1. Of K
 * the only one lies at nodes 1, 2 and 4, which cost it; of four nodes there is one set. */
static void losing(void) {
    static const uint32_t threes[6] = {1, 2, 3, 1, 2, 3}, ones[2] = {1, 1}, row[3] = {1, 2, 4};
    static const uint32_t found[WORST] = {0, 0, 0, 1, 1, 2, 4, 0};
    lay(CLUSTER, threes, 2);
    for (uint32_t n = 0; n < 3; n++) EXPECT(costs(worst(CLUSTER, 57, CELLS, n), 0, n));
    EXPECT(costs(worst(CLUSTER, 57, CELLS, 3), 2, 3));
    EXPECT(costs(worst(CLUSTER, 57, CELLS + 1, 3), 2, 3)); /* the last cell is not looked at */
    lay(HELD, ones, 2);
    EXPECT(costs(worst(HELD, 60, CELLS, 0), 0, 0) && costs(worst(HELD, 60, CELLS, 1), 2, 1));
    EXPECT(costs(worst(HELD, 60, CELLS, 2), 2, 2));
    lay(ZONES, row, 1);
    EXPECT(costs(worst(ZONES, 89, CELLS, 2), 0, 2));
    EXPECT(worst(ZONES, 89, CELLS, 3) == DEZGHURI_OK && holds(answer, found, WORST));
    EXPECT(costs(worst(ZONES, 89, CELLS, 4), 1, 4));
}

/* Whether so many partitions of A are lost with these nodes. */
static int lost(uint32_t expected, const uint32_t *ids, size_t many) {
    const uint32_t refusal = loss(CLUSTER, 57, CELLS, ids, many);
    return refusal == DEZGHURI_OK && all(answer, 0, DEZGHURI_LOSS_LOST, 0) && answer[DEZGHURI_LOSS_LOST] == expected;
}

/* Ids in any order, repeated, and of no node: 0, 9 and the highest there is. */
static void losing_given_nodes(void) {
    static const uint32_t threes[6] = {1, 2, 3, 1, 2, 3};
    static const uint32_t ids[9] = {9, 3, 1, 0, 3, 0xFFFFFFFF, 1, 2, 2};
    static uint32_t many[1000];
    lay(CLUSTER, threes, 2);
    EXPECT(lost(0, ids, 0) && lost(0, ids, 1) && lost(0, ids, 7) && lost(2, ids, 8) && lost(2, ids, 9));
    for (size_t i = 0; i < 1000; i++) many[i] = (uint32_t)(i % 3 == 0 ? 3 : 1);
    EXPECT(lost(0, many, 1000));
    many[999] = 2;
    EXPECT(lost(0, many, 999) && lost(2, many, 1000));
}

/* Each call has what is refused later, too: the row of partition 1 lacks node 3 or the second zone, and node 2 may
 * hold one copy. */
static void refused_losses(void) {
    static const uint32_t threes[6] = {1, 2, 3, 1, 2, 3}, gone[6] = {1, 2, 3, 1, 2, 9}, ids[3] = {1, 2, 3};
    uint8_t other[57];
    memcpy(other, CLUSTER, 57);
    other[40] = 0, other[41] = 1;
    lay(CLUSTER, gone, 2);
    EXPECT(worst(other, 0, 0, 5) == DEZGHURI_MISSING && all(answer, 0, WORST, 0));
    EXPECT(worst(other, 56, 0, 5) == DEZGHURI_CUT && answer[DEZGHURI_BYTE_LOW] == 42 && answer[DEZGHURI_PLACE] == 0);
    EXPECT(loss(other, 56, 0, ids, 3) == DEZGHURI_CUT && answer[DEZGHURI_BYTE_LOW] == 42);
    EXPECT(worst(other, 57, CELLS - 1, 5) == DEZGHURI_SHORT && all(answer, 0, WORST, 0));
    EXPECT(loss(other, 57, CELLS - 1, ids, 3) == DEZGHURI_SHORT && all(answer, 0, LOSS, 0));
    EXPECT(worst(other, 57, CELLS, 4) == DEZGHURI_RANGE && all(answer, 0, WORST, 0)); /* there are three */
    EXPECT(worst(other, 57, CELLS, 5) == DEZGHURI_RANGE && all(answer, 0, WORST, 0));
    EXPECT(worst(other, 57, CELLS, 0xFFFFFFFF) == DEZGHURI_RANGE && all(answer, 0, WORST, 0));
    EXPECT(worst(other, 57, CELLS, 3) == DEZGHURI_ROW && answer[DEZGHURI_PLACE] == 1);
    EXPECT(loss(other, 57, CELLS, ids, 3) == DEZGHURI_ROW && answer[DEZGHURI_PLACE] == 1);
    lay(CLUSTER, threes, 2);
    EXPECT(worst(other, 57, CELLS, 3) == DEZGHURI_CAPACITY && answer[DEZGHURI_PLACE] == 2);
    EXPECT(loss(other, 57, CELLS, ids, 0) == DEZGHURI_CAPACITY && answer[DEZGHURI_PLACE] == 2);
    other[48] = 2; /* node 3 has the id of node 2 */
    EXPECT(worst(other, 57, CELLS, 2) == DEZGHURI_ORDER && answer[DEZGHURI_BYTE_LOW] == 42);

    lay(ZONES, ids, 1);
    EXPECT(worst(ZONES, 89, CELLS, 1) == DEZGHURI_ZONES && all(answer, 0, WORST, 0)); /* partition 0 */
    EXPECT(loss(ZONES, 89, CELLS, ids, 3) == DEZGHURI_ZONES && all(answer, 0, LOSS, 0));
    fill(answer, ANSWER + 1);
    EXPECT(dezghuri_worst_loss(ZONES, 89, cells, CELLS, 1, answer, WORST - 1) == DEZGHURI_SHORT);
    EXPECT(dezghuri_worst_loss(ZONES, 89, cells, CELLS, 1, answer, 0) == DEZGHURI_SHORT);
    EXPECT(dezghuri_loss(ZONES, 89, cells, CELLS, ids, 3, answer, LOSS - 1) == DEZGHURI_SHORT);
    EXPECT(dezghuri_loss(ZONES, 89, cells, CELLS, ids, 3, answer, 0) == DEZGHURI_SHORT);
    EXPECT(all(answer, 0, ANSWER + 1, PATTERN));
}

/* With the word `texts` it prints the refusals in words, a line for each number from 0 on, and calls nothing. */
int main(int given, char **words) {
    if (given == 2 && strcmp(words[1], "texts") == 0) {
        for (uint32_t n = DEZGHURI_OK; n <= DEZGHURI_SEQUENCE; n++) puts(dezghuri_refusal_text(n));
        puts(dezghuri_refusal_text(UINT32_MAX));
        return 0;
    }
    reading_a_cluster();
    planning();
    reading_a_layout();
    a_layout_in_hand();
    writing();
    most_copies_sent();
    ceilings();
    changing_and_undoing();
    refused_changes();
    moving();
    refused_moves();
    certifying();
    refused_certificates();
    losing();
    losing_given_nodes();
    refused_losses();
    return faults != 0;
}
