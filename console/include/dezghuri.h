/* The planner's C functions: layouts of a cluster of storage boxes ("nodes"), proved.
 * Link libdezghuri.a, which `make install` installs (`pkg-config --libs dezghuri`), or libconsole.a, the same
 * library, which `make library` puts into build/. C++ programs may include this header too.
 *
 * Every function answers a refusal number, DEZGHURI_OK where it refuses nothing. Its other numbers go into
 * the lent slice `answer`.
 *
 *   - A slice is a pointer and a number of elements. Each function says how many elements it takes. A slice
 *     with fewer is refused with DEZGHURI_SHORT; of one with more, those beyond are never touched.
 *   - `answer` (and `row` of dezghuri_show_row, and `reverse` of dezghuri_change) is judged first: if it is
 *     too short, nothing at all is touched. In every other outcome all cells of `answer` are written, and a
 *     number for which nothing is said here is 0. Each cell has a name: answer[DEZGHURI_PLAN_SIZE].
 *   - Whatever bytes, cells, numbers and lengths come in, a call ends and does nothing undefined, provided
 *     that each pointer is sound: not null (not even with length 0), aligned for its type, with as many
 *     elements behind it as its length says, writable where it is not const; and that no two slices of one
 *     call overlap.
 *   - The functions keep no state, allocate nothing and take less than 64 KiB of stack; several threads may
 *     call them at once.
 *
 * A sixteenth of each disk stays free: a node's usable capacity is its capacity less a sixteenth of it,
 * rounded down (capacity - capacity / 16). Records and answers hold the capacity itself. A node's ceiling,
 * 0 to 256, is the most copies that it may hold, whatever its disk takes.
 *
 * FORMATS.md, which is installed into share/doc/dezghuri, lays down the records and the meaning of each refusal;
 * dezghuri_refusal_text says it in short.
 */
#ifndef DEZGHURI_H
#define DEZGHURI_H

#include <stddef.h>
#include <stdint.h>

#ifdef __cplusplus
extern "C" {
#endif

/* The version of this header and its library; the number grows from each version to the next. */
#define DEZGHURI_VERSION_MAJOR 0
#define DEZGHURI_VERSION_MINOR 9
#define DEZGHURI_VERSION_PATCH 0
#define DEZGHURI_VERSION "0.9.0"
#define DEZGHURI_VERSION_NUMBER \
    (DEZGHURI_VERSION_MAJOR * 1000000 + DEZGHURI_VERSION_MINOR * 1000 + DEZGHURI_VERSION_PATCH)

/* Limits of a cluster. */
#define DEZGHURI_MOST_BITS 8          /* partition bits; there are 1 << bits partitions */
#define DEZGHURI_MOST_PARTITIONS 256
#define DEZGHURI_MOST_REPLICATION 8
#define DEZGHURI_MOST_NODES 32
#define DEZGHURI_MOST_LOST 4          /* nodes of which the worst loss can be asked */
#define DEZGHURI_MOST_CEILING 256     /* the ceiling of a node that may hold a copy of every partition */
#define DEZGHURI_ENOUGH_ALLOWANCE 2048 /* this many improvements always finish */

/* Least lengths of lent slices, in elements. */
#define DEZGHURI_ROW_CELLS 8            /* one row: rising node ids, then zeros */
#define DEZGHURI_LAYOUT_CELLS 2048      /* a former layout or an assignment: 256 rows */
#define DEZGHURI_WIDE_ROW_CELLS 16      /* one row of what is held: rising node ids, then zeros */
#define DEZGHURI_WIDE_CELLS 4096        /* what is held: 256 rows of sixteen cells */
#define DEZGHURI_NODE_CELLS 4           /* a node in an answer: id, zone, capacity, ceiling */
#define DEZGHURI_STEP_CELLS 4           /* a step: kind, partition, node, source */
#define DEZGHURI_MOVES_CELLS 24576      /* always enough: 24 steps for each of 256 partitions */
#define DEZGHURI_SCRATCH_CELLS 16384
#define DEZGHURI_FIGURES_CELLS 64
#define DEZGHURI_READ_CLUSTER_ANSWER 134
#define DEZGHURI_READ_LAYOUT_ANSWER 8
#define DEZGHURI_PLAN_ANSWER 6
#define DEZGHURI_CHECK_ANSWER 3
#define DEZGHURI_CERTIFY_ANSWER 35
#define DEZGHURI_WORST_LOSS_ANSWER 8
#define DEZGHURI_LOSS_ANSWER 4
#define DEZGHURI_FIGURES_ANSWER 5
#define DEZGHURI_WRITE_LAYOUT_ANSWER 2
#define DEZGHURI_CHANGE_ANSWER 137
#define DEZGHURI_MOVES_ANSWER 4
#define DEZGHURI_REVERSE_BYTES 15       /* the longest field of a change */

/* Longest records, in bytes. */
#define DEZGHURI_CLUSTER_RECORD_BYTES 9964
#define DEZGHURI_LAYOUT_RECORD_BYTES 9501

/* Verdicts. */
#define DEZGHURI_STOPPED 0  /* the allowance was used up, and a nearer layout exists */
#define DEZGHURI_FINISHED 1 /* no valid layout of the size lies nearer, and none as near comes before this one */

/* Kinds of steps. */
#define DEZGHURI_SEND 0 /* the node gets a copy of the partition */
#define DEZGHURI_DROP 1 /* the node drops its copy */

/* Refusals; dezghuri_refusal_text says what each means. No call of this version answers 15 to 18 or 21: they
 * belong to calls to come. */
#define DEZGHURI_OK 0
#define DEZGHURI_CUT 1
#define DEZGHURI_TAG 2
#define DEZGHURI_LENGTH 3
#define DEZGHURI_RANGE 4
#define DEZGHURI_ORDER 5
#define DEZGHURI_NODES 6
#define DEZGHURI_MISSING 7
#define DEZGHURI_SHORT 8
#define DEZGHURI_NO_LAYOUT 9
#define DEZGHURI_ROW 10
#define DEZGHURI_ZONES 11
#define DEZGHURI_CAPACITY 12
#define DEZGHURI_PRESENT 13
#define DEZGHURI_ABSENT 14
#define DEZGHURI_TOTALS 15
#define DEZGHURI_THREE 16
#define DEZGHURI_CEILING 17
#define DEZGHURI_START 18
#define DEZGHURI_LARGER 19
#define DEZGHURI_FEWER 20
#define DEZGHURI_SEQUENCE 21

/* A refusal in words, for messages: never null, whatever the number. */
static inline const char *dezghuri_refusal_text(uint32_t refusal) {
    switch (refusal) {
    case DEZGHURI_OK: return "nothing is refused";
    case DEZGHURI_CUT: return "one or two bytes left, or a field's body cut short";
    case DEZGHURI_TAG: return "a tag that is not allowed next";
    case DEZGHURI_LENGTH: return "a length that is not legal for the tag";
    case DEZGHURI_RANGE: return "a value outside its range";
    case DEZGHURI_ORDER: return "ids or partitions that do not rise, or a row that is not the next";
    case DEZGHURI_NODES: return "more than 32 nodes";
    case DEZGHURI_MISSING: return "the record ends before a field or row that it must have";
    case DEZGHURI_SHORT: return "a lent buffer is too short";
    case DEZGHURI_NO_LAYOUT: return "no layout is valid at size 1";
    case DEZGHURI_ROW: return "a row that is not as many rising ids of the cluster as copies are wanted";
    case DEZGHURI_ZONES: return "a row in fewer zones than wanted";
    case DEZGHURI_CAPACITY:
        return "a node with more copies than its usable capacity takes at the size, or than its ceiling";
    case DEZGHURI_PRESENT: return "an id to be added that is there already";
    case DEZGHURI_ABSENT: return "an id to be removed or resized that is not there";
    case DEZGHURI_TOTALS: return "totals of a layout record that differ from its rows, or are missing";
    case DEZGHURI_THREE: return "replication and redundancy that are not both 3";
    case DEZGHURI_CEILING: return "a node with a ceiling where none may have one";
    case DEZGHURI_START: return "a layout to go on from that check refuses at the largest size";
    case DEZGHURI_LARGER: return "a layout is valid at a larger size";
    case DEZGHURI_FEWER: return "a layout of the size sends fewer copies";
    case DEZGHURI_SEQUENCE: return "an order in which some partition does not stand just once";
    default: return "a number that is not the number of a refusal";
    }
}

/* Cells that several answers have in the same place. */
#define DEZGHURI_BYTE_HIGH 0 /* the byte of a refused reading, its high 32 bits: all answers but that of writing */
#define DEZGHURI_BYTE_LOW 1 /* and its low ones */
#define DEZGHURI_PLACE 2 /* of all that check an assignment: the partition with 10 and 11, the node id with 12 */

/* Cells of a node in an answer, from its first one on; and of a step in a list of moves. */
#define DEZGHURI_NODE_ID 0
#define DEZGHURI_NODE_ZONE 1
#define DEZGHURI_NODE_CAPACITY 2
#define DEZGHURI_NODE_CEILING 3
#define DEZGHURI_STEP_KIND 0
#define DEZGHURI_STEP_PARTITION 1
#define DEZGHURI_STEP_NODE 2
#define DEZGHURI_STEP_SOURCE 3

/* Reads a cluster record.
 *
 * former, 2,048 cells: takes the former layout, eight cells to a partition; kept when refused.
 * answer, 134 cells: 0, 1 the byte at which the faulty field begins (high, low 32 bits); 2 bits;
 * 3 replication; 4 redundancy; 5 number of nodes; then for node b its id, zone, capacity and ceiling at
 * 6 + 4 b, zeros for nodes not in use. Refused, it holds the cluster with no nodes: bits 0, replication 1,
 * redundancy 1.
 * Refusals: 8 (byte 0), then the first fault of 1 to 7 with its byte. */
uint32_t dezghuri_read_cluster(const uint8_t *record, size_t record_len,
                               uint32_t *former, size_t former_len,
                               uint32_t *answer, size_t answer_len);
#define DEZGHURI_READ_CLUSTER_BITS 2
#define DEZGHURI_READ_CLUSTER_REPLICATION 3
#define DEZGHURI_READ_CLUSTER_REDUNDANCY 4
#define DEZGHURI_READ_CLUSTER_NODES 5 /* how many */
#define DEZGHURI_READ_CLUSTER_FIRST_NODE 6 /* the next DEZGHURI_NODE_CELLS further on */

/* Reads a layout record.
 *
 * assignment, 2,048 cells: takes the rows; kept when refused.
 * answer, 8 cells: 0, 1 the byte at which the faulty field begins (high, low); 2 bits; 3 replication;
 * 4 size; 5 sent, as dezghuri_plan; 6 verdict; 7 improvements.
 * Refusals: 8 (byte 0), then the first fault of 1 to 5 and 7 with its byte. */
uint32_t dezghuri_read_layout(const uint8_t *record, size_t record_len,
                              uint32_t *assignment, size_t assignment_len,
                              uint32_t *answer, size_t answer_len);
#define DEZGHURI_READ_LAYOUT_BITS 2
#define DEZGHURI_READ_LAYOUT_REPLICATION 3
#define DEZGHURI_READ_LAYOUT_SIZE 4
#define DEZGHURI_READ_LAYOUT_SENT 5
#define DEZGHURI_READ_LAYOUT_VERDICT 6
#define DEZGHURI_READ_LAYOUT_IMPROVEMENTS 7

/* Plans the cluster of the record, whose former rows are in it, with at most `allowance` improvements.
 *
 * assignment, 2,048 cells: takes the layout; kept when refused. A finished plan is the first of the layouts
 * that send the fewest copies at the size: rows compared from partition 0, ids from the left, smaller id
 * first. Which valid layout a stopped plan is, is not laid down.
 * scratch, 16,384 cells: zeroed on success and with 9; kept with any other refusal.
 * answer, 6 cells: 0, 1 the byte of a refused reading (high, low); 2 size, the most megabytes of a partition
 * for which a layout fits the usable capacities and the ceilings; 3 sent, the copies to be sent: pairs of
 * node and partition in the layout and not in the former one; 4 verdict; 5 improvements.
 * Refusals: 1 to 7 of the reading; then 8, assignment or scratch too short; then 9. */
uint32_t dezghuri_plan(const uint8_t *record, size_t record_len,
                       uint16_t allowance,
                       uint32_t *assignment, size_t assignment_len,
                       uint32_t *scratch, size_t scratch_len,
                       uint32_t *answer, size_t answer_len);
#define DEZGHURI_PLAN_SIZE 2
#define DEZGHURI_PLAN_SENT 3
#define DEZGHURI_PLAN_VERDICT 4
#define DEZGHURI_PLAN_IMPROVEMENTS 5

/* Checks that the assignment is a layout of the record's cluster, valid at the size: so that the copies of a
 * node, each of that size, fit its usable capacity, and are no more than its ceiling.
 *
 * assignment, 2,048 cells.
 * answer, 3 cells: 0, 1 the byte of a refused reading (high, low); 2 the partition with 10 and 11, the node
 * id with 12.
 * Refusals: 1 to 7 of the reading; then 8; 4, size 0; rows in order 10 or 11; nodes in order 12. */
uint32_t dezghuri_check(const uint8_t *record, size_t record_len,
                        const uint32_t *assignment, size_t assignment_len,
                        uint32_t size,
                        uint32_t *answer, size_t answer_len);

/* Counts the copies of a checked layout.
 *
 * assignment, 2,048 cells.
 * figures, 64 cells: 0 to 31 copies held by each node in id order, 32 to 63 copies in that node's zone;
 * kept when refused.
 * answer, 5 cells: 0, 1 the byte of a refused reading (high, low); 2 the place, as dezghuri_check; 3, 4 the
 * size to hope for, the sum of the usable capacities over replication times partitions, rounded down (high,
 * low), whatever the ceilings.
 * Refusals: as dezghuri_check, with 8 also for short figures. */
uint32_t dezghuri_figures(const uint8_t *record, size_t record_len,
                          const uint32_t *assignment, size_t assignment_len,
                          uint32_t size,
                          uint32_t *figures, size_t figures_len,
                          uint32_t *answer, size_t answer_len);
#define DEZGHURI_FIGURES_HOPE_HIGH 3
#define DEZGHURI_FIGURES_HOPE_LOW 4
/* of figures: those of the first node */
#define DEZGHURI_FIGURES_COPIES 0
#define DEZGHURI_FIGURES_ZONE_COPIES 32

/* Certifies that the assignment has the largest size that the record's cluster has a layout of, and that none of
 * that size sends fewer copies, from the former layout that the record carries: a price for each node, by which
 * anybody can check it with sums alone. The prices are the least that do.
 *
 * assignment, 2,048 cells.
 * answer, 35 cells: 0, 1 the byte of a refused reading (high, low); 2 the place, as dezghuri_check; 3 to 34 the
 * prices of the nodes in id order, 0 for slots not in use; all 0 when refused.
 * Refusals: as dezghuri_check; then 19, a layout is valid at a larger size; 20, one valid at the size sends
 * fewer. */
uint32_t dezghuri_certify(const uint8_t *record, size_t record_len,
                          const uint32_t *assignment, size_t assignment_len,
                          uint32_t size,
                          uint32_t *answer, size_t answer_len);
#define DEZGHURI_CERTIFY_PRICES 3 /* that of the first node */

/* Answers the most partitions that the loss of so many nodes can cost, and the first nodes that cost so many. A
 * partition is lost when all its copies are. Of all sets of exactly so many nodes none costs more, and of those
 * that cost as many it is the one with the smallest ids, compared from the left.
 *
 * assignment, 2,048 cells.
 * number, 0 to 4 nodes, no more than the cluster has.
 * answer, 8 cells: 0, 1 the byte of a refused reading (high, low); 2 the place, as dezghuri_check; 3 how many
 * partitions are lost; 4 to 7 the ids of the nodes, rising, then zeros; 3 to 7 are 0 when refused.
 * Refusals: those of dezghuri_check at size 1, in their order: 1 to 7 of the reading; then 8; 4, number above 4 or
 * above the number of nodes; rows in order 10 or 11; nodes in order 12. */
uint32_t dezghuri_worst_loss(const uint8_t *record, size_t record_len,
                             const uint32_t *assignment, size_t assignment_len,
                             uint32_t number,
                             uint32_t *answer, size_t answer_len);
#define DEZGHURI_WORST_LOSS_LOST 3
#define DEZGHURI_WORST_LOSS_NODES 4 /* the first id */

/* Counts the partitions that are lost with given nodes: those whose every copy is in one of them.
 *
 * assignment, 2,048 cells.
 * nodes: ids, as many as are given, in any order; one that no node has costs nothing.
 * answer, 4 cells: 0, 1 the byte of a refused reading (high, low); 2 the place, as dezghuri_check; 3 how many
 * partitions are lost, 0 when refused.
 * Refusals: those of dezghuri_check at size 1. */
uint32_t dezghuri_loss(const uint8_t *record, size_t record_len,
                       const uint32_t *assignment, size_t assignment_len,
                       const uint32_t *nodes, size_t nodes_len,
                       uint32_t *answer, size_t answer_len);
#define DEZGHURI_LOSS_LOST 3

/* Copies the row of a partition, 0 to 255, out of an assignment.
 *
 * assignment, 2,048 cells.
 * row, 8 cells: takes the row; kept when refused.
 * Refusals: 8, row or assignment too short; 4, partition above 255. */
uint32_t dezghuri_show_row(const uint32_t *assignment, size_t assignment_len,
                           uint32_t partition,
                           uint32_t *row, size_t row_len);

/* Writes a layout record of 29 + (1 << bits) * (5 + 4 * replication) bytes.
 *
 * sent: as dezghuri_plan, at most 2,048.
 * assignment, 2,048 cells.
 * out: as many bytes as the record; kept when refused.
 * answer, 2 cells: the record's length (high, low 32 bits).
 * Refusals: 8, assignment too short; 4, a number outside its range; 10, a row that is not `replication`
 * rising ids and zeros, or a row from 1 << bits on that is not zero; 8, out too short. */
uint32_t dezghuri_write_layout(uint32_t bits, uint32_t replication, uint32_t size,
                               uint32_t sent, uint32_t verdict, uint32_t improvements,
                               const uint32_t *assignment, size_t assignment_len,
                               uint8_t *out, size_t out_len,
                               uint32_t *answer, size_t answer_len);
#define DEZGHURI_WRITE_LAYOUT_LENGTH_HIGH 0
#define DEZGHURI_WRITE_LAYOUT_LENGTH_LOW 1

/* Makes one change on the cluster of the record: the one whose field begins at byte `at` of the change
 * record. The record's former rows play no part.
 *
 * changes: the change record, one or more fields; the byte answered is where the next one begins.
 * reverse, 15 bytes: takes the field of the change that reverses this one, zeros past its length; kept when
 * refused. Made in backward order, the reverses bring back the cluster.
 * answer, 137 cells: 0, 1 the byte of a refused reading (high, low); 2, 3 the byte after the change (high,
 * low); 4 the length of the reverse; 5 bits; 6 replication; 7 redundancy; 8 number of nodes; then for node b
 * its id, zone, capacity and ceiling at 9 + 4 b, zeros for nodes not in use. Refused, the byte in 2, 3 is
 * `at`, the length is 0, and the cluster is as it was read; with a refused reading it is the one with no
 * nodes, as dezghuri_read_cluster.
 * Refusals: 1 to 7 of the reading; then 7, `at` at or past the end of changes; 1, 2 or 3 of the field; 4, id
 * 0 or a ceiling above 256; 13, an id to be added that is there; 14, an id to be removed or resized that is
 * not; 6, a 33rd node. */
uint32_t dezghuri_change(const uint8_t *record, size_t record_len,
                         const uint8_t *changes, size_t changes_len,
                         size_t at,
                         uint8_t *reverse, size_t reverse_len,
                         uint32_t *answer, size_t answer_len);
#define DEZGHURI_CHANGE_NEXT_HIGH 2
#define DEZGHURI_CHANGE_NEXT_LOW 3
#define DEZGHURI_CHANGE_REVERSE_LENGTH 4
#define DEZGHURI_CHANGE_BITS 5
#define DEZGHURI_CHANGE_REPLICATION 6
#define DEZGHURI_CHANGE_REDUNDANCY 7
#define DEZGHURI_CHANGE_NODES 8 /* how many */
#define DEZGHURI_CHANGE_FIRST_NODE 9 /* the next DEZGHURI_NODE_CELLS further on */

/* Counts the steps from what is held to a new layout, without listing them.
 *
 * The cluster is that of the record; its former rows are read and play no part.
 * former, 4,096 cells: what is held, sixteen cells to a partition, of which the first 1 << bits rows are
 * looked at. It may name nodes that are gone.
 * assignment, 2,048 cells: the new layout.
 * answer, 4 cells: 0, 1 the byte of a refused reading (high, low); 2 the partition with 10 and 11, the node id
 * with 12; 3 the number of steps, at most 6,144.
 * Refusals: 1 to 7 of the reading; then 8, assignment or former too short; those of dezghuri_check at size 1:
 * rows in order 10 or 11, nodes in order 12; then 5, a former row that is not rising ids and zeros. */
uint32_t dezghuri_count_moves(const uint8_t *record, size_t record_len,
                              const uint32_t *former, size_t former_len,
                              const uint32_t *assignment, size_t assignment_len,
                              uint32_t *answer, size_t answer_len);

/* Lists the steps from what is held to a new layout.
 *
 * former, assignment, answer: as dezghuri_count_moves; a refused list answers 0 steps.
 * moves: takes the steps, four cells each: kind, partition, node, source; kept when refused, and past the
 * steps. The partitions come one after another from 0 on: of each first the sends, to the nodes of the new row
 * that do not hold it, by rising id; then the drops, at the nodes of the cluster that hold it and are not in
 * the new row, by rising id. The source is 0 for a drop; for a send the lowest id in the former row that is in
 * the cluster, or 0 where there is none: the copy has to come from elsewhere.
 * Power may go after any number of steps. Each partition then has all its former copies on nodes of the cluster,
 * or all its new ones; and where none has more than sixteen ids of both together, a list made afresh from what
 * the nodes of the cluster then hold has the steps that were left, their sources excepted, and ends in the new
 * layout. No partition has more where the former rows have at most eight ids.
 * Refusals: as dezghuri_count_moves; then 8, moves shorter than four cells for each step. */
uint32_t dezghuri_moves(const uint8_t *record, size_t record_len,
                        const uint32_t *former, size_t former_len,
                        const uint32_t *assignment, size_t assignment_len,
                        uint32_t *moves, size_t moves_len,
                        uint32_t *answer, size_t answer_len);
#define DEZGHURI_MOVES_STEPS 3 /* of dezghuri_count_moves too */

#ifdef __cplusplus
}
#endif

#endif
