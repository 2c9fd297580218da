//! The C functions of `include/dezghuri.h` one for one, as safe functions over slices.
//!
//! Each answers its refusal number, 0 for none, and is defined for all bytes, cells, numbers and
//! lengths; the header says what each lent slice then holds. All `unsafe` of this library is here.

/// Cells of one row.
pub const ROW_CELLS: usize = 8;
/// Least length of a former layout or an assignment: 256 rows.
pub const LAYOUT_CELLS: usize = 2048;
/// Cells of one row of what is held.
pub const WIDE_ROW_CELLS: usize = 16;
/// Least length of what is held: 256 rows of sixteen cells.
pub const WIDE_CELLS: usize = 4096;
/// Cells of one step: kind, partition, node and source.
pub const STEP_CELLS: usize = 4;
/// A length that is enough for every list of [`moves`]: 24 steps for each of 256 partitions.
pub const MOVES_CELLS: usize = 24576;
/// The kind of a step that sends a copy to the node.
pub const SEND: u32 = 0;
/// The kind of a step that drops the copy at the node.
pub const DROP: u32 = 1;
/// Least length of planning's scratch.
pub const SCRATCH_CELLS: usize = 16384;
/// Least length of the figures.
pub const FIGURES_CELLS: usize = 64;
/// Least length of [`read_cluster`]'s answer.
pub const READ_CLUSTER_ANSWER: usize = 134;
/// Least length of [`read_layout`]'s answer.
pub const READ_LAYOUT_ANSWER: usize = 8;
/// Least length of [`plan`]'s answer.
pub const PLAN_ANSWER: usize = 6;
/// Least length of [`check`]'s answer.
pub const CHECK_ANSWER: usize = 3;
/// Least length of [`certify`]'s answer.
pub const CERTIFY_ANSWER: usize = 35;
/// Least length of [`worst_loss`]'s answer.
pub const WORST_LOSS_ANSWER: usize = 8;
/// Least length of [`loss`]'s answer.
pub const LOSS_ANSWER: usize = 4;
/// Least length of [`figures`]'s answer.
pub const FIGURES_ANSWER: usize = 5;
/// Least length of [`write_layout`]'s answer.
pub const WRITE_LAYOUT_ANSWER: usize = 2;
/// Least length of [`change`]'s answer.
pub const CHANGE_ANSWER: usize = 137;
/// Least length of the answer of [`moves`] and [`count_moves`].
pub const MOVES_ANSWER: usize = 4;
/// Least length of [`change`]'s reverse: that of the longest field of a change.
pub const REVERSE_BYTES: usize = 15;
/// Length of the longest cluster record.
pub const CLUSTER_RECORD_BYTES: usize = 9964;
/// Length of the longest layout record.
pub const LAYOUT_RECORD_BYTES: usize = 9501;

mod c {
    extern "C" {
        pub fn dezghuri_read_cluster(
            record: *const u8,
            record_len: usize,
            former: *mut u32,
            former_len: usize,
            answer: *mut u32,
            answer_len: usize,
        ) -> u32;

        pub fn dezghuri_read_layout(
            record: *const u8,
            record_len: usize,
            assignment: *mut u32,
            assignment_len: usize,
            answer: *mut u32,
            answer_len: usize,
        ) -> u32;

        pub fn dezghuri_plan(
            record: *const u8,
            record_len: usize,
            allowance: u16,
            assignment: *mut u32,
            assignment_len: usize,
            scratch: *mut u32,
            scratch_len: usize,
            answer: *mut u32,
            answer_len: usize,
        ) -> u32;

        pub fn dezghuri_check(
            record: *const u8,
            record_len: usize,
            assignment: *const u32,
            assignment_len: usize,
            size: u32,
            answer: *mut u32,
            answer_len: usize,
        ) -> u32;

        pub fn dezghuri_certify(
            record: *const u8,
            record_len: usize,
            assignment: *const u32,
            assignment_len: usize,
            size: u32,
            answer: *mut u32,
            answer_len: usize,
        ) -> u32;

        pub fn dezghuri_worst_loss(
            record: *const u8,
            record_len: usize,
            assignment: *const u32,
            assignment_len: usize,
            number: u32,
            answer: *mut u32,
            answer_len: usize,
        ) -> u32;

        pub fn dezghuri_loss(
            record: *const u8,
            record_len: usize,
            assignment: *const u32,
            assignment_len: usize,
            nodes: *const u32,
            nodes_len: usize,
            answer: *mut u32,
            answer_len: usize,
        ) -> u32;

        pub fn dezghuri_figures(
            record: *const u8,
            record_len: usize,
            assignment: *const u32,
            assignment_len: usize,
            size: u32,
            figures: *mut u32,
            figures_len: usize,
            answer: *mut u32,
            answer_len: usize,
        ) -> u32;

        pub fn dezghuri_show_row(
            assignment: *const u32,
            assignment_len: usize,
            partition: u32,
            row: *mut u32,
            row_len: usize,
        ) -> u32;

        pub fn dezghuri_write_layout(
            bits: u32,
            replication: u32,
            size: u32,
            sent: u32,
            verdict: u32,
            improvements: u32,
            assignment: *const u32,
            assignment_len: usize,
            out: *mut u8,
            out_len: usize,
            answer: *mut u32,
            answer_len: usize,
        ) -> u32;

        pub fn dezghuri_change(
            record: *const u8,
            record_len: usize,
            changes: *const u8,
            changes_len: usize,
            at: usize,
            reverse: *mut u8,
            reverse_len: usize,
            answer: *mut u32,
            answer_len: usize,
        ) -> u32;

        pub fn dezghuri_count_moves(
            record: *const u8,
            record_len: usize,
            former: *const u32,
            former_len: usize,
            assignment: *const u32,
            assignment_len: usize,
            answer: *mut u32,
            answer_len: usize,
        ) -> u32;

        pub fn dezghuri_moves(
            record: *const u8,
            record_len: usize,
            former: *const u32,
            former_len: usize,
            assignment: *const u32,
            assignment_len: usize,
            moves: *mut u32,
            moves_len: usize,
            answer: *mut u32,
            answer_len: usize,
        ) -> u32;
    }
}

/// Reads a cluster record: the former layout into `former`, the cluster into `answer`.
pub fn read_cluster(record: &[u8], former: &mut [u32], answer: &mut [u32]) -> u32 {
    // SAFETY: each pointer and length are those of one live slice, and no slice lent by `&mut`
    // overlaps another.
    unsafe {
        c::dezghuri_read_cluster(
            record.as_ptr(),
            record.len(),
            former.as_mut_ptr(),
            former.len(),
            answer.as_mut_ptr(),
            answer.len(),
        )
    }
}

/// Reads a layout record: the rows into `assignment`, the numbers into `answer`.
pub fn read_layout(record: &[u8], assignment: &mut [u32], answer: &mut [u32]) -> u32 {
    // SAFETY: each pointer and length are those of one live slice, and no slice lent by `&mut`
    // overlaps another.
    unsafe {
        c::dezghuri_read_layout(
            record.as_ptr(),
            record.len(),
            assignment.as_mut_ptr(),
            assignment.len(),
            answer.as_mut_ptr(),
            answer.len(),
        )
    }
}

/// Plans the cluster of a record with at most so many improvements.
pub fn plan(
    record: &[u8],
    allowance: u16,
    assignment: &mut [u32],
    scratch: &mut [u32],
    answer: &mut [u32],
) -> u32 {
    // SAFETY: each pointer and length are those of one live slice, and no slice lent by `&mut`
    // overlaps another.
    unsafe {
        c::dezghuri_plan(
            record.as_ptr(),
            record.len(),
            allowance,
            assignment.as_mut_ptr(),
            assignment.len(),
            scratch.as_mut_ptr(),
            scratch.len(),
            answer.as_mut_ptr(),
            answer.len(),
        )
    }
}

/// Checks that the assignment is a layout of the record's cluster, valid at the size.
pub fn check(record: &[u8], assignment: &[u32], size: u32, answer: &mut [u32]) -> u32 {
    // SAFETY: each pointer and length are those of one live slice, and the slice lent by `&mut`
    // overlaps no other.
    unsafe {
        c::dezghuri_check(
            record.as_ptr(),
            record.len(),
            assignment.as_ptr(),
            assignment.len(),
            size,
            answer.as_mut_ptr(),
            answer.len(),
        )
    }
}

/// Checks as [`check`] does, and certifies that no layout has a larger size and none of this size sends
/// fewer copies: a price for each node.
pub fn certify(record: &[u8], assignment: &[u32], size: u32, answer: &mut [u32]) -> u32 {
    // SAFETY: each pointer and length are those of one live slice, and the slice lent by `&mut`
    // overlaps no other.
    unsafe {
        c::dezghuri_certify(
            record.as_ptr(),
            record.len(),
            assignment.as_ptr(),
            assignment.len(),
            size,
            answer.as_mut_ptr(),
            answer.len(),
        )
    }
}

/// The most partitions that the loss of so many nodes can cost, and the first nodes that cost so many; the
/// layout has to be valid at size 1.
pub fn worst_loss(record: &[u8], assignment: &[u32], number: u32, answer: &mut [u32]) -> u32 {
    // SAFETY: each pointer and length are those of one live slice, and the slice lent by `&mut`
    // overlaps no other.
    unsafe {
        c::dezghuri_worst_loss(
            record.as_ptr(),
            record.len(),
            assignment.as_ptr(),
            assignment.len(),
            number,
            answer.as_mut_ptr(),
            answer.len(),
        )
    }
}

/// How many partitions are lost with the nodes whose ids are given; the layout has to be valid at size 1.
pub fn loss(record: &[u8], assignment: &[u32], nodes: &[u32], answer: &mut [u32]) -> u32 {
    // SAFETY: each pointer and length are those of one live slice, and the slice lent by `&mut`
    // overlaps no other.
    unsafe {
        c::dezghuri_loss(
            record.as_ptr(),
            record.len(),
            assignment.as_ptr(),
            assignment.len(),
            nodes.as_ptr(),
            nodes.len(),
            answer.as_mut_ptr(),
            answer.len(),
        )
    }
}

/// Checks as [`check`] does, and counts the copies into `figures`.
pub fn figures(
    record: &[u8],
    assignment: &[u32],
    size: u32,
    figures: &mut [u32],
    answer: &mut [u32],
) -> u32 {
    // SAFETY: each pointer and length are those of one live slice, and no slice lent by `&mut`
    // overlaps another.
    unsafe {
        c::dezghuri_figures(
            record.as_ptr(),
            record.len(),
            assignment.as_ptr(),
            assignment.len(),
            size,
            figures.as_mut_ptr(),
            figures.len(),
            answer.as_mut_ptr(),
            answer.len(),
        )
    }
}

/// Copies the eight cells of a partition's row out of the assignment.
pub fn show_row(assignment: &[u32], partition: u32, row: &mut [u32]) -> u32 {
    // SAFETY: each pointer and length are those of one live slice, and the slice lent by `&mut`
    // overlaps no other.
    unsafe {
        c::dezghuri_show_row(
            assignment.as_ptr(),
            assignment.len(),
            partition,
            row.as_mut_ptr(),
            row.len(),
        )
    }
}

/// The numbers of a layout record, as [`write_layout`] takes them.
#[derive(Clone, Copy, Debug, PartialEq, Eq)]
pub struct Numbers {
    /// Partition bits.
    pub bits: u32,
    /// Copies of each partition.
    pub replication: u32,
    /// Size of a partition in megabytes.
    pub size: u32,
    /// Copies to be sent: those that the former layout has not there; at most 2,048.
    pub sent: u32,
    /// 1 for finished, 0 for stopped.
    pub verdict: u32,
    /// Improvements made.
    pub improvements: u32,
}

/// Writes a layout record into `out` and its length into `answer`.
pub fn write_layout(n: Numbers, assignment: &[u32], out: &mut [u8], answer: &mut [u32]) -> u32 {
    // SAFETY: each pointer and length are those of one live slice, and no slice lent by `&mut`
    // overlaps another.
    unsafe {
        c::dezghuri_write_layout(
            n.bits,
            n.replication,
            n.size,
            n.sent,
            n.verdict,
            n.improvements,
            assignment.as_ptr(),
            assignment.len(),
            out.as_mut_ptr(),
            out.len(),
            answer.as_mut_ptr(),
            answer.len(),
        )
    }
}

/// Makes the change at a byte of `changes` on the cluster of a record: the field that reverses it into
/// `reverse`, the cluster and the next byte into `answer`.
pub fn change(
    record: &[u8],
    changes: &[u8],
    at: usize,
    reverse: &mut [u8],
    answer: &mut [u32],
) -> u32 {
    // SAFETY: each pointer and length are those of one live slice, and no slice lent by `&mut`
    // overlaps another.
    unsafe {
        c::dezghuri_change(
            record.as_ptr(),
            record.len(),
            changes.as_ptr(),
            changes.len(),
            at,
            reverse.as_mut_ptr(),
            reverse.len(),
            answer.as_mut_ptr(),
            answer.len(),
        )
    }
}

/// Counts the steps from what is held, sixteen cells to a partition, to the layout in `assignment`.
pub fn count_moves(record: &[u8], former: &[u32], assignment: &[u32], answer: &mut [u32]) -> u32 {
    // SAFETY: each pointer and length are those of one live slice, and the slice lent by `&mut`
    // overlaps no other.
    unsafe {
        c::dezghuri_count_moves(
            record.as_ptr(),
            record.len(),
            former.as_ptr(),
            former.len(),
            assignment.as_ptr(),
            assignment.len(),
            answer.as_mut_ptr(),
            answer.len(),
        )
    }
}

/// Lists the steps from what is held to the layout in `assignment`, four cells each, in `moves`.
pub fn moves(
    record: &[u8],
    former: &[u32],
    assignment: &[u32],
    moves: &mut [u32],
    answer: &mut [u32],
) -> u32 {
    // SAFETY: each pointer and length are those of one live slice, and no slice lent by `&mut`
    // overlaps another.
    unsafe {
        c::dezghuri_moves(
            record.as_ptr(),
            record.len(),
            former.as_ptr(),
            former.len(),
            assignment.as_ptr(),
            assignment.len(),
            moves.as_mut_ptr(),
            moves.len(),
            answer.as_mut_ptr(),
            answer.len(),
        )
    }
}
