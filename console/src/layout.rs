//! Rows of node ids, as the C functions take them.

use crate::ffi;
use crate::refusal::{judge, Refused};
use std::fmt;

/// A row of node ids for each partition: which nodes hold its copies, by rising id.
///
/// There are always 256 rows, of at most eight ids each; a cluster with fewer partitions leaves the
/// later ones empty.
#[derive(Clone, PartialEq, Eq, Hash)]
pub struct Layout {
    cells: Box<[u32; ffi::LAYOUT_CELLS]>,
}

impl Layout {
    /// The ids of a partition's row.
    pub fn row(&self, partition: u8) -> &[u32] {
        let at = usize::from(partition) * ffi::ROW_CELLS;
        without_zeros(&self.cells[at..at + ffi::ROW_CELLS])
    }

    /// Sets a partition's row. Whether the ids are acceptable is judged by whoever uses the layout.
    ///
    /// # Panics
    ///
    /// Where there are more than eight ids.
    pub fn set_row(&mut self, partition: u8, ids: &[u32]) {
        assert!(ids.len() <= ffi::ROW_CELLS, "a row has at most eight ids");
        let at = usize::from(partition) * ffi::ROW_CELLS;
        let row = &mut self.cells[at..at + ffi::ROW_CELLS];
        row.fill(0);
        row[..ids.len()].copy_from_slice(ids);
    }

    /// The rows that are not empty, with their partitions.
    pub fn rows(&self) -> impl Iterator<Item = (u8, &[u32])> {
        let rows = (0..=u8::MAX).map(|partition| (partition, self.row(partition)));
        rows.filter(|(_, ids)| !ids.is_empty())
    }

    /// The eight cells of a partition's row, zeros included, by the proved function.
    ///
    /// # Errors
    ///
    /// [`Refusal::Range`](crate::Refusal::Range) for a partition above 255.
    pub fn show_row(&self, partition: u32) -> Result<[u32; ffi::ROW_CELLS], Refused> {
        let mut row = [0; ffi::ROW_CELLS];
        let refusal = ffi::show_row(self.cells(), partition, &mut row);
        judge(refusal, None, None)?;
        Ok(row)
    }

    /// The cells: eight to a partition, ids first, then zeros.
    pub fn cells(&self) -> &[u32] {
        &*self.cells
    }

    /// The cells, to be lent to a C function.
    pub(crate) fn cells_mut(&mut self) -> &mut [u32] {
        &mut *self.cells
    }
}

/// The cells of a row without the zeros at its end; one that stands before an id is not hidden.
pub(crate) fn without_zeros(row: &[u32]) -> &[u32] {
    let last = row.iter().rposition(|id| *id != 0);
    &row[..last.map_or(0, |last| last + 1)]
}

impl Default for Layout {
    /// The layout with no copies.
    fn default() -> Layout {
        Layout {
            cells: Box::new([0; ffi::LAYOUT_CELLS]),
        }
    }
}

impl<R: AsRef<[u32]>> Extend<(u8, R)> for Layout {
    /// Sets the row of each partition that comes; panics as [`Layout::set_row`] does.
    fn extend<T: IntoIterator<Item = (u8, R)>>(&mut self, rows: T) {
        for (partition, ids) in rows {
            self.set_row(partition, ids.as_ref());
        }
    }
}

impl<R: AsRef<[u32]>> FromIterator<(u8, R)> for Layout {
    /// The layout of these rows, all others empty; panics as [`Layout::set_row`] does.
    fn from_iter<T: IntoIterator<Item = (u8, R)>>(rows: T) -> Layout {
        let mut layout = Layout::default();
        layout.extend(rows);
        layout
    }
}

impl fmt::Debug for Layout {
    fn fmt(&self, f: &mut fmt::Formatter<'_>) -> fmt::Result {
        f.debug_map().entries(self.rows()).finish()
    }
}

#[cfg(test)]
mod tests {
    use super::*;
    use crate::Refusal;

    #[test]
    fn rows_come_back() {
        let mut layout = Layout::default();
        layout.set_row(255, &[1, 2, 3, 4, 5, 6, 7, 8]);
        layout.set_row(3, &[9]);
        layout.set_row(255, &[5, 7]);
        assert_eq!(layout.row(255), [5, 7]);
        assert_eq!(layout.row(4), []);
        let rows: Vec<_> = layout.rows().collect();
        assert_eq!(rows, [(3, &[9][..]), (255, &[5, 7][..])]);
        assert_eq!(format!("{layout:?}"), "{3: [9], 255: [5, 7]}");
    }

    #[test]
    fn a_layout_is_collected_from_its_rows() {
        let mut layout: Layout = [(3, vec![9]), (255, vec![5, 7])].into_iter().collect();
        let again: Layout = layout.rows().collect();
        assert_eq!(again, layout);
        layout.extend([(3, []), (255, [])]);
        assert_eq!(layout, Layout::default());
    }

    #[test]
    fn an_id_of_zero_is_not_hidden() {
        let mut layout = Layout::default();
        layout.set_row(0, &[5, 0, 7]);
        assert_eq!(layout.row(0), [5, 0, 7]);
    }

    #[test]
    fn a_row_is_shown_with_its_zeros() {
        let mut layout = Layout::default();
        layout.set_row(255, &[5, 7]);
        assert_eq!(layout.show_row(255), Ok([5, 7, 0, 0, 0, 0, 0, 0]));
        let refused = layout.show_row(256).unwrap_err();
        assert_eq!((refused.refusal, refused.place), (Refusal::Range, None));
    }
}
