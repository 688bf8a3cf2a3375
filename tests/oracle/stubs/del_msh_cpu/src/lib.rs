//! Stand-in for `del_msh_cpu`: one vertex of a flat list, and which vertices of a rod meet.

pub mod vtx2xyz {
    /// The three numbers of a vertex.
    pub fn to_array3<T: Copy>(vtx2xyz: &[T], i_vtx: usize) -> [T; 3] {
        [
            vtx2xyz[3 * i_vtx],
            vtx2xyz[3 * i_vtx + 1],
            vtx2xyz[3 * i_vtx + 2],
        ]
    }
}

pub mod polyline {
    /// Where each row starts, and the columns of all rows. Row i holds the columns
    /// i-2, i-1, i+1, i+2 that lie in the same strand, upward. Strand k is made of the
    /// vertices from `strand2vtx[k]` to below `strand2vtx[k+1]`.
    pub fn vtx2vtx_rods(strand2vtx: &[usize]) -> (Vec<usize>, Vec<usize>) {
        let mut row2idx = vec![0];
        let mut idx2col = vec![];
        for ends in strand2vtx.windows(2) {
            for row in ends[0]..ends[1] {
                let first = row.saturating_sub(2).max(ends[0]);
                let end = (row + 3).min(ends[1]);
                idx2col.extend((first..end).filter(|&col| col != row));
                row2idx.push(idx2col.len());
            }
        }
        (row2idx, idx2col)
    }
}

#[cfg(test)]
mod tests {
    #[test]
    fn rows_of_a_strand_of_four() {
        let (row2idx, idx2col) = super::polyline::vtx2vtx_rods(&[0, 4]);
        assert_eq!(row2idx, [0, 2, 5, 8, 10]);
        assert_eq!(idx2col, [1, 2, 0, 2, 3, 0, 1, 3, 1, 2]);
    }
}
