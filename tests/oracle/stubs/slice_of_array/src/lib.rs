//! Stand-in for the crate `slice_of_array` (not the source's module of that name): a flat slice
//! seen as a slice of arrays. A length that is no multiple of N panics, as in the real crate.

pub trait SliceNestExt<T> {
    fn nest<const N: usize>(&self) -> &[[T; N]];
    fn nest_mut<const N: usize>(&mut self) -> &mut [[T; N]];
}

impl<T> SliceNestExt<T> for [T] {
    fn nest<const N: usize>(&self) -> &[[T; N]] {
        let (arrays, rest) = self.as_chunks();
        assert!(rest.is_empty());
        arrays
    }
    fn nest_mut<const N: usize>(&mut self) -> &mut [[T; N]] {
        let (arrays, rest) = self.as_chunks_mut();
        assert!(rest.is_empty());
        arrays
    }
}
