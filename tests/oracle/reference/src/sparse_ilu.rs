//! Stand-in for a file of the source that is not at hand. Only the preconditioned solve names it,
//! which nothing here calls.

pub struct Preconditioner<M>(std::marker::PhantomData<M>);

pub fn solve_preconditioning_vec<T>(_vec: &mut [[T; 2]], _ilu: &Preconditioner<[T; 4]>) {
    unimplemented!("the preconditioned solve is left out")
}
