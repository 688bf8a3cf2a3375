//! Prints what the unchanged functions return, bit by bit: the elements, the system of a strand, a
//! step of each kind, and two steps on end of each kind.
//!
//! A row is a line `fn NAME`, a line `in LABEL ..` for each argument and a line `out LABEL ..` for
//! each result. A number stands as the 16 hexadecimal digits of its f64 bits; a whole number (an
//! axis, a vertex, a pin, a limit, a count) in decimal digits. A label is the name in the Rust, some
//! of them shortened, with the outer indices behind it: `dcdp01` is `dcdp[0][1]`. Numbers stand in
//! memory order, but for the stretch block, which stands once, as `m`, by rows. A step with no pick
//! has no `i_vtx` and no `pos_goal`.

mod bend;
mod inputs;
mod print;
mod step;
mod stretch;
mod system;
mod turn;

fn main() {
    let mut rows = print::Rows::default();
    stretch::squared_length_difference(&mut rows);
    bend::frame_gradient(&mut rows);
    bend::gradient_of_dot_frame_axis(&mut rows);
    bend::darboux(&mut rows);
    bend::darboux_gradient(&mut rows);
    bend::hair_approx_hessian(&mut rows);
    turn::frame(&mut rows);
    system::strand(&mut rows);
    step::both_kinds(&mut rows);
    step::two_on_end(&mut rows);
    print!("{}", rows.text());
    eprintln!("{} rows", rows.count());
}
