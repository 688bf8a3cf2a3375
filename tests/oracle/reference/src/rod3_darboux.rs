//! The unchanged file, and doors to its private functions.

include!(concat!(env!("OUT_DIR"), "/rod3_darboux.rs"));

/// The private functions under their own names, at f64.
pub mod doors {
    /// The frame's three axes after the twist `dtheta` and the movement of the edge `z0` by `dz`.
    pub fn updated_rod_frame(
        ux0: &[f64; 3],
        z0: &[f64; 3],
        dz: &[f64; 3],
        dtheta: f64,
    ) -> [[f64; 3]; 3] {
        super::updated_rod_frame(ux0, z0, dz, dtheta)
    }

    /// The frame's derivatives by the edge, `[axis][coordinate][k]`, and by the twist.
    pub fn rod_frame_gradient(
        length: f64,
        frame: &[[f64; 3]; 3],
    ) -> ([[[f64; 3]; 3]; 3], [[f64; 3]; 3]) {
        super::rod_frame_gradient(length, frame)
    }

    /// The Darboux vector of two edges.
    pub fn darboux_rod(p: &[[f64; 3]; 3], x: &[[f64; 3]; 2]) -> [f64; 3] {
        super::darboux_rod(p, x)
    }

    /// The bend and twist element: energy, gradient, approximate Hessian.
    pub fn wdwdwdw_darboux_rod_hair_approx_hessian(
        p: &[[f64; 3]; 3],
        x: &[[f64; 3]; 2],
        stiff_bendtwist: &[f64; 3],
        darboux0: &[f64; 3],
    ) -> (f64, [[f64; 4]; 3], [[[f64; 16]; 3]; 3]) {
        super::wdwdwdw_darboux_rod_hair_approx_hessian(p, x, stiff_bendtwist, darboux0)
    }
}
