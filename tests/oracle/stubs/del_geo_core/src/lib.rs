//! Stand-in for `del_geo_core`: the functions that the source uses, with the orders of operations
//! that document 01 settles ("Vectors (stand-ins)", "Update"). The real crate was not at hand.

pub mod edge3;
pub mod mat3_col_major;
pub mod mat4_col_major;
pub mod matn_col_major;
pub mod vec3;
pub mod vec4;
pub mod vecn;
