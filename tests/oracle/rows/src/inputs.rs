//! What the functions are asked: literals of few digits, and unit frames made of them by the stubs.
//! The literals were searched for: with each of them, many wrong orders of operations show. Keep
//! away from zeros and from stiffnesses that are powers of two, where most do not.

use del_geo_core::vec3;

/// A curved piece of rod: three points, and an axis for each of its two edges.
pub struct Piece {
    pub points: [[f64; 3]; 3],
    /// Where each axis comes from, neither unit nor square to its edge.
    axes: [[f64; 3]; 2],
    pub stiff: [f64; 3],
    /// The Darboux vector at rest.
    pub darboux0: [f64; 3],
}

pub const PIECES: [Piece; 3] = [
    Piece {
        points: [[0.98, 1.18, 1.46], [1.73, 0.42, 1.66], [1.09, -0.71, 0.23]],
        axes: [[0.6, -0.4, 0.7], [0.2, -1.2, 0.8]],
        stiff: [1.7, 2.3, 0.9],
        darboux0: [-0.16, 0.54, 0.34],
    },
    Piece {
        points: [
            [-0.82, 0.92, -1.95],
            [-0.81, -0.41, -1.06],
            [-1.97, -0.59, -0.35],
        ],
        axes: [[0.8, 0.6, -0.2], [1.1, -1.2, -0.6]],
        stiff: [2.3, 0.9, 1.7],
        darboux0: [-0.44, 0.22, 0.58],
    },
    Piece {
        points: [[1.37, 0.02, -0.35], [0.39, 1.08, 0.86], [-1.26, 0.37, 0.23]],
        axes: [[0.6, 0.9, 0.7], [0.2, -1.2, -0.1]],
        stiff: [0.7, 1.3, 1.7],
        darboux0: [-0.57, -0.37, 0.13],
    },
];

impl Piece {
    /// The edge from point i to the next.
    pub fn edge(&self, i: usize) -> [f64; 3] {
        vec3::sub(&self.points[i + 1], &self.points[i])
    }

    /// The two frames' first axes: unit, and square to their edges.
    pub fn unit_axes(&self) -> [[f64; 3]; 2] {
        [0, 1].map(|i| vec3::normalize(&vec3::orthogonalize(&self.edge(i), &self.axes[i])))
    }

    /// The whole frame at edge i, and the edge's length.
    pub fn frame(&self, i: usize) -> ([[f64; 3]; 3], f64) {
        let x = self.unit_axes()[i];
        let z = vec3::normalize(&self.edge(i));
        ([x, vec3::cross(&z, &x), z], vec3::norm(&self.edge(i)))
    }
}

/// A free strand of three vertices, deformed from its rest shape, and what acts on it.
pub struct Strand {
    pub rest: [[f64; 3]; 3],
    pub now: [[f64; 3]; 3],
    /// Where the frames come from, as in a piece. The last vertex has no edge, and its frame no use.
    pub rest_axes: [[f64; 3]; 3],
    pub now_axes: [[f64; 3]; 3],
    pub stiff_length: f64,
    pub stiff_bendtwist: [f64; 3],
    /// A vertex and its goal.
    pub pick: (usize, [f64; 3]),
    pub dt: f64,
    /// Nonzero is pinned.
    pub pins: [[i32; 4]; 3],
}

pub const STRAND: Strand = Strand {
    rest: [[0.12, -0.35, 0.48], [0.97, 0.21, 0.83], [1.46, 1.18, 0.37]],
    now: [[0.15, -0.31, 0.42], [1.08, 0.27, 0.71], [1.39, 1.33, 0.53]],
    rest_axes: [[0.3, -0.7, 0.9], [-0.8, 0.4, 0.6], [0.5, 0.2, -0.9]],
    now_axes: [[0.4, -0.6, 0.8], [-0.7, 0.5, 0.9], [0.6, 0.1, -0.8]],
    stiff_length: 0.7,
    stiff_bendtwist: [1.3, 0.9, 1.1],
    pick: (1, [1.09, 0.31, 0.58]),
    dt: 0.3,
    pins: [[0, 7, 0, 0], [0, 0, 255, 0], [0, 0, 0, 1]],
};

/// What the steps of the strand have beside it.
pub struct Step {
    pub velocities: [[f64; 3]; 3],
    /// Apart from the drape everywhere; only its pinned components are read.
    pub working_copy: [[f64; 3]; 3],
    pub pins: [[i32; 4]; 3],
    /// Such that the solves end by it, within a few iterations.
    pub conv_ratio: f64,
    pub pick: (usize, [f64; 3]),
    pub dt: f64,
}

pub const STEP: Step = Step {
    velocities: [
        [0.21, -0.34, 0.17],
        [-0.43, 0.29, 0.38],
        [0.52, -0.19, -0.27],
    ],
    working_copy: [[0.09, -0.28, 0.46], [1.01, 0.35, 0.66], [1.44, 1.21, 0.57]],
    pins: [[0, 7, 0, 0], [0, 0, 0, 255], [0, 0, 0, 0]],
    conv_ratio: 0.03,
    pick: STRAND.pick,
    dt: 0.37,
};

/// Two static steps with no pins; the second has the pick.
pub const FREE: Step = Step {
    pins: [[0; 4]; 3],
    conv_ratio: 0.02,
    pick: (2, [1.31, 1.38, 0.47]),
    ..STEP
};

/// Two dynamic steps; the second has the pick.
pub const HELD: Step = Step {
    pins: [[0, 0, 0, 3], [128, 0, 0, 0], [0, 0, 1, 0]],
    conv_ratio: 0.05,
    pick: (0, [0.23, -0.36, 0.49]),
    dt: 0.29,
    ..STEP
};
