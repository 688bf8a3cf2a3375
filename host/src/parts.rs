//! What a call on the bench is given and what a step answers.

/// A strand's stiffnesses, and the ratio below which a solve ends. None may be below 0.
#[derive(Clone, Copy, Debug, Default, PartialEq)]
pub struct Settings {
    /// The stiffness against stretch.
    pub stiff_length: f64,
    /// The stiffnesses against the two bends and the twist.
    pub stiff_bendtwist: [f64; 3],
    /// A solve ends once the residual's length, over that of the first residual, is below it.
    pub conv_ratio: f64,
}

/// A strand to be laid on a seat.
#[derive(Clone, Copy, Debug)]
pub struct Strand<'a> {
    /// The number of vertices, 2 to 32.
    pub n: usize,
    /// Stiffnesses and ratio.
    pub settings: Settings,
    /// Three numbers for each vertex.
    pub positions: &'a [f64],
    /// Three numbers for each vertex: a unit vector across the edge that begins there. Those of the last vertex turn
    /// nothing.
    pub frames: &'a [f64],
}

/// A vertex that is pulled, and the place it is pulled to.
#[derive(Clone, Copy, Debug, PartialEq)]
pub struct Pick {
    /// The vertex.
    pub vertex: usize,
    /// The place.
    pub goal: [f64; 3],
}

/// What of a vertex a pin holds.
#[derive(Clone, Copy, Debug, PartialEq, Eq)]
pub enum Component {
    /// The first number of the position.
    X = 0,
    /// The second number of the position.
    Y = 1,
    /// The third number of the position.
    Z = 2,
    /// The twist of the edge that begins at the vertex.
    Twist = 3,
}

impl Component {
    /// The three numbers of the position, then the twist.
    pub const ALL: [Component; 4] = [Component::X, Component::Y, Component::Z, Component::Twist];
}

/// What a look shows.
#[derive(Clone, Copy, Debug, PartialEq, Eq)]
pub enum Kind {
    /// Positions as they were loaded.
    RestPositions = 0,
    /// Frames as they were loaded.
    RestFrames = 1,
    /// Positions as the steps left them.
    DrapePositions = 2,
    /// Frames as the steps left them.
    DrapeFrames = 3,
    /// Velocities, which dynamic steps leave.
    Velocities = 4,
}

/// What an accepted step answers.
#[derive(Clone, Copy, Debug, PartialEq)]
pub struct StepReport {
    /// The elastic energy that the step began with: finite, never below 0 and never -0. A pick adds nothing to it.
    pub energy: f64,
    /// The iterations of the solve.
    pub count: usize,
    /// The last ratio of the solve.
    pub ratio: f64,
}
