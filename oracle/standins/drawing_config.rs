//! Stand-in: a name.

pub struct DrawingConfig {}
