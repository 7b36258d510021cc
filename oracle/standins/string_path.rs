//! Stand-in: a name.

pub struct StringPath {}
