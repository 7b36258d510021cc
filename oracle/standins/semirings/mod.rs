//! Stand-in for the list of modules of `semirings`, with the tropical one alone.

/// Stand-in for rustfst's tests of a weight's binary form.
macro_rules! test_semiring_serializable {
    ($($test:tt)*) => {};
}

mod gallic_weight;
#[macro_use]
mod semiring;
mod tropical_weight;
mod utils_float;

pub use gallic_weight::{GallicWeight, GallicWeightMin, GallicWeightRestrict};
pub use semiring::{
    CompleteSemiring, DivideType, ReverseBack, Semiring, SemiringProperties, SerializableSemiring,
    StarSemiring, WeaklyDivisibleSemiring, WeightQuantize,
};
pub use tropical_weight::TropicalWeight;
