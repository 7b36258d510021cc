//! Stand-in for the comparison of floats within a tolerance, in the form of
//! `partial_eq_and_hash_f32`, which is published. Between weights on the grid it means equal.

pub fn float_approx_equal(w1: f32, w2: f32, delta: f32) -> bool {
    w1 <= w2 + delta && w2 <= w1 + delta
}
