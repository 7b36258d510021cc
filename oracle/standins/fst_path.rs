//! Stand-in: names.

pub struct FstPath {}

pub fn check_path_in_fst<F>(_: &F, _: &FstPath) -> bool {
    unimplemented!("stand-in")
}
