//! Stand-in for what `determinize_static` leans on. Only `unique` lists determinize, and no call made
//! here asks for one: names and types, that stop the program if called.

use std::borrow::Borrow;
use std::marker::PhantomData;

use anyhow::Result;

use crate::fst_traits::Fst;
use crate::semirings::{GallicWeight, GallicWeightMin, GallicWeightRestrict, Semiring};
use divisors::CommonDivisor;

mod determinize_static;

pub use determinize_static::*;

#[derive(Clone, Copy, Debug, PartialEq, PartialOrd)]
pub enum DeterminizeType {
    DeterminizeFunctional,
    DeterminizeNonFunctional,
    DeterminizeDisambiguate,
}

pub mod divisors {
    pub trait CommonDivisor<W> {}
}

pub struct DefaultCommonDivisor {}
pub struct GallicCommonDivisor {}

impl<W> CommonDivisor<W> for DefaultCommonDivisor {}
impl<W> CommonDivisor<GallicWeight<W>> for GallicCommonDivisor {}
impl<W> CommonDivisor<GallicWeightMin<W>> for GallicCommonDivisor {}
impl<W> CommonDivisor<GallicWeightRestrict<W>> for GallicCommonDivisor {}

pub struct DeterminizeFsa<W, F, D, B, T>(PhantomData<(W, F, D, B, T)>);

impl<W, F, D, B, T> DeterminizeFsa<W, F, D, B, T>
where
    W: Semiring,
    F: Fst<W>,
    D: CommonDivisor<W>,
    B: Borrow<F>,
    T: Borrow<[W]>,
{
    pub fn new(_: B, _: Option<T>, _: f32) -> Result<Self> {
        unimplemented!("stand-in")
    }

    pub fn compute<F2>(self) -> Result<F2> {
        unimplemented!("stand-in")
    }

    pub fn compute_with_distance<F2>(self) -> Result<(F2, Vec<W>)> {
        unimplemented!("stand-in")
    }
}
