//! Stand-in for the Gallic weights, which only determinizing uses: names and types.

use std::borrow::Borrow;
use std::marker::PhantomData;

use anyhow::Result;

use super::{
    DivideType, ReverseBack, Semiring, SemiringProperties, WeaklyDivisibleSemiring, WeightQuantize,
};

macro_rules! never_weighed {
    ($Name:ident) => {
        #[derive(Clone, Debug, Eq, Hash, PartialEq, PartialOrd)]
        pub struct $Name<W>(PhantomData<W>);

        impl<W: Semiring> Semiring for $Name<W> {
            type Type = ();
            type ReverseWeight = Self;

            fn zero() -> Self {
                unimplemented!("stand-in")
            }
            fn one() -> Self {
                unimplemented!("stand-in")
            }
            fn new(_: ()) -> Self {
                unimplemented!("stand-in")
            }
            fn plus_assign<P: Borrow<Self>>(&mut self, _: P) -> Result<()> {
                unimplemented!("stand-in")
            }
            fn times_assign<P: Borrow<Self>>(&mut self, _: P) -> Result<()> {
                unimplemented!("stand-in")
            }
            fn approx_equal<P: Borrow<Self>>(&self, _: P, _: f32) -> bool {
                unimplemented!("stand-in")
            }
            fn value(&self) -> &() {
                unimplemented!("stand-in")
            }
            fn take_value(self) {
                unimplemented!("stand-in")
            }
            fn set_value(&mut self, _: ()) {
                unimplemented!("stand-in")
            }
            fn reverse(&self) -> Result<Self> {
                unimplemented!("stand-in")
            }
            fn properties() -> SemiringProperties {
                unimplemented!("stand-in")
            }
        }

        impl<W: Semiring> ReverseBack<$Name<W>> for $Name<W> {
            fn reverse_back(&self) -> Result<Self> {
                unimplemented!("stand-in")
            }
        }

        impl<W: Semiring> WeaklyDivisibleSemiring for $Name<W> {
            fn divide_assign(&mut self, _: &Self, _: DivideType) -> Result<()> {
                unimplemented!("stand-in")
            }
        }

        impl<W: Semiring> WeightQuantize for $Name<W> {
            fn quantize_assign(&mut self, _: f32) -> Result<()> {
                unimplemented!("stand-in")
            }
        }
    };
}

never_weighed!(GallicWeight);
never_weighed!(GallicWeightMin);
never_weighed!(GallicWeightRestrict);
