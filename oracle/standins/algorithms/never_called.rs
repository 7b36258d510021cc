//! Stand-ins for parts of `algorithms` that published files name but that no call made here reaches.
//! They have names and types, so that the published files compile, and stop the program if called.

use anyhow::Result;

use crate::StateId;

#[derive(Clone, Copy, Debug, PartialEq, PartialOrd)]
pub enum ProjectType {
    ProjectInput,
    ProjectOutput,
}

pub trait TrMapper<W> {}

pub fn tr_map<F, M>(_: &mut F, _: &mut M) -> Result<()> {
    unimplemented!("stand-in")
}

pub fn state_sort<F>(_: &mut F, _: &[StateId]) -> Result<()> {
    unimplemented!("stand-in")
}

pub fn fst_convert_from_ref<F1, F2>(_: &F1) -> F2 {
    unimplemented!("stand-in")
}

pub fn weight_convert<F1, F2, M>(_: &F1, _: &mut M) -> Result<F2> {
    unimplemented!("stand-in")
}

pub mod closure {
    pub enum ClosureType {
        ClosureStar,
        ClosurePlus,
    }

    pub fn closure<F>(_: &mut F, _: ClosureType) {
        unimplemented!("stand-in")
    }
}

pub mod tr_compares {}

pub mod tr_mappers {
    #[derive(Default)]
    pub struct QuantizeMapper {}

    impl<W> super::TrMapper<W> for QuantizeMapper {}
}

pub mod weight_converters {
    pub struct ToGallicConverter {}

    pub struct FromGallicConverter {
        pub superfinal_label: crate::Label,
    }
}

pub mod factor_weight {
    use std::borrow::Borrow;

    use anyhow::Result;

    use crate::fst_traits::Fst;
    use crate::semirings::Semiring;
    use crate::Label;

    pub struct FactorWeightType {}

    impl FactorWeightType {
        pub const FACTOR_FINAL_WEIGHTS: Self = Self {};
    }

    pub struct FactorWeightOptions {
        pub delta: f32,
        pub mode: FactorWeightType,
        pub final_ilabel: Label,
        pub final_olabel: Label,
        pub increment_final_ilabel: bool,
        pub increment_final_olabel: bool,
    }

    pub fn factor_weight<W: Semiring, F1: Fst<W>, B: Borrow<F1>, F2, I>(
        _: B,
        _: FactorWeightOptions,
    ) -> Result<F2> {
        unimplemented!("stand-in")
    }

    pub mod factor_iterators {
        use std::marker::PhantomData;

        pub struct GallicFactor<W>(PhantomData<W>);
        pub struct GallicFactorMin<W>(PhantomData<W>);
        pub struct GallicFactorRestrict<W>(PhantomData<W>);
    }
}
