//! Stand-in for the changing of links in place: names and types.

use std::marker::PhantomData;

use anyhow::Result;

use crate::{Label, Tr};

pub struct TrsIterMut<'a, W>(PhantomData<&'a W>);

impl<W> TrsIterMut<'_, W> {
    pub fn len(&self) -> usize {
        unimplemented!("stand-in")
    }

    pub fn get(&self, _: usize) -> Option<&Tr<W>> {
        unimplemented!("stand-in")
    }

    pub fn set_ilabel(&mut self, _: usize, _: Label) -> Result<()> {
        unimplemented!("stand-in")
    }

    pub fn set_olabel(&mut self, _: usize, _: Label) -> Result<()> {
        unimplemented!("stand-in")
    }
}
