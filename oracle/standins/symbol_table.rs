//! Stand-in for symbol tables: names and types. No machine here has one.

use crate::Label;

#[derive(Clone, Debug)]
pub struct SymbolTable {}

impl SymbolTable {
    pub fn get_symbol(&self, _: Label) -> Option<&str> {
        unimplemented!("stand-in")
    }

    pub fn get_label(&self, _: &str) -> Option<Label> {
        unimplemented!("stand-in")
    }
}
