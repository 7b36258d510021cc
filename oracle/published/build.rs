//! rustfst as published: nothing is changed.

#[path = "../layout.rs"]
mod layout;

fn main() {
    layout::lay_out();
}
