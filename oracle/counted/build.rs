//! rustfst as published, but for one line that counts the entries taken.

#[path = "../layout.rs"]
mod layout;

fn main() {
    let tree = layout::lay_out();
    let line = "crate::TAKEN.with(|taken| taken.set(taken.get() + 1));";
    layout::insert_after(
        &tree.join("algorithms/shortest_path.rs"),
        "    fn pop(&mut self) -> Result<V> {\n",
        line,
    );
}
