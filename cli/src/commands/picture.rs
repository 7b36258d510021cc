//! `draw`: the machine as a picture, or the list laid over it.
#![forbid(unsafe_code)]

use yeldmur::Areas;

use super::Trouble;
use crate::args::{Options, Picture};
use crate::dot;
use crate::graphviz;
use crate::input::Input;

pub(super) fn answer(
    options: &Options,
    areas: &mut Areas,
    input: &Input,
) -> Result<Vec<u8>, Trouble> {
    let text = match options.count {
        None => dot::machine(&input.sheet()?),
        Some(n) => {
            let sheet = input.sheet_to_search()?;
            let list = areas.list(&sheet, n)?;
            dot::list(&sheet, &list)
        }
    };
    match options.picture {
        Picture::Dot => Ok(text.into_bytes()),
        form => graphviz::drawn(&text, form.name()).map_err(Trouble::Failed),
    }
}
