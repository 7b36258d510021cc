//! Stand-in for the parsers: names and types, and `num`, which text rows need. No call made here
//! reads or writes a binary file.

use std::io::Write;

use anyhow::Result;
use nom::IResult;

pub mod text_fst;

pub mod nom_utils {
    use std::str::FromStr;

    use nom::character::complete::digit1;
    use nom::combinator::map_res;
    use nom::IResult;

    #[derive(Debug)]
    pub struct NomCustomError<I>(pub I);

    pub fn num<N: FromStr>(i: &str) -> IResult<&str, N> {
        map_res(digit1, N::from_str)(i)
    }
}

pub trait SerializeBinary {}

pub fn parse_bin_f32(_: &[u8]) -> IResult<&[u8], f32, nom_utils::NomCustomError<&[u8]>> {
    unimplemented!("stand-in")
}

pub fn write_bin_f32<F: Write>(_: &mut F, _: f32) -> Result<()> {
    unimplemented!("stand-in")
}
