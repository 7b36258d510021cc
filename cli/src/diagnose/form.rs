//! Rows and sheets told apart.
#![forbid(unsafe_code)]

/// What bytes are taken for.
#[derive(Clone, Copy, Debug, PartialEq, Eq)]
pub enum Form {
    /// Text rows.
    Rows,
    /// A sheet.
    Sheet,
}

impl Form {
    /// Its name.
    pub fn name(self) -> &'static str {
        match self {
            Form::Rows => "rows",
            Form::Sheet => "sheet",
        }
    }
}

/// What bytes are taken for: a sheet where at least four of them, and one in sixteen, are 0; else rows, so that a text with a stray byte of 0 is
/// still a text. Whatever the library accepts is told right by this: each link of a sheet has such a byte in its weight, each node three in
/// its mark, and the trailer, whichever it is, four in the offset of links, while no row that can be read has one.
pub fn form(bytes: &[u8]) -> Form {
    let zeros = bytes.iter().filter(|&&byte| byte == 0).count();
    if zeros >= 4 && 16 * zeros >= bytes.len() {
        Form::Sheet
    } else {
        Form::Rows
    }
}

#[cfg(test)]
mod tests {
    use super::*;

    #[test]
    fn told_apart() {
        for text in ["", "0\n", "0 1 1 1 x\n", "a letter to a friend\n", "é\r\n"] {
            assert_eq!(form(text.as_bytes()), Form::Rows, "{text:?}");
        }
        assert_eq!(form(b"0 1 1\0 1\n"), Form::Rows);
        assert_eq!(form(&[0; 19]), Form::Sheet);
        // one in sixteen, and one in seventeen
        assert_eq!(form(&b"123456789012345\0".repeat(5)), Form::Sheet);
        assert_eq!(form(&b"1234567890123456\0".repeat(5)), Form::Rows);
        let empty = [[0; 16].as_slice(), &[0xFF; 4]].concat();
        assert_eq!(form(&empty), Form::Sheet);
        assert_eq!(form(&empty[1..]), Form::Sheet);
    }

    // As few bytes of 0 as a sheet can have: large labels, and weights of all the digits that the grid has.
    #[test]
    fn a_sheet_with_few_zeros() {
        let link = yeldmur::Link {
            source: 0,
            ilabel: u32::MAX,
            olabel: u32::MAX,
            weight: -127.984375,
            next: 0x0001_0101,
        };
        let finals = vec![None; 0x0001_0102];
        let sheet = yeldmur::Sheet::write(&vec![link; 1_000_000], &finals, Some(0)).unwrap();
        assert_eq!(form(sheet.bytes()), Form::Sheet);
        assert_eq!(form(&sheet.bytes()[..16_000_000]), Form::Sheet);
    }
}
