//! A plain model of programs typed as text.
//!
//! It is written from document 02's R-5 alone and shares nothing with the library. What a file may
//! hold it asks the model of reading files, because a text is accepted "exactly when it fits this
//! grammar and its file is accepted".

pub mod cases;
pub mod examples;
pub mod long;
#[cfg(test)]
mod places;
pub mod printer;
mod reader;
#[cfg(test)]
mod sentences;
mod signs;

use crate::builder;
use crate::model::{self, write_front, Program};
use crate::parts::Part;
use crate::refusals::{NOT_A_TEXT, SIZE_OUT_OF_RANGE};
use crate::sizes::Sizes;

pub use reader::read;

/// Most bytes of a text.
pub const MAX_TEXT_LEN: usize = 16_384;

/// Ends a line. It may stand wherever a space may.
pub const LINE_END: u8 = b'\n';

/// What a text says that fits the grammar. Its file may still be refused.
#[derive(Clone, Debug, PartialEq, Eq)]
pub struct Typed {
    pub sizes: Sizes,
    pub root: Part,
}

/// Why a text does not fit.
#[derive(Clone, Copy, Debug, PartialEq, Eq)]
pub enum Outside {
    /// It has more bytes than a text may have.
    TooLong,
    /// The signs before this byte begin some text that fits the grammar, but with the one that
    /// begins here none goes on. At the text's length it is the end that comes too early.
    At(usize),
}

impl Typed {
    /// The program with these numbers of variables and clocks.
    pub fn new(variables: usize, clocks: usize, root: Part) -> Typed {
        let parts = root.size();
        let sizes = Sizes {
            parts,
            variables,
            clocks,
        };
        Typed { sizes, root }
    }

    /// The program file. Where a size is outside its range, the file may not hold it.
    pub fn file(&self) -> Vec<u8> {
        builder::file(self.sizes.variables, self.sizes.clocks, &self.root)
    }

    /// The program as reading its file gives it, or the refusal of the file.
    pub fn program(&self) -> Result<Program, u32> {
        if !self.sizes.allowed() {
            return Err(SIZE_OUT_OF_RANGE);
        }
        model::read(&self.file())
    }
}

/// The program that a text says, or the number of the first refusal that applies.
pub fn program(text: &[u8]) -> Result<Program, u32> {
    let typed = read(text).map_err(|_| NOT_A_TEXT)?;
    typed.program()
}

/// The program file of a text, or the number of the first refusal that applies.
pub fn file(text: &[u8]) -> Result<Vec<u8>, u32> {
    let Program { sizes, root } = program(text)?;
    Ok(Typed { sizes, root }.file())
}

/// Reads a text and writes its program file to the front of `file`.
pub fn write_file(text: &[u8], file: &mut [u8]) -> Result<(), u32> {
    write_front(&self::file(text)?, file)
}

/// Whether a program that is told the form of its input by the first bytes takes it for a text.
pub fn is_text(input: &[u8]) -> bool {
    const TELLING: usize = 4;
    let mut first = input.iter().take(TELLING);
    !input.is_empty() && first.all(|&byte| byte >= LINE_END)
}

/// The line and the column of a byte, both counted from 1; columns are bytes.
pub fn line_and_column(text: &[u8], place: usize) -> (usize, usize) {
    let before = &text[..place];
    let lines = before.iter().filter(|&&byte| byte == LINE_END).count();
    let in_line = before.iter().rev().take_while(|&&byte| byte != LINE_END);
    (1 + lines, 1 + in_line.count())
}

/// Bytes of a text that a message shows.
const SHOWN: usize = 200;

/// A text as a message shows it, cut where it is long.
pub fn shown(text: &[u8]) -> String {
    let front = &text[..text.len().min(SHOWN)];
    format!("\"{}\" ({} bytes)", front.escape_ascii(), text.len())
}

#[cfg(test)]
mod tests {
    use super::long::nest;
    use super::*;
    use crate::sizes::MAX_FILE_LEN;

    /// Each example gets what stands beside it, and the file is that of the tree.
    #[test]
    fn gives_the_examples() {
        for example in examples::all() {
            let mut file = vec![0; MAX_FILE_LEN];
            let answer = write_file(&example.text, &mut file);
            let gives = answer.map(|()| file);
            let expected = example.gives.clone().map(|mut file| {
                file.resize(MAX_FILE_LEN, 0);
                file
            });
            assert_eq!(gives, expected, "{example}");
        }
    }

    /// The refusals 1, 3, 4 and 6 of files cannot come from a text.
    #[test]
    fn reads_its_own_file_back() {
        for example in examples::all().iter().filter(|each| each.gives.is_ok()) {
            let typed = read(&example.text).expect("an accepted text fits the grammar");
            let program = typed.program().expect("an accepted text has a file");
            assert_eq!(program.root, typed.root, "{example}");
            assert_eq!(program.sizes, typed.sizes, "{example}");
        }
    }

    #[test]
    fn a_text_that_is_too_long() {
        let mut text = b"1 1: v0=1".to_vec();
        text.resize(MAX_TEXT_LEN, LINE_END);
        assert!(read(&text).is_ok());
        text.push(LINE_END);
        assert_eq!(read(&text), Err(Outside::TooLong));
    }

    /// As deep as a text can go, closed and open, on the stack of a test.
    #[test]
    fn deep_nests() {
        let closed = nest("(v0=1;", 2339, "v0=1", ")");
        assert_eq!(program(&closed), Err(SIZE_OUT_OF_RANGE));
        let open = nest("(", 16_380, "", "");
        assert_eq!(read(&open), Err(Outside::At(MAX_TEXT_LEN)));
    }

    #[test]
    fn lines_and_columns() {
        let text = b"1 1:\n  v0=1\n\n; x";
        for (place, expected) in [
            (0, (1, 1)),
            (4, (1, 5)),
            (5, (2, 1)),
            (7, (2, 3)),
            (12, (3, 1)),
            (13, (4, 1)),
            (15, (4, 3)),
            (text.len(), (4, 4)),
        ] {
            assert_eq!(line_and_column(text, place), expected, "{place}");
        }
    }
}
