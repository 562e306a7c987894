//! Lists as lines: the form, what is refused and where, and the buffers.

#[path = "../common/mod.rs"]
mod common;

mod calls;
mod flaws;
mod form;
mod generated;
mod refused;
mod room;

use model::{read_lines, write_lines, Output};

/// Room for every output that is accepted.
const AMPLE: usize = 200_000;
const FILL: u8 = b'#';

/// The output, or the number and the place of the refusal.
type Found = Result<Vec<u8>, (u8, usize)>;

/// Sees that an answer and its buffer are as an accepted or a refused call
/// leaves them.
fn found(input: &[u8], answer: Output, buffer: &[u8]) -> Found {
    let (output, rest) = buffer.split_at(answer.length);
    assert!(rest.iter().all(|&byte| byte == FILL));
    if answer.number == 0 {
        assert_eq!(answer.place, input.len());
        return Ok(output.to_vec());
    }
    assert!(output.is_empty());
    Err((answer.number, answer.place))
}

fn write_into(list: &[u8], room: usize) -> Found {
    let mut buffer = vec![FILL; room];
    let answer = write_lines(list, &mut buffer);
    found(list, answer, &buffer)
}

fn read_into(text: &[u8], room: usize) -> Found {
    let mut buffer = vec![FILL; room];
    let answer = read_lines(text, &mut buffer);
    found(text, answer, &buffer)
}

fn write(list: &[u8]) -> Found {
    write_into(list, AMPLE)
}

fn read(text: impl AsRef<[u8]>) -> Found {
    read_into(text.as_ref(), AMPLE)
}

/// The text is the one spelling of the list.
fn assert_spells(text: &str, list: &[u8]) {
    assert_eq!(write(list), Ok(text.into()), "{text:?}");
    assert_eq!(read(text), Ok(list.to_vec()), "{text:?}");
}
