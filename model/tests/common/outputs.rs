//! A call that writes a list or its lines, as C makes it: the number, and the bytes of
//! the result.

use model::calls::Model;

/// Such a call.
pub type Call = fn(&Model, &[u8], &mut [u8], &mut [u8]) -> u32;

const FILL: u8 = b'#';

/// The number, and the result, of a call with so much room. A refused call
/// leaves the buffer.
pub fn answer(call: Call, input: &[u8], room: usize) -> (u32, [u8; 16]) {
    let (mut buffer, mut result) = (vec![FILL; room], [FILL; 16]);
    let number = call(&Model, input, &mut buffer, &mut result);
    assert!(number == 0 || buffer.iter().all(|&byte| byte == FILL));
    (number, result)
}

/// A result that says these two numbers of less than 65,536.
pub fn result(length: u16, place: u16) -> [u8; 16] {
    let mut result = [0; 16];
    result[..2].copy_from_slice(&length.to_le_bytes());
    result[8..10].copy_from_slice(&place.to_le_bytes());
    result
}
