//! Buffers that are lent with bytes on both sides that are not, and compared with what they should be.

/// Bytes before and behind what is lent.
const GUARD: usize = 64;
const GUARDED: u8 = 0x5C;

pub fn guarded(bytes: &[u8]) -> Vec<u8> {
    [&[GUARDED; GUARD], bytes, &[GUARDED; GUARD]].concat()
}

pub fn lend(buffer: &mut [u8]) -> &mut [u8] {
    let end = buffer.len() - GUARD;
    &mut buffer[GUARD..end]
}

/// Compares what was lent, with its guards, with what it should be.
pub fn same(what: &str, should: &[u8], lent: &[u8]) -> Result<(), String> {
    let should = guarded(should);
    if should == lent {
        return Ok(());
    }
    match (0..lent.len()).find(|&at| lent[at] != should[at]) {
        None => Ok(()),
        Some(at) => {
            let (byte, right, is) = (at as isize - GUARD as isize, should[at], lent[at]);
            Err(format!("byte {byte} of {what} should be {right}, is {is}"))
        }
    }
}
