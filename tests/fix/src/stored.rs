//! Stored answers: tests/replay/fixed.bin and what `tests/oracle/run --answers` writes, in the format
//! of tests/oracle/compare/src/stored.rs. Rests on nothing.

/// The answers of the events that were taken; nothing if the bytes are no such file.
pub fn answers(file: &[u8]) -> Option<Vec<Vec<u8>>> {
    let mut rest = file;
    let mut answers = Vec::new();
    while let Some((tag, behind)) = rest.split_first() {
        rest = behind;
        match tag {
            0 => drop(take(&mut rest, 4)?),
            1 => {
                sized(&mut rest)?;
                take(&mut rest, 4)?;
                if take(&mut rest, 1)? == [0] {
                    answers.push(sized(&mut rest)?.to_vec());
                }
            }
            _ => return None,
        }
    }
    Some(answers)
}

fn take<'a>(rest: &mut &'a [u8], count: usize) -> Option<&'a [u8]> {
    let (taken, behind) = rest.split_at_checked(count)?;
    *rest = behind;
    Some(taken)
}

fn sized<'a>(rest: &mut &'a [u8]) -> Option<&'a [u8]> {
    let length = take(rest, 2)?;
    take(rest, usize::from(u16::from_le_bytes([length[0], length[1]])))
}
