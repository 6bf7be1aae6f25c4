//! Buffers, tables and lists that calls are lent.

use super::refusal::{refuse, Refusal};

/// Writes what was found to the front, and answers how much. Where there is no room for all of it, or nothing was found, all stays as it was.
pub fn write<T: Copy>(found: &Result<Vec<T>, Refusal>, buffer: &mut [T]) -> Result<usize, Refusal> {
    let found = found.as_ref().map_err(|&refusal| refusal)?;
    let needed = found.len();
    if buffer.len() < needed {
        return refuse(7, needed);
    }
    buffer[..needed].copy_from_slice(found);
    Ok(needed)
}

#[test]
fn only_what_is_written_changes() {
    let mut buffer = [7; 4];
    assert_eq!(write(&Ok(vec![1; 5]), &mut buffer), refuse(7, 5));
    assert_eq!(write(&refuse(1, 0), &mut buffer), refuse(1, 0));
    assert_eq!(buffer, [7; 4]);
    assert_eq!(write(&Ok(vec![1, 2, 3]), &mut buffer), Ok(3));
    assert_eq!(buffer, [1, 2, 3, 7]);
}
