//! A file by RULES' words alone: a list of bytes. A length change cuts it or adds zeros; a write past its end lengthens it first.

use oracle::Call;

/// What a call that is done makes of the bytes of its file.
pub fn change(bytes: &mut Vec<u8>, call: &Call) {
    match call {
        Call::Resize { len, .. } => bytes.resize(*len as usize, 0),
        Call::Write { offset, data, .. } => {
            let (begin, end) = (*offset as usize, *offset as usize + data.len());
            if bytes.len() < end {
                bytes.resize(end, 0);
            }
            bytes[begin..end].copy_from_slice(data);
        }
        _ => (),
    }
}

/// What a read gives.
pub fn read(bytes: &[u8], offset: u64, len: usize) -> &[u8] {
    let begin = offset.min(bytes.len() as u64) as usize;
    &bytes[begin..bytes.len().min(begin.saturating_add(len))]
}
