//! Descriptions with many fields: flags, all of them different.

pub const NAME: &[u8] = b"w";

/// A database of one description with so many flags; 5,460 is the most that a chain may hold.
pub fn database(fields: usize) -> Vec<u8> {
    let mut bytes = [NAME, b":"].concat();
    for id in ids().take(fields) {
        bytes.extend_from_slice(&id);
        bytes.push(b':');
    }
    bytes.push(b'\n');
    bytes
}

/// The id of the last flag of such a database.
pub fn last_id(fields: usize) -> [u8; 2] {
    ids().nth(fields - 1).expect("there are enough ids")
}

fn ids() -> impl Iterator<Item = [u8; 2]> {
    let bytes = || (b'!'..=b'~').filter(|byte| !b":\\.".contains(byte));
    bytes()
        .flat_map(move |first| bytes().map(move |second| [first, second]))
        .filter(|id| id != b"tc")
}
