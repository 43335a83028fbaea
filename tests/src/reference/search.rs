//! Ask 6 of document 02: "a search that tells whether an asked name is found and how many names had
//! bytes compared".

use super::{check_database, check_name, is_ignored_line, names_of, Files, Refusal};

pub struct Search {
    pub found: bool,
    pub compared: usize,
}

/// "Exactly those of its length in lines that aren't ignored, up to and with the first equal one, or
/// all if none is. It refuses only 16, 1 and 3."
pub fn search(database: Files, name: &[u8]) -> Result<Search, Refusal> {
    database.check_ends()?;
    check_name(name)?;
    check_database(database.bytes)?;
    let files = database.lines();
    let names: Vec<&[u8]> = files
        .iter()
        .flat_map(|file| &file.lines)
        .filter(|line| !is_ignored_line(&line.joined))
        .flat_map(|line| names_of(&line.joined).split(|&byte| byte == b'|'))
        .collect();
    let equal = names.iter().position(|one| *one == name);
    let up_to = equal.map_or(names.len(), |place| place + 1);
    let compared = names[..up_to].iter().filter(|one| one.len() == name.len()).count();
    Ok(Search { found: equal.is_some(), compared })
}
