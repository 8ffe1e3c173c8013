//! Descriptors as files: a folder with one in each, and a list of devices.
use std::path::Path;

pub struct Descriptor {
    pub name: String,
    pub bytes: Vec<u8>,
}

/// All descriptors of a folder, by their names in order, and then those of a list.
pub fn all(folder: &str, list: &str) -> Result<Vec<Descriptor>, String> {
    let mut descriptors = of_folder(folder)?;
    descriptors.extend(of_list(list)?);
    Ok(descriptors)
}

/// All descriptors of a folder, by their names in order.
pub fn of_folder(folder: &str) -> Result<Vec<Descriptor>, String> {
    let entries = std::fs::read_dir(folder).map_err(|error| format!("{folder}: {error}"))?;
    let mut descriptors = Vec::new();
    for entry in entries {
        let path = entry.map_err(|error| format!("{folder}: {error}"))?.path();
        if path.extension().is_some_and(|ending| ending == "txt") {
            descriptors.push(read(&path)?);
        }
    }
    descriptors.sort_by(|one, other| one.name.cmp(&other.name));
    Ok(descriptors)
}

/// The descriptor of a file: bytes of two hexadecimal digits, and comments from `#` to the end of
/// the line.
fn read(path: &Path) -> Result<Descriptor, String> {
    let shown = path.display();
    let text = std::fs::read_to_string(path).map_err(|error| format!("{shown}: {error}"))?;
    let name = path
        .file_stem()
        .unwrap_or_default()
        .to_string_lossy()
        .into_owned();
    let digits: String = text
        .lines()
        .flat_map(|line| line.split('#').next().unwrap_or("").split_whitespace())
        .collect();
    let bytes = bytes_of(&digits).map_err(|error| format!("{shown}: {error}"))?;
    Ok(Descriptor { name, bytes })
}

/// The descriptors of a list: a name, a colon and the bytes a line; lines with `#` in front say
/// something else.
fn of_list(path: &str) -> Result<Vec<Descriptor>, String> {
    let text = std::fs::read_to_string(path).map_err(|error| format!("{path}: {error}"))?;
    let mut descriptors = Vec::new();
    for line in text.lines() {
        if let Some((name, digits)) = line.split_once(": ")
            && !line.starts_with('#')
        {
            descriptors.push(Descriptor {
                name: name.to_string(),
                bytes: bytes_of(digits).map_err(|error| format!("{path}: {name}: {error}"))?,
            });
        }
    }
    Ok(descriptors)
}

fn bytes_of(digits: &str) -> Result<Vec<u8>, String> {
    let pairs = digits.as_bytes().chunks(2);
    let pairs = pairs.map(|pair| str::from_utf8(pair).unwrap_or(""));
    pairs
        .map(|pair| u8::from_str_radix(pair, 16).map_err(|error| error.to_string()))
        .collect()
}
