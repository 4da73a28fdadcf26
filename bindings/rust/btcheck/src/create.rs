use std::fs::{self, File};
use std::io::{self, ErrorKind, Read};
use std::path::{Path, PathBuf};

use crate::{Draft, DraftFile, Error};

/// Bytes of one read. Eight pieces of a hybrid are hashed side by side.
const PART: usize = 1 << 20;

/// A path below the folder, by its components, and where the file is.
type Listed = (Vec<String>, PathBuf);

/// The torrent of all files below a folder, hidden ones too: the bytes that `btcheck create` writes. The folder itself may
/// be a symlink; what else is neither a file nor a folder, a symlink too, is refused as `InvalidInput`, and so is a name
/// that is not UTF-8. A refusal of the draft is an error of the kind `Other` that holds it.
pub fn create(
    folder: impl AsRef<Path>,
    name: &str,
    piece_length: u64,
    hybrid: bool,
) -> io::Result<Vec<u8>> {
    let mut draft = Draft::new(name, piece_length, hybrid).map_err(refused)?;
    let mut file = DraftFile::new(&mut draft).map_err(refused)?;
    let mut files = Vec::new();
    list(folder.as_ref(), &mut Vec::new(), &mut files)?;
    files.sort_unstable();
    let mut part = vec![0; PART];
    for (path, at) in files {
        push_all(&mut file, &at, &mut part)?;
        draft.add(&mut file, &path.join("/")).map_err(refused)?;
    }
    draft.finish().map_err(refused)
}

fn refused(error: Error) -> io::Error {
    io::Error::new(ErrorKind::Other, error)
}

fn unlisted(at: &Path, why: &str) -> io::Error {
    io::Error::new(ErrorKind::InvalidInput, format!("{why}: {}", at.display()))
}

/// Lists the files below a folder.
fn list(folder: &Path, above: &mut Vec<String>, files: &mut Vec<Listed>) -> io::Result<()> {
    for entry in fs::read_dir(folder)? {
        let (entry, at) = entry.map(|entry| (entry.file_type(), entry.path()))?;
        let name = at.file_name().and_then(|name| name.to_str());
        above.push(name.ok_or_else(|| unlisted(&at, "not UTF-8"))?.to_owned());
        let kind = entry?;
        if kind.is_dir() {
            list(&at, above, files)?;
        } else if kind.is_file() {
            files.push((above.clone(), at));
        } else {
            return Err(unlisted(&at, "not a file or folder"));
        }
        above.pop();
    }
    Ok(())
}

/// Pushes all bytes of a file.
fn push_all(file: &mut DraftFile, at: &Path, part: &mut [u8]) -> io::Result<()> {
    let mut content = File::open(at)?;
    loop {
        match content.read(part) {
            Ok(0) => return Ok(()),
            Ok(count) => file.push(&part[..count]).map_err(refused)?,
            Err(error) if error.kind() == ErrorKind::Interrupted => {}
            Err(error) => return Err(error),
        }
    }
}
