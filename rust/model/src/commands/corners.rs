//! `model corners`: the corner cases with their outcomes as files.

use std::fs;
use std::path::Path;

use super::Options;
use model::corners::case::Kind;
use model::corners::stored;

/// Runs the command.
pub fn run(mut options: Options) -> Result<(), String> {
    let folder = options.next().ok_or("corners needs a folder")?;
    options.none()?;
    let folder = Path::new(&folder);
    fs::create_dir_all(folder).map_err(|error| format!("cannot make {folder:?}: {error}"))?;
    for kind in Kind::ALL {
        let path = folder.join(stored::file(kind));
        fs::write(&path, stored::text(kind)).map_err(|error| format!("cannot write {path:?}: {error}"))?;
    }
    Ok(())
}
