//! Nothing that is read is written over, and nothing is written twice to one place.

use crate::failure::Failure;
use crate::input::Source;
use crate::sink::is_standard_output;
use std::fs;
use std::path::{Path, PathBuf};

/// The files of a command: what is read, and what is written with the option that names it.
#[derive(Default)]
pub struct Files<'a> {
    read: Vec<&'a Source>,
    written: Vec<(&'static str, PathBuf)>,
}

impl<'a> Files<'a> {
    pub fn reads(mut self, sources: impl IntoIterator<Item = &'a Source>) -> Self {
        self.read.extend(sources);
        self
    }

    pub fn writes(mut self, option: &'static str, paths: impl IntoIterator<Item = impl Into<PathBuf>>) -> Self {
        self.written.extend(paths.into_iter().map(|path| (option, path.into())));
        self
    }

    pub fn check(&self) -> Result<(), Failure> {
        if self.read.iter().filter(|source| source.is_standard_input()).count() > 1 {
            return Err(Failure::Usage("the standard input (-) can be read once only".into()));
        }
        for (i, (option, path)) in self.written.iter().enumerate() {
            if let Some((other, _)) = self.written[..i].iter().find(|(_, other)| same(other, path)) {
                let name = if is_standard_output(path) { "the standard output".into() } else { path.display().to_string() };
                return Err(Failure::Usage(match other == option {
                    true => format!("{option} names {name} twice"),
                    false => format!("{other} and {option} both go to {name}"),
                }));
            }
            let over = self.read.iter().find(|source| !source.is_standard_input() && !is_standard_output(path) && same(&source.0, path));
            if let Some(source) = over {
                return Err(Failure::Usage(format!("{option} {} would write over {source}, which is read", path.display())));
            }
        }
        Ok(())
    }
}

/// Whether two names are of one file, by whatever links; devices are not files to be lost.
fn same(a: &Path, b: &Path) -> bool {
    if is_standard_output(a) || is_standard_output(b) {
        return is_standard_output(a) && is_standard_output(b);
    }
    match (fs::metadata(a), fs::metadata(b)) {
        (Ok(one), Ok(other)) => one.is_file() && identity(&one) == identity(&other),
        (Err(_), Err(_)) => place(a) == place(b),
        _ => false,
    }
}

fn identity(found: &fs::Metadata) -> (u64, u64) {
    use std::os::unix::fs::MetadataExt;
    (found.dev(), found.ino())
}

/// Where a file that is not there yet would be.
fn place(path: &Path) -> PathBuf {
    let folder = match path.parent() {
        Some(parent) if !parent.as_os_str().is_empty() => parent,
        _ => Path::new("."),
    };
    let folder = folder.canonicalize().unwrap_or_else(|_| folder.to_owned());
    folder.join(path.file_name().unwrap_or_default())
}
