//! What `check` and `diff` take from settings: how deep values may be nested, of which code objects there is anything to be said, and
//! whether values or the bytes that they are written as are compared.
use super::names::{self, Name};
use crate::options::Arguments;
use crate::text;
use sillgarland::{Code, FromFile, MOST_NESTING, Reader, Refusal, Refused, Setting, setting, settings_fields};
use std::fs;
use std::io;
use std::path::{Path, PathBuf};

#[derive(Clone, Debug)]
pub struct Scope {
    nesting: u32,
    pub prefix: String,
    pub by_bytes: bool,
}

/// Everything counts.
impl Default for Scope {
    fn default() -> Self {
        Self { nesting: MOST_NESTING, prefix: String::new(), by_bytes: false }
    }
}

impl Scope {
    /// What the file of `--settings` says, else the defaults; without `--settings` everything counts.
    pub fn of(arguments: &Arguments) -> Result<Self, String> {
        let Some(path) = arguments.word_of("settings").map(Path::new) else {
            return Ok(Self::default());
        };
        let (own, defaults) = (read(path)?, Defaults::of(arguments)?);
        let nesting = defaults.used(path, &own, Name::Nesting, names::nesting)?;
        let prefix = defaults.used(path, &own, Name::Prefix, |contents| names::prefix(contents).map(str::to_string))?;
        let by_bytes = defaults.used(path, &own, Name::Mode, names::by_bytes)?;
        Ok(Self { nesting, prefix, by_bytes })
    }

    /// A reader that refuses what is nested deeper.
    pub fn reader(&self) -> Reader {
        Reader::allowing(self.nesting)
    }

    /// Whether there is anything to be said of a code object.
    pub fn covers(&self, code: &Code) -> bool {
        code.qualified_name().bytes().starts_with(self.prefix.as_bytes())
    }
}

pub fn read(path: &Path) -> Result<Vec<u8>, String> {
    fs::read(path).map_err(|error| told(path, &error))
}

pub fn told(path: &Path, error: &io::Error) -> String {
    let reason = error.to_string();
    format!("{}: {}", text::path(path), reason.split(" (os error").next().unwrap_or(&reason))
}

/// The settings that ship.
pub struct Defaults {
    path: PathBuf,
    file: Vec<u8>,
}

/// The name of the defaults file, which stands beside the command.
const SHIPPED: &str = "sill.defaults";

impl Defaults {
    /// The file of `--defaults`, else the one beside the command.
    pub fn of(arguments: &Arguments) -> Result<Self, String> {
        let path = match arguments.word_of("defaults") {
            Some(word) => PathBuf::from(word),
            None => std::env::current_exe()
                .map_err(|error| format!("the command's own place: {error}"))?
                .with_file_name(SHIPPED),
        };
        let file = read(&path).map_err(|told| format!("{told} (the defaults; --defaults names another file)"))?;
        Ok(Self { path, file })
    }

    /// The contents of a setting, and the file that they come from.
    pub fn look<'a>(&'a self, path: &'a Path, own: &'a [u8], name: Name) -> Result<(&'a [u8], &'a Path), String> {
        match setting(own, &self.file, name.tag()) {
            Ok(Setting { contents, from: FromFile::Override }) => Ok((contents, path)),
            Ok(Setting { contents, from: FromFile::Default }) => Ok((contents, &self.path)),
            Err(Refused { refusal: Refusal::NoSuchField, .. }) => {
                Err(format!("{}: it has no {name}, and {} has none", text::path(path), text::path(&self.path)))
            }
            Err(refused) => {
                let at_fault = if settings_fields(own).is_err() { path } else { &self.path };
                Err(format!("{}: {refused}", text::path(at_fault)))
            }
        }
    }

    /// What the contents of a setting stand for.
    fn used<T>(
        &self,
        path: &Path,
        own: &[u8],
        name: Name,
        stands_for: impl Fn(&[u8]) -> Result<T, String>,
    ) -> Result<T, String> {
        let (contents, from) = self.look(path, own, name)?;
        stands_for(contents).map_err(|reason| format!("{}: {reason}", text::path(from)))
    }
}
