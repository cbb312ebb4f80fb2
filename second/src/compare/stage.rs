//! A temporary folder in which sessions are run.

use crate::random::sessions::{File, Session, FILES};
use crate::report::report_names;
use std::path::{Path, PathBuf};
use std::process::{Command, ExitStatus};
use std::time::{SystemTime, UNIX_EPOCH};
use std::{env, fs, process};

pub struct Stage {
    program: PathBuf,
    folder: PathBuf,
}

pub struct Outputs {
    pub own: Vec<u8>,
    pub other: Vec<u8>,
    pub other_status: ExitStatus,
}

impl Outputs {
    /// A status other than 0 is a difference too: the report program always ends with 0.
    pub fn differ(&self) -> bool {
        self.own != self.other || !self.other_status.success()
    }
}

/// The fourth name is for a program that is given one too many.
const FILE_NAMES: [&str; FILES + 1] = ["list", "operands", "schedule", "ignored"];

impl Stage {
    pub fn new(program: &Path) -> Result<Stage, String> {
        let in_program = |error| format!("{}: {error}", program.display());
        let program = program.canonicalize().map_err(in_program)?;
        let clock = SystemTime::now().duration_since(UNIX_EPOCH).map_or(0, |time| time.as_nanos());
        let folder = env::temp_dir().join(format!("second-compare-{}-{clock}", process::id()));
        let in_folder = |error| format!("{}: {error}", folder.display());
        fs::create_dir(&folder).map_err(in_folder)?;
        Ok(Stage { program, folder })
    }

    pub fn folder(&self) -> &Path {
        &self.folder
    }

    pub fn remove(self) -> Result<(), String> {
        fs::remove_dir_all(&self.folder)
            .map_err(|error| format!("{}: {error}", self.folder.display()))
    }

    pub fn outputs(&self, session: &Session) -> Result<Outputs, String> {
        let paths = FILE_NAMES.map(|name| self.folder.join(name));
        for (file, path) in session.files.iter().zip(&paths) {
            put(file, path).map_err(|error| format!("{}: {error}", path.display()))?;
        }
        let names: Vec<String> =
            paths[..session.names].iter().map(|path| path.to_string_lossy().into_owned()).collect();
        let run = Command::new(&self.program)
            .args(&names)
            .output()
            .map_err(|error| format!("{}: {error}", self.program.display()))?;
        Ok(Outputs {
            own: report_names(&names).into_bytes(),
            other: run.stdout,
            other_status: run.status,
        })
    }
}

/// Puts a file, a folder or nothing at the path, whatever an earlier session left there.
fn put(file: &File, path: &Path) -> std::io::Result<()> {
    if let File::Bytes(bytes) = file {
        if !path.is_dir() {
            return fs::write(path, bytes);
        }
    }
    if path.is_dir() {
        fs::remove_dir(path)?;
    } else if path.exists() {
        fs::remove_file(path)?;
    }
    match file {
        File::Bytes(bytes) => fs::write(path, bytes),
        File::Folder => fs::create_dir(path),
        File::Missing => Ok(()),
    }
}
