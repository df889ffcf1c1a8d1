//! Where `scrub` writes. A file appears whole or not at all: it is written without a name, or
//! beside its place under another name, and renamed. Only scrubbed bytes are ever written.

use std::ffi::OsStr;
use std::fs::{self, File, Metadata, OpenOptions};
use std::io::{self, ErrorKind, IsTerminal, Write};
use std::os::unix::fs::{MetadataExt, OpenOptionsExt, PermissionsExt};
use std::path::{Path, PathBuf};
use std::process;

use crate::capture::{is_standard, opened, shown, Identity};
use crate::{put, system, Trouble};

const IS_INPUT: &str = "it is the input, which is never overwritten";
const IS_TERMINAL: &str =
    "it is a terminal, and scrubbed frames are no text: --force writes them all the same";

/// Where to write; nothing is created yet.
pub enum Target {
    Standard,
    /// /dev/null, under any name.
    Null,
    File(Place),
}

/// A file's path, which is not the input's.
pub struct Place {
    name: String,
    path: PathBuf,
    access: Access,
    input: Identity,
}

impl Target {
    /// The file of that name, which need not exist; refused if it is the input, under any name, or
    /// no plain file. A replaced file may have been open to fewer people than a new one would be:
    /// the new one's mode has no bit that the old one's lacks. A terminal gets nothing unless
    /// forced.
    pub fn of(name: &OsStr, input: Identity, force: bool) -> Result<Target, Trouble> {
        if is_standard(name) {
            return Target::standard(input, force);
        }
        let shown = shown(name);
        if fs::symlink_metadata(name).is_err_and(|error| error.kind() == ErrorKind::NotFound) {
            return Ok(Target::File(Place {
                name: shown,
                path: PathBuf::from(name),
                access: Access::default(),
                input,
            }));
        }
        // an existing file is replaced where it is, also through a link
        let found = fs::canonicalize(name).and_then(|path| Ok((fs::metadata(&path)?, path)));
        let (data, path) = found.map_err(|error| Trouble::of(&shown, &error))?;
        if Identity::of(&data) == input {
            Err(refused(&shown, IS_INPUT))
        } else if data.is_dir() {
            Err(refused(&shown, "it is a folder"))
        } else if is_null(&data) {
            Ok(Target::Null)
        } else if !data.is_file() {
            Err(refused(&shown, "it is no plain file; - is standard output"))
        } else {
            Ok(Target::File(Place {
                name: shown,
                path,
                access: Access::of(&data),
                input,
            }))
        }
    }

    fn standard(input: Identity, force: bool) -> Result<Target, Trouble> {
        let name = "standard output";
        if system::was_closed(&io::stdout()) {
            return Err(Trouble::closed(name));
        }
        let same = opened(io::stdout())
            .and_then(|file| file.metadata())
            .is_ok_and(|data| data.is_file() && Identity::of(&data) == input);
        if same {
            Err(refused(name, IS_INPUT))
        } else if !force && io::stdout().is_terminal() {
            Err(refused(name, IS_TERMINAL))
        } else {
            Ok(Target::Standard)
        }
    }

    pub fn open(self) -> Result<Output, Trouble> {
        match self {
            Target::Standard => Ok(Output::Standard),
            Target::Null => Ok(Output::Null),
            Target::File(place) => match Beside::for_access(&place.path, &place.access) {
                Ok(beside) => Ok(Output::File(place, beside)),
                Err(error) => Err(Trouble::of(&place.name, &error)),
            },
        }
    }
}

/// Whether a file is /dev/null, under any name: the same device.
fn is_null(data: &Metadata) -> bool {
    let null = fs::metadata("/dev/null");
    null.is_ok_and(|null| {
        !null.is_file() && null.rdev() == data.rdev() && null.file_type() == data.file_type()
    })
}

/// What is being written. Standard output gets it at once; a file appears when all is finished.
pub enum Output {
    Standard,
    Null,
    File(Place, Beside),
}

impl Output {
    pub fn write(&mut self, bytes: &[u8]) -> Result<(), Trouble> {
        match self {
            Output::Standard => put(bytes),
            Output::Null => Ok(()),
            Output::File(place, beside) => beside
                .file
                .write_all(bytes)
                .map_err(|error| Trouble::of(&place.name, &error)),
        }
    }

    pub fn finish(self) -> Result<(), Trouble> {
        let Output::File(place, beside) = self else {
            return Ok(());
        };
        let trouble = |error: io::Error| Trouble::of(&place.name, &error);
        beside.file.sync_all().map_err(trouble)?;
        // checked again, as late as possible: somebody may have put the input there meanwhile, or a
        // file that fewer people may open
        if let Ok(data) = fs::metadata(&place.path) {
            if Identity::of(&data) == place.input {
                return Err(refused(&place.name, IS_INPUT));
            }
            beside.narrow(&Access::of(&data)).map_err(trouble)?;
        }
        beside.become_file(&place.path).map_err(trouble)
    }
}

/// What is being written, or what will be written if nothing speaks against it at the end.
pub enum Held {
    Nothing(Output),
    All(Target, Vec<u8>),
}

impl Held {
    /// `name` is that of the input, for the error.
    pub fn write(&mut self, name: &str, more: &[u8]) -> Result<(), Trouble> {
        match self {
            Held::Nothing(output) => output.write(more),
            Held::All(_, bytes) => {
                let room = bytes.try_reserve(more.len());
                room.map_err(|_| Trouble::too_large(name))?;
                bytes.extend(more);
                Ok(())
            }
        }
    }

    pub fn finish(self) -> Result<(), Trouble> {
        match self {
            Held::Nothing(output) => output.finish(),
            Held::All(target, bytes) => {
                let mut output = target.open()?;
                output.write(&bytes)?;
                output.finish()
            }
        }
    }
}

fn refused(name: &str, what: &str) -> Trouble {
    Trouble::File(name.to_string(), what.to_string())
}

/// Who may open a new file.
pub struct Access {
    /// The mode that it is created with, before the umask.
    mode: u32,
    /// The group of the replaced file.
    group: Option<u32>,
}

impl Default for Access {
    fn default() -> Access {
        Access {
            mode: 0o666,
            group: None,
        }
    }
}

impl Access {
    /// As for a file that is to be replaced.
    fn of(data: &Metadata) -> Access {
        Access {
            mode: 0o666 & data.permissions().mode(),
            group: Some(data.gid()),
        }
    }

    /// The mode if the group is another: that group gets nothing, and the old group's members, who
    /// are others now, no more than they had.
    fn mode_for_another_group(&self) -> u32 {
        let (group, others) = (self.mode >> 3, self.mode);
        self.mode & 0o600 | (group & others & 0o006)
    }
}

/// A new file in the folder of another. It is gone when this value is dropped, or when a signal
/// ends the program, unless it has replaced the other.
pub struct Beside {
    file: File,
    /// Where it is; none if it has no name, as where the file system knows such files.
    path: Option<PathBuf>,
}

impl Beside {
    /// A file in the folder of the path. A file's group is known only once it is created. If it is
    /// not the replaced file's, this file, still empty, is removed and one with fewer bits created:
    /// whoever opened the first reads nothing.
    fn for_access(path: &Path, access: &Access) -> io::Result<Beside> {
        let beside = Beside::made(path, access.mode)?;
        let group = beside.file.metadata()?.gid();
        if access.group.is_some_and(|old| old != group) {
            drop(beside);
            return Beside::made(path, access.mode_for_another_group());
        }
        Ok(beside)
    }

    /// A file that did not exist before.
    fn made(path: &Path, mode: u32) -> io::Result<Beside> {
        match Beside::unnamed(path, mode) {
            Ok(file) => Ok(Beside { file, path: None }),
            Err(_) => Beside::named(path, mode),
        }
    }

    /// A file without a name, which goes with the program. It can be named later if Linux shows
    /// the files that are open.
    fn unnamed(path: &Path, mode: u32) -> io::Result<File> {
        let folder = match path.parent() {
            Some(folder) if folder != Path::new("") => folder,
            _ => Path::new("."),
        };
        let file = OpenOptions::new()
            .write(true)
            .mode(mode)
            .custom_flags(system::UNNAMED)
            .open(folder)?;
        fs::metadata(system::path_of(&file))?;
        Ok(file)
    }

    /// A file with a name, which a signal removes.
    fn named(path: &Path, mode: u32) -> io::Result<Beside> {
        system::undisturbed(|| {
            free_name(path, |path| {
                let file = OpenOptions::new()
                    .write(true)
                    .create_new(true)
                    .mode(mode)
                    .open(&path)?;
                system::remove_at_end(Some(&path));
                let path = Some(path);
                Ok(Beside { file, path })
            })
        })
    }

    /// Removes the mode bits that it would not have been created with.
    fn narrow(&self, access: &Access) -> io::Result<()> {
        let data = self.file.metadata()?;
        let allowed = if access.group == Some(data.gid()) {
            access.mode
        } else {
            access.mode_for_another_group()
        };
        let mut permissions = data.permissions();
        permissions.set_mode(permissions.mode() & allowed);
        self.file.set_permissions(permissions)
    }

    /// Moves to the path, replacing what was there. A signal waits until it is done.
    fn become_file(mut self, path: &Path) -> io::Result<()> {
        system::undisturbed(|| {
            let beside = match self.path.take() {
                Some(beside) => beside,
                None => free_name(path, |beside| {
                    system::name(&self.file, &beside)?;
                    system::remove_at_end(Some(&beside));
                    Ok(beside)
                })?,
            };
            let renamed = fs::rename(&beside, path);
            if renamed.is_err() {
                let _ = fs::remove_file(&beside);
            }
            system::remove_at_end(None);
            renamed
        })
    }
}

/// Something made under a name beside a path that nothing has yet.
fn free_name<T>(path: &Path, make: impl Fn(PathBuf) -> io::Result<T>) -> io::Result<T> {
    let mut tries = 0;
    loop {
        let name = format!(".rietknoest-{}-{tries}", process::id());
        match make(path.with_file_name(name)) {
            Err(error) if error.kind() == ErrorKind::AlreadyExists && tries < 100 => tries += 1,
            made => return made,
        }
    }
}

impl Drop for Beside {
    fn drop(&mut self) {
        if let Some(path) = self.path.take() {
            let _ = fs::remove_file(path);
            system::remove_at_end(None);
        }
    }
}

#[cfg(test)]
mod tests {
    use super::*;

    /// Between the first check and the writing the input is moved to where the result should go: it
    /// stays.
    #[test]
    fn the_input_that_comes_to_stand_there_stays() {
        let folder = std::env::temp_dir().join(format!("rietknoest-target-{}", process::id()));
        fs::create_dir(&folder).unwrap();
        let (from, to) = (folder.join("in"), folder.join("out"));
        for old in [None, Some(b"old")] {
            fs::write(&from, b"input").unwrap();
            if let Some(old) = old {
                fs::write(&to, old).unwrap();
            }
            let identity = Identity::of(&fs::metadata(&from).unwrap());
            let target = Target::of(to.as_os_str(), identity, false).ok().unwrap();
            fs::rename(&from, &to).unwrap();
            let mut output = target.open().ok().unwrap();
            assert!(output.write(b"scrubbed").is_ok());
            let put = output.finish();
            assert!(matches!(put, Err(Trouble::File(_, what)) if what == IS_INPUT));
            assert_eq!(fs::read(&to).unwrap(), b"input");
            assert_eq!(fs::read_dir(&folder).unwrap().count(), 1);
            fs::remove_file(&to).unwrap();
        }
        fs::remove_dir(&folder).unwrap();
    }

    #[test]
    fn the_mode_for_another_group() {
        let modes = [
            (0o666, 0o606),
            (0o664, 0o604),
            (0o644, 0o604),
            (0o640, 0o600),
            (0o604, 0o600),
            (0o646, 0o604),
            (0o600, 0o600),
        ];
        for (mode, expected) in modes {
            let group = Some(0);
            let made = Access { mode, group }.mode_for_another_group();
            assert_eq!(made, expected, "{mode:o}");
        }
    }
}
