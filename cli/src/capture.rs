//! A capture, read piece by piece, and the walk over it. Only `whole` holds all of it.

use std::ffi::OsStr;
use std::fs::{File, Metadata};
use std::hint::black_box;
use std::io::{self, ErrorKind, Read};
use std::ops::ControlFlow;
use std::os::fd::AsFd;
use std::os::unix::fs::MetadataExt;
use std::thread;
use std::time::Duration;

use rietknoest_host::{records, records_room, Fed, Record, Refusal, Stream, Walked, KEPT, RECORD};

use crate::progress::Progress;
use crate::{hint, system, Trouble};

/// A file's name for display: bytes that are no text are replaced, control characters escaped.
pub fn shown(name: &OsStr) -> String {
    let mut text = String::new();
    for letter in name.to_string_lossy().chars() {
        if letter.is_control() {
            text.extend(letter.escape_default());
        } else {
            text.push(letter);
        }
    }
    text
}

pub fn is_standard(name: &OsStr) -> bool {
    name == "-"
}

/// Which file it is, under any name: device and inode.
#[derive(Clone, Copy, PartialEq, Eq)]
pub struct Identity(u64, u64);

impl Identity {
    pub fn of(data: &Metadata) -> Identity {
        Identity(data.dev(), data.ino())
    }
}

/// A file that this program was started with, duplicated.
pub fn opened(standard: impl AsFd) -> io::Result<File> {
    Ok(File::from(standard.as_fd().try_clone_to_owned()?))
}

/// At most so many bytes are read at a time.
pub const PIECE: usize = 65_536;

/// The time between two looks at a file that may grow.
const PAUSE: Duration = Duration::from_millis(100);

/// An open capture.
pub struct Source {
    /// Its name for display.
    pub name: String,
    pub identity: Identity,
    file: File,
    is_plain: bool,
    /// Whether the end of a plain file is only the end so far.
    grows: bool,
    /// How many bytes were read.
    read: u64,
    progress: Progress,
}

impl Source {
    pub fn open(name: &OsStr) -> Result<Source, Trouble> {
        let (name, file) = if is_standard(name) {
            if system::was_closed(&io::stdin()) {
                return Err(Trouble::closed("standard input"));
            }
            ("standard input".to_string(), opened(io::stdin()))
        } else {
            (shown(name), File::open(name))
        };
        match file.and_then(|file| Ok((file.metadata()?, file))) {
            Ok((data, file)) => Ok(Source {
                identity: Identity::of(&data),
                is_plain: data.is_file(),
                grows: false,
                read: 0,
                progress: Progress::new(&name, data.is_file().then_some(data.len())),
                name,
                file,
            }),
            Err(error) => Err(Trouble::of(&name, &error)),
        }
    }

    /// At the end of a plain file it waits for more, until a signal asks for the end.
    pub fn growing(mut self) -> Source {
        system::ask_for_the_end();
        self.grows = true;
        self
    }

    /// Shows no progress, since its output is on the terminal.
    pub fn silent(mut self) -> Source {
        self.progress.stop();
        self
    }

    /// All of it.
    pub fn whole(mut self) -> Result<Capture, Trouble> {
        let mut bytes = Vec::new();
        let mut piece = vec![0; PIECE];
        loop {
            let read = self.piece(&mut piece)?;
            if read == 0 {
                let name = self.name.clone();
                hint::hint(&name, &bytes);
                return Ok(Capture { name, bytes });
            }
            let more = bytes.try_reserve(read);
            more.map_err(|_| Trouble::too_large(&self.name))?;
            bytes.extend(&piece[..read]);
        }
    }

    /// The bytes that are there, at least one and at most as many as fit; none at its end.
    pub fn piece(&mut self, room: &mut [u8]) -> Result<usize, Trouble> {
        loop {
            // a plain file has an end, and is read up to it
            let ends = self.grows && system::asked();
            if ends && !self.is_plain {
                return Ok(0);
            }
            match self.file.read(room) {
                Err(error) if error.kind() == ErrorKind::Interrupted => {}
                Err(error) => return Err(Trouble::of(&self.name, &error)),
                Ok(0) if self.grows && self.is_plain && !ends => self.wait()?,
                Ok(read) => {
                    self.read += read as u64;
                    self.progress.add(read);
                    return Ok(read);
                }
            }
        }
    }

    /// Waits a moment for a file to grow.
    fn wait(&self) -> Result<(), Trouble> {
        let data = self.file.metadata();
        let data = data.map_err(|error| Trouble::of(&self.name, &error))?;
        if data.len() < self.read {
            let what = "it has become shorter while it was read".to_string();
            return Err(Trouble::File(self.name.clone(), what));
        }
        thread::sleep(PAUSE);
        Ok(())
    }

    /// Walks it while it arrives, and passes on each step as soon as it is decided; the last one at
    /// its end, or where enough was told.
    pub fn walk(
        mut self,
        mut tell: impl FnMut(Step) -> Result<ControlFlow<()>, Trouble>,
    ) -> Result<(), Trouble> {
        let mut stream = Stream::open();
        // the bytes that wait, then those of a piece
        let mut bytes = vec![0; KEPT + PIECE];
        let mut records = vec![0; records_room(bytes.len())];
        let mut waiting = 0;
        let mut place = 0;
        loop {
            let first = self.read == 0;
            let read = self.piece(&mut bytes[waiting..][..PIECE])?;
            if first {
                hint::hint(&self.name, &bytes[..read]);
            }
            let end = waiting + read;
            let fed = fed(&mut stream, &bytes[waiting..end], &mut records);
            let fed = fed.map_err(|refusal| Trouble::refused(&self.name, refusal))?;
            waiting = fed.waiting as usize;
            let decided = end - waiting;
            let given = fed.records as usize;
            let told = tell(Step {
                place,
                bytes: &bytes[..decided],
                records: &records[..given * RECORD],
                walked: Walked {
                    records: given,
                    frames: fed.frames,
                    refused: fed.refused,
                    ledger: stream.ledger,
                },
                is_last: read == 0,
            })?;
            if read == 0 || told.is_break() {
                return Ok(());
            }
            bytes.copy_within(decided..end, 0);
            place += decided as u64;
        }
    }
}

/// One more cut of a capture, or its end, where it is empty.
fn fed(stream: &mut Stream, cut: &[u8], records: &mut [u8]) -> Result<Fed, Refusal> {
    if cut.is_empty() {
        stream.close(records)
    } else {
        stream.feed(cut, records)
    }
}

/// The part of an arriving capture that one call decided.
pub struct Step<'a> {
    /// Where it starts.
    pub place: u64,
    /// The bytes since the step before.
    pub bytes: &'a [u8],
    /// The records of the readings in these bytes.
    pub records: &'a [u8],
    /// Counts since the capture's start, the ledger after them, and the number of these records.
    pub walked: Walked,
    pub is_last: bool,
}

impl<'a> Step<'a> {
    /// The readings in these bytes.
    pub fn readings(&self) -> impl Iterator<Item = Record> + 'a {
        records(self.records)
    }

    /// The bytes from a place of the capture on, which is in this step.
    pub fn from(&self, place: u64) -> &'a [u8] {
        &self.bytes[(place - self.place) as usize..]
    }
}

pub struct Capture {
    /// Its name for display.
    pub name: String,
    pub bytes: Vec<u8>,
}

impl Capture {
    /// The file of that name, read to its end.
    pub fn read(name: &OsStr) -> Result<Capture, Trouble> {
        Source::open(name)?.whole()
    }

    /// So many zeros, or an error if there is no memory for them. Pages that are not written to
    /// cost none.
    pub fn room(&self, len: usize) -> Result<Vec<u8>, Trouble> {
        // reserved first, and given back: `vec!` ends the program if it gets none
        let mut asked = Vec::<u8>::new();
        let given = asked.try_reserve_exact(len);
        drop(black_box(asked));
        match given {
            Ok(()) => Ok(vec![0; len]),
            Err(_) => Err(Trouble::too_large(&self.name)),
        }
    }
}
