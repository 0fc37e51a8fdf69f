//! Records as files: replaced whole, locked while they change, with each sent call kept beside the record that counts it.
//!
//! Beside RECORD stand `RECORD.lock` (held while the record changes), `RECORD.play` (held by the one that plays it) and the
//! folder `RECORD.calls` with two files a call: `N.call`, the call's bytes, and `N.ticket`, a mark that no other call has.

use std::ffi::OsString;
use std::fs::{self, File, TryLockError};
use std::hash::{BuildHasher, RandomState};
use std::io::{self, Write};
use std::path::{Path, PathBuf};

use library::Call;

/// A record as a file.
#[derive(Clone, Debug)]
pub struct Kept {
    path: PathBuf,
}

/// A call as it is kept: its bytes, and the ticket that is its own.
#[derive(Clone, Debug, PartialEq, Eq)]
pub struct KeptCall {
    pub call: Call,
    pub ticket: String,
}

impl Kept {
    pub fn new(path: &Path) -> Kept {
        // Where the name is a link, what it leads to is replaced, and not the link.
        Kept { path: fs::canonicalize(path).unwrap_or_else(|_| path.to_path_buf()) }
    }

    /// The record's name with an ending of its own.
    fn beside(&self, ending: &str) -> PathBuf {
        let mut name: OsString = self.path.clone().into();
        name.push(ending);
        name.into()
    }

    pub fn exists(&self) -> bool {
        self.path.exists()
    }

    /// Waits until no other process changes the record. The lock ends with what is given back, or with the process.
    pub fn lock(&self) -> io::Result<File> {
        held(&self.beside(".lock"), || eprintln!("tca: waiting for another tca that changes {}", self.path.display()))
    }

    /// Waits until no other process plays the record.
    pub fn lock_play(&self) -> io::Result<File> {
        held(&self.beside(".play"), || eprintln!("tca: waiting for another tca that plays {}", self.path.display()))
    }

    pub fn read(&self) -> io::Result<Vec<u8>> {
        named(&self.path, fs::read(&self.path))
    }

    /// Puts another content in the record's place: all of it or nothing, whatever happens.
    pub fn replace(&self, bytes: &[u8]) -> io::Result<()> {
        replace_file(&self.path, bytes)
    }

    fn calls(&self) -> PathBuf {
        self.beside(".calls")
    }

    fn call_files(&self, number: u32) -> [PathBuf; 2] {
        [self.calls().join(format!("{number}.call")), self.calls().join(format!("{number}.ticket"))]
    }

    /// Keeps a call under a ticket of its own. To be done before the record that counts the call is in place.
    pub fn keep_call(&self, call: &Call) -> io::Result<KeptCall> {
        let calls = self.calls();
        if !calls.is_dir() {
            named(&calls, fs::create_dir(&calls))?;
            sync_folder_of(&calls)?;
        }
        let [call_file, ticket_file] = self.call_files(call.number);
        let ticket = new_ticket();
        replace_file(&ticket_file, ticket.as_bytes())?;
        replace_file(&call_file, &call.to_bytes())?;
        Ok(KeptCall { call: call.clone(), ticket })
    }

    /// A call of the record that is open, as it was kept; nothing if it was never kept here.
    pub fn call(&self, number: u32) -> Option<KeptCall> {
        let [call_file, ticket_file] = self.call_files(number);
        let call = Call::from_bytes(&fs::read(call_file).ok()?)?;
        let ticket = fs::read_to_string(ticket_file).ok()?;
        (call.number == number).then_some(KeptCall { call, ticket })
    }

    /// The call is answered, and the record that says so is in place. If this fails the files stay, and say nothing: no
    /// other call of the record gets the number.
    pub fn forget_call(&self, number: u32) {
        for file in self.call_files(number) {
            let _ = fs::remove_file(file);
        }
    }

    /// A fresh record is in place: the calls of the one before it are nobody's.
    pub fn forget_calls(&self) {
        let _ = fs::remove_dir_all(self.calls());
    }
}

/// Holds a lock file, saying so if it has to wait.
fn held(path: &Path, waits: impl Fn()) -> io::Result<File> {
    let file = named(path, File::options().create(true).truncate(false).write(true).open(path))?;
    match file.try_lock() {
        Ok(()) => return Ok(file),
        Err(TryLockError::WouldBlock) => waits(),
        Err(TryLockError::Error(error)) => return named(path, Err(error)),
    }
    named(path, file.lock())?;
    Ok(file)
}

/// A mark that no other call has: 64 bits of chance.
pub fn new_ticket() -> String {
    format!("{:016x}", RandomState::new().hash_one(std::time::SystemTime::now()))
}

/// Writes a file beside, syncs it, and renames it into its place, so that a power cut leaves the old content or the new.
pub fn replace_file(path: &Path, bytes: &[u8]) -> io::Result<()> {
    let mut beside: OsString = path.into();
    beside.push(".new");
    let beside = PathBuf::from(beside);
    let mut file = named(&beside, File::create(&beside))?;
    named(&beside, file.write_all(bytes))?;
    if let Ok(old) = fs::metadata(path) {
        named(&beside, file.set_permissions(old.permissions()))?;
    }
    named(&beside, file.sync_all())?;
    named(path, fs::rename(&beside, path))?;
    sync_folder_of(path)
}

fn sync_folder_of(path: &Path) -> io::Result<()> {
    let folder = path.parent().filter(|folder| !folder.as_os_str().is_empty()).unwrap_or(Path::new("."));
    named(folder, File::open(folder).and_then(|folder| folder.sync_all()))
}

/// An error that names its file.
pub fn named<T>(path: &Path, result: io::Result<T>) -> io::Result<T> {
    result.map_err(|error| io::Error::new(error.kind(), format!("{}: {error}", path.display())))
}
