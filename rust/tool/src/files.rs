//! Files: records are locked while a run works on them, and written whole or not at all.

use crate::say::Trouble;
use std::ffi::OsString;
use std::fs::{self, File, Metadata, OpenOptions, TryLockError};
use std::io::{self, Read, Write};
use std::os::unix::fs::{fchown, MetadataExt, OpenOptionsExt};
use std::path::{Path, PathBuf};

/// More than any record file; what is longer was named by mistake.
const RECORD_FILE_MOST: u64 = 1 << 20;
/// More than any file with one value in it.
const VALUE_FILE_MOST: u64 = 4096;

/// A file's name as it is said to the user. One with 32 hex digits in it may be a seed in the wrong place, and is kept back.
pub fn shown(path: &Path) -> String {
    let name = path.to_string_lossy();
    let seed = |part: &str| part.len() == 32 && part.bytes().all(|b| b.is_ascii_hexdigit());
    if name.split(['/', '.']).any(seed) {
        return "the file with 32 hex digits in its name".into();
    }
    name.into_owned()
}

/// A file that this run alone works on. The lock is on a file beside it, as a new record takes the place of the old one; it goes
/// with the process, however that ends.
pub struct Locked {
    /// What the user called it.
    name: String,
    /// The file itself, behind all links.
    real: PathBuf,
    lock: PathBuf,
    _held: File,
}

impl Locked {
    /// Locks a file that is there.
    pub fn take(path: &Path) -> Result<Locked, Trouble> {
        Locked::at(path, fs::canonicalize(path))
    }

    /// Locks a file that is there, or the place of one that is not.
    pub fn place(path: &Path) -> Result<Locked, Trouble> {
        let real = fs::canonicalize(path);
        let missing = matches!(&real, Err(error) if error.kind() == io::ErrorKind::NotFound);
        Locked::at(path, if missing { place_of(path) } else { real })
    }

    fn at(path: &Path, real: io::Result<PathBuf>) -> Result<Locked, Trouble> {
        let name = shown(path);
        let real = real.map_err(|error| Trouble::system(&name, &error))?;
        if fs::metadata(&real).is_ok_and(|data| !data.is_file()) {
            return Err(not_plain(&name));
        }
        let say = |error| Trouble::system(&format!("the lock beside {name}"), &error);
        let lock = beside(&real, ".lock");
        loop {
            let open = OpenOptions::new().read(true).write(true).create(true).truncate(false).mode(0o600).open(&lock);
            let mut held = open.map_err(say)?;
            match held.try_lock() {
                Ok(()) => {}
                Err(TryLockError::WouldBlock) => return Err(in_use(&name, &mut held)),
                Err(TryLockError::Error(error)) => return Err(say(error)),
            }
            // Whoever had it before may have taken the file away between our opening it and our locking it.
            if is_still(&held, &lock) {
                // Only for the message of the second run, so a full disk does not matter.
                let _ = held.set_len(0).and_then(|()| write!(held, "{}", std::process::id()));
                return Ok(Locked { name, real, lock, _held: held });
            }
        }
    }

    pub fn read(&self) -> Result<Vec<u8>, Trouble> {
        read_record(&self.real, &self.name)
    }

    /// Puts these bytes in the place of the file: the old ones stay, or the new ones are there, and nothing between. A new file is
    /// for its owner alone: records hold values that pay, and so does a tick until it is offered.
    pub fn write(&self, bytes: &[u8]) -> Result<(), Trouble> {
        self.put(bytes, 0o600)
    }

    /// The same, for what anyone may see.
    pub fn write_public(&self, bytes: &[u8]) -> Result<(), Trouble> {
        self.put(bytes, 0o666)
    }

    fn put(&self, bytes: &[u8], mode: u32) -> Result<(), Trouble> {
        let old = fs::metadata(&self.real).ok();
        let new = beside(&self.real, ".new");
        let written = write_new(&new, bytes, mode, old.as_ref()).and_then(|()| fs::rename(&new, &self.real));
        if written.is_err() {
            let _ = fs::remove_file(&new);
        }
        written.map_err(|error| Trouble::system(&self.name, &error))?;
        File::open(folder(&self.real)).and_then(|folder| folder.sync_all()).map_err(|error| {
            Trouble::other(format!("{} is written, but after a power cut now the old one could be back ({error}).", self.name))
        })
    }

    /// Writes a record that is not there yet.
    pub fn write_first(&self, bytes: &[u8]) -> Result<(), Trouble> {
        match fs::symlink_metadata(&self.real) {
            Ok(_) => Err(Trouble::exists(&self.name)),
            Err(_) => self.write(bytes),
        }
    }
}

impl Drop for Locked {
    fn drop(&mut self) {
        let _ = fs::remove_file(&self.lock);
    }
}

fn in_use(name: &str, held: &mut File) -> Trouble {
    let mut by = String::new();
    let _ = held.read_to_string(&mut by);
    if by == std::process::id().to_string() {
        return Trouble::in_use(format!("{name} is named twice in this command; each file has its own part in it."));
    }
    let by = if by.is_empty() { String::new() } else { format!(", process {by}") };
    Trouble::in_use(format!("{name} is in use by another run of perchmellow{by}; wait until that has ended and run this again."))
}

fn not_plain(name: &str) -> Trouble {
    Trouble::other(format!("{name} is not a plain file; look at the name."))
}

fn is_still(held: &File, path: &Path) -> bool {
    matches!((held.metadata(), fs::metadata(path)), (Ok(a), Ok(b)) if a.ino() == b.ino() && a.dev() == b.dev())
}

fn write_new(new: &Path, bytes: &[u8], mode: u32, old: Option<&Metadata>) -> io::Result<()> {
    // One that a power cut left there is of no use to anyone.
    match fs::remove_file(new) {
        Err(error) if error.kind() != io::ErrorKind::NotFound => return Err(error),
        _ => {}
    }
    let mut file = OpenOptions::new().write(true).create_new(true).mode(mode).open(new)?;
    file.write_all(bytes)?;
    if let Some(old) = old {
        let now = file.metadata()?;
        if (now.uid(), now.gid()) != (old.uid(), old.gid()) {
            fchown(&file, Some(old.uid()), Some(old.gid()))?;
        }
        file.set_permissions(old.permissions())?;
    }
    file.sync_all()
}

fn folder(path: &Path) -> &Path {
    path.parent().filter(|folder| !folder.as_os_str().is_empty()).unwrap_or(Path::new("."))
}

fn place_of(path: &Path) -> io::Result<PathBuf> {
    let name = path.file_name().ok_or(io::ErrorKind::NotFound)?;
    Ok(fs::canonicalize(folder(path))?.join(name))
}

fn beside(path: &Path, ending: &str) -> PathBuf {
    let mut name = OsString::from(".");
    name.push(path.file_name().unwrap_or_default());
    name.push(ending);
    path.with_file_name(name)
}

fn read_record(path: &Path, name: &str) -> Result<Vec<u8>, Trouble> {
    let say = |error| Trouble::system(name, &error);
    let data = fs::metadata(path).map_err(say)?;
    if !data.is_file() {
        return Err(not_plain(name));
    }
    if data.len() > RECORD_FILE_MOST {
        return Err(Trouble::other(format!("{name} has {} bytes, and no record file is so long; look at the name.", data.len())));
    }
    fs::read(path).map_err(say)
}

/// A record that is only looked at.
pub fn read(path: &Path) -> Result<Vec<u8>, Trouble> {
    read_record(path, &shown(path))
}

/// The bytes that a file, or standard input for `-`, has in hex digits. What was read is never repeated.
pub fn value(path: &Path) -> Result<Vec<u8>, Trouble> {
    let dash = path == Path::new("-");
    let name = if dash { "standard input".into() } else { shown(path) };
    let mut text = Vec::new();
    let source: io::Result<Box<dyn Read>> = if dash { Ok(Box::new(io::stdin())) } else { File::open(path).map(|file| Box::new(file) as _) };
    source.and_then(|source| source.take(VALUE_FILE_MOST).read_to_end(&mut text)).map_err(|error| Trouble::system(&name, &error))?;
    let digits = text.trim_ascii();
    let nibble = |b: u8| (b as char).to_digit(16).map(|n| n as u8);
    let pair = |pair: &[u8]| Some(nibble(pair[0])? << 4 | nibble(*pair.get(1)?)?);
    let bytes: Option<Vec<u8>> = digits.chunks(2).map(pair).collect();
    bytes.ok_or_else(|| Trouble::not_hex(format!("{name} has something else than one value in pairs of hex digits; 32 digits are wanted.")))
}

#[cfg(test)]
mod tests {
    use super::*;
    use std::sync::atomic::{AtomicBool, AtomicU32, Ordering::SeqCst};
    use std::thread;

    /// Many that take the lock and let it go: no two hold it at once, though its file is removed each time.
    #[test]
    fn one_at_a_time() {
        let path = std::env::temp_dir().join(format!("perchmellow-lock-{}", std::process::id()));
        fs::write(&path, "").unwrap();
        let (inside, taken) = (AtomicBool::new(false), AtomicU32::new(0));
        let many = || {
            for _ in 0..10000 {
                let Ok(lock) = Locked::take(&path) else { continue };
                assert!(!inside.swap(true, SeqCst), "two hold the lock");
                taken.fetch_add(1, SeqCst);
                thread::yield_now();
                inside.store(false, SeqCst);
                drop(lock);
            }
        };
        thread::scope(|scope| (0..4).for_each(|_| drop(scope.spawn(many))));
        fs::remove_file(&path).unwrap();
        assert!(taken.into_inner() > 0);
    }
}
