//! Saved stores: a file with state, heap and sum.

use crate::numbers::{write_numbers, Number};
use crate::store::{Store, PAGE, PAGES};
use crate::tables::{
    NotLoaded, NotSaved, State, FILE_MESSAGES, FILE_NAMES, MAGIC, STATE_BYTES, VERSION,
};
use std::cmp::Ordering;
use std::error::Error;
use std::ffi::OsString;
use std::fmt;
use std::fs::{self, File};
use std::io::{self, Read, Write};
use std::path::{Path, PathBuf};
use std::process;

/// The bytes in front of the state: magic, version and two lengths.
const HEAD: usize = MAGIC.len() + 12;

/// The bytes of a sum.
const SUM: usize = 4;

/// How many names PATH.PID.N.new are tried.
const NAMES: u32 = 100;

/// The system's number of the error by which a folder cannot be flushed at all, EINVAL.
const NO_FLUSH: i32 = 22;

impl Store {
    /// Saves the store to a file, all of it or nothing.
    ///
    /// It is written to PATH.PID.N.new beside it (PID the number of the process, N the first from 0 to 99 that is not taken) and flushed; then that file is renamed to PATH, and the folder is flushed. So at every moment there is one whole store at PATH, the old one or a new one, also where several threads or processes save to it at once: each has a file of its own, and the last to rename stays. A link at PATH is replaced by the file, and what it led to is left as it was.
    ///
    /// A crash on the way may leave a file PATH.PID.N.new, which may be deleted.
    ///
    /// # Errors
    ///
    /// [`NotSaved::Unwritable`], with the system's error. Then what was at PATH is there as it was, unless all went well but the last step, the flush of the folder: then the new file is there, whole and flushed, but a loss of power may bring the old one back. (That a file system cannot flush folders at all is no failure.) The file beside PATH is removed, if the system lets it be; no other file has been touched.
    ///
    /// # Examples
    ///
    /// ```
    /// use region_store::Store;
    ///
    /// # fn main() -> Result<(), Box<dyn std::error::Error>> {
    /// # let path = std::env::temp_dir().join(format!("region_store-{}", std::process::id()));
    /// let mut store = Store::new(1)?;
    /// let round = store.new_region()?;
    /// store.save(&path)?;
    /// let mut again = Store::from_file(&path)?;
    /// assert_eq!(again.delete(round, 0)?, 0);
    /// # std::fs::remove_file(&path)?;
    /// # Ok(())
    /// # }
    /// ```
    pub fn save(&self, path: impl AsRef<Path>) -> Result<(), NotSaved> {
        write_whole(path.as_ref(), &self.to_bytes()).map_err(NotSaved::Unwritable)
    }

    /// Loads a store from a file.
    ///
    /// It is not called `load`, since that is [call 13](Store::load).
    ///
    /// # Errors
    ///
    /// The first reason of [`NotLoaded`] that holds, in the order of their numbers (a file may also be found too short once its lengths are known). Nothing was changed then. What is no regular file (a folder, a pipe, a device) is [`NotLoaded::Unreadable`], and a pipe is not waited for.
    ///
    /// # Panics
    ///
    /// If the library that was linked has another layout than this crate.
    ///
    /// # Examples
    ///
    /// ```
    /// use region_store::{NotLoaded, Store};
    ///
    /// let why = Store::from_file("a-file-that-is-not-there").unwrap_err();
    /// assert!(matches!(why, NotLoaded::Unreadable(_)));
    /// assert_eq!(why.message(), "the file cannot be read");
    /// ```
    pub fn from_file(path: impl AsRef<Path>) -> Result<Store, NotLoaded> {
        let bytes = read_whole(path.as_ref()).map_err(NotLoaded::Unreadable)?;
        Store::from_bytes(&bytes)
    }

    fn to_bytes(&self) -> Vec<u8> {
        let mut bytes = Vec::with_capacity(file_length(self.heap().len()));
        bytes.extend_from_slice(&MAGIC);
        VERSION.write(&mut bytes);
        (STATE_BYTES as u32).write(&mut bytes);
        (self.heap().len() as u32).write(&mut bytes);
        bytes.extend(self.state_bytes());
        write_numbers(&mut bytes, self.heap());
        crc32(&bytes).write(&mut bytes);
        bytes
    }

    fn from_bytes(bytes: &[u8]) -> Result<Store, NotLoaded> {
        let words = heap_words(bytes)?;
        let (told, mut sum) = bytes.split_at(bytes.len() - SUM);
        if u32::read(&mut sum) != crc32(told) {
            return Err(NotLoaded::WrongSum);
        }
        let mut rest = &told[HEAD..];
        let state = State::read(&mut rest);
        let heap = (0..words).map(|_| u32::read(&mut rest)).collect();
        let store = Store::with_memory(state, heap);
        if store.audit() {
            Ok(store)
        } else {
            Err(NotLoaded::Unsound)
        }
    }
}

/// How many words the heap in a file has, where the file begins as it should and has its true length.
fn heap_words(bytes: &[u8]) -> Result<usize, NotLoaded> {
    if bytes.len() < HEAD + SUM {
        return Err(NotLoaded::Short);
    }
    let Some(mut rest) = bytes.strip_prefix(&MAGIC) else {
        return Err(NotLoaded::NoStore);
    };
    if u32::read(&mut rest) != VERSION {
        return Err(NotLoaded::OtherVersion);
    }
    let state_bytes = u32::read(&mut rest) as usize;
    let words = u32::read(&mut rest) as usize;
    if state_bytes != STATE_BYTES || !is_heap_length(words) {
        return Err(NotLoaded::WrongLengths);
    }
    match bytes.len().cmp(&file_length(words)) {
        Ordering::Less => Err(NotLoaded::Short),
        Ordering::Greater => Err(NotLoaded::Long),
        Ordering::Equal => Ok(words),
    }
}

/// The bytes of a file with a heap of so many words.
fn file_length(words: usize) -> usize {
    HEAD + STATE_BYTES + 4 * words + SUM
}

fn is_heap_length(words: usize) -> bool {
    words > 0 && words % PAGE == 0 && words <= PAGE * PAGES as usize
}

/// The bytes of a file; of one that is longer than every saved store only one byte more than that.
fn read_whole(path: &Path) -> io::Result<Vec<u8>> {
    let longest = file_length(PAGE * PAGES as usize) as u64;
    let mut bytes = Vec::new();
    // Asked before it is opened: to open a pipe is to wait for who writes to it.
    if !fs::metadata(path)?.is_file() {
        let why = "not a regular file";
        return Err(io::Error::new(io::ErrorKind::InvalidInput, why));
    }
    File::open(path)?
        .take(longest + 1)
        .read_to_end(&mut bytes)?;
    Ok(bytes)
}

fn write_whole(path: &Path, bytes: &[u8]) -> io::Result<()> {
    let folder = File::open(folder_of(path))?;
    let (file, new) = create_beside(path)?;
    if let Err(error) = write_and_rename(file, bytes, &new, path) {
        // That the file cannot be removed either is not told: the first error is the one to mend.
        let _ = fs::remove_file(&new);
        return Err(error);
    }
    match folder.sync_all() {
        Err(error) if error.raw_os_error() == Some(NO_FLUSH) => Ok(()),
        flushed => flushed,
    }
}

/// A new file beside a path, and its path: PATH.PID.N.new with the first N that is not taken, whatever stands there, a link too.
fn create_beside(path: &Path) -> io::Result<(File, PathBuf)> {
    for n in 0..NAMES {
        let mut name = OsString::from(path);
        name.push(format!(".{}.{n}.new", process::id()));
        match File::create_new(&name) {
            Ok(file) => return Ok((file, PathBuf::from(name))),
            Err(error) if error.kind() == io::ErrorKind::AlreadyExists => {}
            Err(error) => return Err(error),
        }
    }
    let why = "each name PATH.PID.N.new is taken";
    Err(io::Error::new(io::ErrorKind::AlreadyExists, why))
}

fn write_and_rename(mut file: File, bytes: &[u8], new: &Path, path: &Path) -> io::Result<()> {
    file.write_all(bytes)?;
    file.sync_all()?;
    fs::rename(new, path)
}

/// The folder that a path lies in, with a dot at its end, so that nothing but a folder can be opened by it.
fn folder_of(path: &Path) -> PathBuf {
    path.parent().unwrap_or(path).join(".")
}

/// What each byte does to a sum.
const STEPS: [u32; 256] = {
    let mut steps = [0; 256];
    let mut i = 0;
    while i < 256 {
        let mut sum = i as u32;
        let mut bit = 0;
        while bit < 8 {
            sum = (sum >> 1) ^ (0xEDB8_8320 * (sum & 1));
            bit += 1;
        }
        steps[i] = sum;
        i += 1;
    }
    steps
};

/// The CRC-32 of zlib.
fn crc32(bytes: &[u8]) -> u32 {
    !bytes.iter().fold(!0, |sum, &byte| {
        (sum >> 8) ^ STEPS[((sum & 0xFF) as u8 ^ byte) as usize]
    })
}

/// Name, message, and the rest of an error, for both types.
macro_rules! file_error {
    ($type:ident, $carrying:ident) => {
        impl $type {
            /// The name of the reason, the same in every language.
            #[must_use]
            pub fn name(&self) -> &'static str {
                FILE_NAMES[self.number() as usize - 1]
            }

            /// What is wrong, in words, the same in every language.
            #[must_use]
            pub fn message(&self) -> &'static str {
                FILE_MESSAGES[self.number() as usize - 1]
            }
        }

        /// The message; the system's error, where there is one, is the source.
        impl fmt::Display for $type {
            fn fmt(&self, f: &mut fmt::Formatter<'_>) -> fmt::Result {
                f.write_str(self.message())
            }
        }

        impl Error for $type {
            fn source(&self) -> Option<&(dyn Error + 'static)> {
                match self {
                    $type::$carrying(error) => Some(error),
                    #[allow(unreachable_patterns)]
                    _ => None,
                }
            }
        }
    };
}

file_error!(NotLoaded, Unreadable);
file_error!(NotSaved, Unwritable);

#[cfg(test)]
mod tests {
    use super::{crc32, folder_of};
    use std::path::Path;

    #[test]
    fn the_sum_is_that_of_zlib() {
        assert_eq!(crc32(b""), 0);
        assert_eq!(crc32(b"123456789"), 0xCBF4_3926);
    }

    #[test]
    fn the_folder_of_a_path() {
        for (path, folder) in [
            ("store", "."),
            ("a/store", "a/."),
            ("../store", "../."),
            ("/store", "/."),
        ] {
            assert_eq!(folder_of(Path::new(path)).as_os_str(), folder);
        }
    }
}
