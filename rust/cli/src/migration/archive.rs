//! An old archive: a directory whose files are each one line of the oldest
//! chunks. Its names are all that is held of it, in one order that depends on
//! nothing but the names.

use crate::failure::Failure;
use clap::ValueEnum;
use std::cmp::Ordering;
use std::ffi::OsStr;
use std::fs::read_dir;
use std::ops::Range;
use std::os::unix::ffi::OsStrExt;
use std::path::{Path, PathBuf};

/// Where a line's key comes from.
#[derive(Clone, Copy, Debug, PartialEq, ValueEnum)]
pub enum Keys {
    /// The last number in the file's name, what follows the last dot left out
    Name,
    /// 0, 1, 2 and so on, in the order of the names
    Running,
}

/// The names of an archive, one after another, and where each stands.
pub struct Archive {
    directory: PathBuf,
    names: Vec<u8>,
    places: Vec<Place>,
    keys: Keys,
}

/// Where a name stands, and the number in it.
#[derive(Clone, Copy)]
struct Place {
    start: usize,
    length: u16,
    number: Option<u32>,
}

impl Archive {
    /// All that a directory holds, in the order of the names; where names give
    /// the keys, in the order of their numbers, and last those without one.
    pub fn of(directory: &Path, keys: Keys) -> Result<Archive, Failure> {
        let unread = |error| Failure::Unread(error).of(directory);
        let mut archive = Archive {
            directory: directory.to_owned(),
            names: Vec::new(),
            places: Vec::new(),
            keys,
        };
        for entry in read_dir(directory).map_err(unread)? {
            archive.push(entry.map_err(unread)?.file_name().as_bytes());
        }
        let Archive { names, places, .. } = &mut archive;
        places.sort_unstable_by(|a, b| in_order(names, *a, *b));
        Ok(archive)
    }

    fn push(&mut self, name: &[u8]) {
        let number = match self.keys {
            Keys::Name => number_in(name),
            Keys::Running => None,
        };
        self.places.push(Place {
            start: self.names.len(),
            length: name.len() as u16,
            number,
        });
        self.names.extend_from_slice(name);
    }

    /// How many files it has.
    pub fn len(&self) -> usize {
        self.places.len()
    }

    /// The name of a file.
    pub fn name(&self, file: usize) -> &OsStr {
        OsStr::from_bytes(name_at(&self.names, self.places[file]))
    }

    /// The file itself.
    pub fn path(&self, file: usize) -> PathBuf {
        self.directory.join(self.name(file))
    }

    /// The key of a file, or why it has none. Of several files whose names have
    /// one number the first alone has it as its key.
    pub fn key(&self, file: usize) -> Result<u32, Failure> {
        match self.keys {
            Keys::Running => u32::try_from(file).map_err(|_| Failure::NoNumber),
            Keys::Name => {
                let key = self.places[file].number.ok_or(Failure::NoNumber)?;
                match file.checked_sub(1).map(|before| self.places[before].number) {
                    Some(before) if before == Some(key) => Err(Failure::NumberTwice(key)),
                    _ => Ok(key),
                }
            }
        }
    }

    /// Its files in groups of so many, the last one shorter.
    pub fn groups(&self, each: usize) -> usize {
        self.len().div_ceil(each)
    }

    /// The files of a group.
    pub fn group(&self, number: usize, each: usize) -> Range<usize> {
        number * each..self.len().min((number + 1) * each)
    }
}

/// The order of two names.
fn in_order(names: &[u8], a: Place, b: Place) -> Ordering {
    let by_number = match (a.number, b.number) {
        (Some(first), Some(second)) => first.cmp(&second),
        (first, second) => second.is_some().cmp(&first.is_some()),
    };
    by_number.then_with(|| name_at(names, a).cmp(name_at(names, b)))
}

fn name_at(names: &[u8], place: Place) -> &[u8] {
    &names[place.start..place.start + usize::from(place.length)]
}

/// The last number in a name, what follows the last dot left out, if it can be
/// a key.
fn number_in(name: &[u8]) -> Option<u32> {
    let stem = match name.iter().rposition(|&byte| byte == b'.') {
        Some(dot) if dot > 0 => &name[..dot],
        _ => name,
    };
    let end = stem.iter().rposition(u8::is_ascii_digit)? + 1;
    let other = stem[..end].iter().rposition(|byte| !byte.is_ascii_digit());
    let digits = &stem[other.map_or(0, |other| other + 1)..end];
    digits.iter().try_fold(0u32, |number, digit| {
        number.checked_mul(10)?.checked_add(u32::from(digit - b'0'))
    })
}

#[cfg(test)]
mod tests {
    use super::{in_order, number_in, Archive, Keys};
    use crate::failure::Failure;
    use std::path::PathBuf;

    fn archive(names: &[&str], keys: Keys) -> Archive {
        let mut archive = Archive {
            directory: PathBuf::new(),
            names: Vec::new(),
            places: Vec::new(),
            keys,
        };
        names.iter().for_each(|name| archive.push(name.as_bytes()));
        let Archive { names, places, .. } = &mut archive;
        places.sort_unstable_by(|a, b| in_order(names, *a, *b));
        archive
    }

    #[test]
    fn the_last_number_of_a_name() {
        let due = [
            ("line-000123.old", Some(123)),
            ("12", Some(12)),
            ("2026-sheet-7", Some(7)),
            ("7.chunk3", Some(7)),
            ("a7b.old", Some(7)),
            (".7", Some(7)),
            ("4294967295.old", Some(u32::MAX)),
            ("4294967296.old", None),
            ("hedge.old", None),
            ("hedge.7", None),
            ("", None),
        ];
        for (name, number) in due {
            assert_eq!(number_in(name.as_bytes()), number, "{name}");
        }
    }

    #[test]
    fn files_in_order_with_their_keys() {
        let named = archive(&["b.old", "10.old", "9.old", "a.old", "09.old"], Keys::Name);
        let names: Vec<_> = (0..named.len()).map(|file| named.name(file)).collect();
        assert_eq!(names, ["09.old", "9.old", "10.old", "a.old", "b.old"]);
        assert_eq!(named.key(0).unwrap(), 9);
        assert!(matches!(named.key(1), Err(Failure::NumberTwice(9))));
        assert_eq!(named.key(2).unwrap(), 10);
        assert!(matches!(named.key(3), Err(Failure::NoNumber)));
        let running = archive(&["b.old", "10.old", "9.old"], Keys::Running);
        let names: Vec<_> = (0..3).map(|file| running.name(file)).collect();
        assert_eq!(names, ["10.old", "9.old", "b.old"]);
        assert_eq!([0, 1, 2].map(|file| running.key(file).unwrap()), [0, 1, 2]);
    }

    #[test]
    fn groups_hold_each_file_once() {
        let five = archive(&["1", "2", "3", "4", "5"], Keys::Name);
        assert_eq!(five.groups(2), 3);
        let groups = [0, 1, 2].map(|group| five.group(group, 2));
        assert_eq!(groups, [0..2, 2..4, 4..5]);
        assert_eq!(archive(&[], Keys::Name).groups(2), 0);
    }
}
