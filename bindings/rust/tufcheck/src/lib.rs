//! Verifies a repository of The Update Framework, by the C library libtufcheck.
//!
//! An updater keeps a trusted state, which begins with [`first`]. For each update it makes a
//! [`Job`], fetches what the job needs by [`fetch_all`], and calls [`Job::verify`]. What the caller
//! owes, and what is proved of the library's calls, is in its page EMBEDDING. A call needs a stack
//! of 256 KB.
//!
//! The library is linked as `tufcheck-sys` says, by the feature `static` into the program.
//!
//! A library of the same first version number may have numbers that this crate doesn't know. They
//! are `Unknown`, and none of them means that a target is accepted.

use std::error;
use std::ffi::CStr;
use std::fmt;
use std::mem::size_of;
use tufcheck_sys as c;

mod fetch;

pub use fetch::{fetch_all, Fetched, Found, Measured};

/// Why a call failed.
#[derive(Clone, Copy, Debug, PartialEq, Eq)]
#[non_exhaustive]
pub enum Error {
    /// Out of memory.
    Memory,
    /// The state, or the first root, isn't one.
    State,
    /// The moment is past the year 9999.
    Moment,
    /// The limit isn't 1 to 256.
    Limit,
    /// The library has another first version number than this crate.
    Version,
    /// The library returned a result that this crate doesn't know.
    Unknown(i32),
}

impl fmt::Display for Error {
    fn fmt(&self, f: &mut fmt::Formatter<'_>) -> fmt::Result {
        f.write_str(match self {
            Error::Memory => "out of memory",
            Error::State => "not a trusted state",
            Error::Moment => "a moment past the year 9999",
            Error::Limit => "a limit that is not 1 to 256",
            Error::Version => "a library of another version",
            Error::Unknown(result) => return write!(f, "an unknown result {result}"),
        })
    }
}

impl error::Error for Error {}

/// The result of a call.
#[derive(Clone, Copy, Debug, PartialEq, Eq)]
#[non_exhaustive]
pub enum Status {
    /// The cycle is ready, and every wanted target is accepted.
    Good,
    /// The cycle is ready, and some wanted target is refused.
    Refused,
    /// The cycle stopped.
    Stopped,
}

/// Declares a family of numbers of the library, both ways, with the library's text of each.
macro_rules! numbers {
    ($(#[$about:meta])* $name:ident: $($(#[$what:meta])* $number:literal $variant:ident,)*) => {
        $(#[$about])*
        #[derive(Clone, Copy, Debug, PartialEq, Eq, Hash)]
        #[non_exhaustive]
        pub enum $name {
            $($(#[$what])* $variant,)*
            /// A number that this crate doesn't know.
            Unknown(u32),
        }

        impl $name {
            fn of(number: u32) -> $name {
                match number {
                    $($number => $name::$variant,)*
                    _ => $name::Unknown(number),
                }
            }

            fn number(self) -> u32 {
                match self {
                    $($name::$variant => $number,)*
                    $name::Unknown(number) => number,
                }
            }
        }

        impl fmt::Display for $name {
            fn fmt(&self, f: &mut fmt::Formatter<'_>) -> fmt::Result {
                write_text(self.number(), f)
            }
        }
    };
}

numbers! {
    /// How a cycle ends: ready, or the step at which it stopped.
    End:
    33 Ready,
    34 Root,
    35 Timestamp,
    36 Snapshot,
    37 Targets,
}

numbers! {
    /// Why a file is refused: the first check that it fails.
    Fault:
    65 NotListed,
    66 Missing,
    67 TooLong,
    68 LengthWrong,
    69 HashWrong,
    70 NoKnownHash,
    71 Malformed,
    72 Unsigned,
    73 VersionWrong,
    74 Rollback,
    75 Expired,
}

numbers! {
    /// The kind of a verdict, or of a row of a listing.
    Kind:
    /// The file has the length and the digests that a role lists.
    17 Accepted,
    /// No role lists the path.
    18 NotFound,
    /// The search would visit more roles than the limit.
    19 LimitReached,
    /// The search came to a role whose own file is refused.
    20 RoleRefused,
    /// A role lists the path, but its file is refused.
    21 FileRefused,
    /// The cycle stopped before any search.
    22 NotSearched,
    /// In a listing: a role lists the path.
    23 Listed,
}

numbers! {
    /// Where a file belongs that is to be fetched.
    Place:
    49 Metadata,
    50 Targets,
}

/// A target file by its length in bytes and the digests of its bytes. Those that are listed are
/// needed: [`Job::list`] says which.
#[derive(Clone, Copy, Debug)]
pub struct Digests<'a> {
    pub name: &'a str,
    pub length: u64,
    pub sha256: Option<[u8; 32]>,
    pub sha512: Option<[u8; 64]>,
}

/// A file of the job, by its index.
#[derive(Clone, Copy, Debug, PartialEq, Eq)]
#[non_exhaustive]
pub enum Source {
    /// In [`Job::targets`].
    Targets(usize),
    /// In [`Job::digests`].
    Digests(usize),
    /// A list that this crate doesn't know.
    Unknown(u32),
}

/// The input of a call. Of all files with one name the last counts, and one of `digests` counts
/// after one of `targets`. The moment is in seconds after 1970-01-01T00:00:00Z, and the limit is the
/// maximum number of roles that a search visits.
#[derive(Clone, Copy, Debug)]
pub struct Job<'a> {
    pub state: &'a [u8],
    pub metadata: &'a [(&'a str, &'a [u8])],
    pub targets: &'a [(&'a str, &'a [u8])],
    pub digests: &'a [Digests<'a>],
    pub wanted: &'a [&'a str],
    pub moment: u64,
    pub limit: usize,
}

/// The verdict of a wanted path.
#[derive(Clone, Debug, PartialEq, Eq)]
#[non_exhaustive]
pub struct Verdict {
    pub kind: Kind,
    /// Why a file is refused.
    pub fault: Option<Fault>,
    /// The length of an accepted file in bytes, or 0.
    pub length: u64,
    /// The role that lists the accepted file, or whose own file is refused, or no name.
    pub role: String,
    /// The file that was checked. Install no other one.
    pub file: Option<Source>,
}

/// The outcome of a cycle. Keep `state` whatever the status is.
#[derive(Clone, Debug, PartialEq, Eq)]
#[non_exhaustive]
pub struct Outcome {
    pub status: Status,
    pub end: End,
    /// Why the cycle stopped.
    pub fault: Option<Fault>,
    pub root_version: u64,
    /// The text of the new trusted state.
    pub state: Vec<u8>,
    /// A verdict for each wanted path, by position.
    pub verdicts: Vec<Verdict>,
    /// The name and version of each delegated role that was accepted.
    pub roles: Vec<(String, u64)>,
}

/// What a role lists of a path.
#[derive(Clone, Debug, PartialEq, Eq)]
#[non_exhaustive]
pub struct Listed {
    /// [`Kind::Listed`], or why no role lists the path.
    pub kind: Kind,
    pub fault: Option<Fault>,
    pub length: u64,
    pub role: String,
    /// The first name under which the file is looked up, or no name.
    pub name: String,
    pub sha256: Option<[u8; 32]>,
    pub sha512: Option<[u8; 64]>,
}

/// What roles list of the wanted paths: good if all are listed, refused if some is not.
#[derive(Clone, Debug, PartialEq, Eq)]
#[non_exhaustive]
pub struct Listing {
    pub status: Status,
    pub end: End,
    pub fault: Option<Fault>,
    pub root_version: u64,
    pub state: Vec<u8>,
    /// By position.
    pub listed: Vec<Listed>,
}

/// A file to fetch. A caller that opens files must refuse names that lead out of its folder.
#[derive(Clone, Debug, PartialEq, Eq)]
#[non_exhaustive]
pub struct Need {
    pub place: Place,
    pub name: String,
    /// Fetch no more bytes than that: a longer file is refused.
    pub most: u64,
    /// Whether the file may be absent for good: the root of the next version, and a target's file
    /// under a name that isn't its last. With one of these, others may no longer be needed.
    pub optional: bool,
}

/// The files that the workflow looked up and didn't find: refused if some isn't optional, else
/// stopped if the cycle stopped, else good.
#[derive(Clone, Debug, PartialEq, Eq)]
#[non_exhaustive]
pub struct Needs {
    pub status: Status,
    pub end: End,
    pub fault: Option<Fault>,
    pub root_version: u64,
    pub files: Vec<Need>,
}

/// A file that a state trusts.
#[derive(Clone, Copy, Debug, PartialEq, Eq)]
#[non_exhaustive]
pub struct TrustedFile {
    pub version: u64,
    /// The moment at which it expires, in seconds after 1970-01-01T00:00:00Z, below 0 before that.
    pub expires: i64,
}

/// What a state trusts: its top-level files.
#[derive(Clone, Copy, Debug, PartialEq, Eq)]
#[non_exhaustive]
pub struct Trusted {
    pub root: TrustedFile,
    pub timestamp: Option<TrustedFile>,
    pub snapshot: Option<TrustedFile>,
    pub targets: Option<TrustedFile>,
}

/// The version of the library, as 1,000,000 for 1.0.0.
pub fn version() -> u32 {
    unsafe { c::tufcheck_version() }
}

/// Returns the text of the state of a first root file, which the caller trusts. Fails with `State`,
/// `Memory` or `Version`.
pub fn first(root: &[u8]) -> Result<Vec<u8>, Error> {
    same_version(version())?;
    let mut len = 2 * root.len() + 64;
    loop {
        let mut state = vec![0; len];
        let result = unsafe {
            c::tufcheck_first(
                root.as_ptr(),
                root.len(),
                state.as_mut_ptr(),
                state.len(),
                &mut len,
            )
        };
        if status_of(result)?.is_some() {
            state.truncate(len);
            return Ok(state);
        }
    }
}

/// Returns which files a state trusts, and when each expires. It checks no signature and no moment.
/// Fails with `State`, `Memory` or `Version`.
pub fn show(state: &[u8]) -> Result<Trusted, Error> {
    same_version(version())?;
    let mut trusted = c::Trusted { size: size_of::<c::Trusted>(), ..c::Trusted::default() };
    let result = unsafe { c::tufcheck_show(state.as_ptr(), state.len(), &mut trusted) };
    status_of(result)?.ok_or(Error::Unknown(result))?;
    Ok(Trusted {
        root: file_of(trusted.root),
        timestamp: trusted_of(trusted.timestamp),
        snapshot: trusted_of(trusted.snapshot),
        targets: trusted_of(trusted.targets),
    })
}

/// Returns whether an LMS signature of a message is valid for a public key of 56 bytes (RFC 8554).
/// Fails with `Version`.
pub fn lms_verify(key: &[u8], message: &[u8], signature: &[u8]) -> Result<bool, Error> {
    same_version(version())?;
    let result = unsafe {
        c::tufcheck_lms_verify(
            key.as_ptr(),
            key.len(),
            message.as_ptr(),
            message.len(),
            signature.as_ptr(),
            signature.len(),
        )
    };
    Ok(result == 1)
}

impl<'a> Job<'a> {
    /// Returns a job with no file, and a limit of 32.
    pub fn new(state: &'a [u8], wanted: &'a [&'a str], moment: u64) -> Job<'a> {
        Job { state, metadata: &[], targets: &[], digests: &[], wanted, moment, limit: 32 }
    }

    /// Runs one cycle of the client workflow. Fails with the first fault of the job, or `Memory`,
    /// or `Version`.
    pub fn verify(&self) -> Result<Outcome, Error> {
        let mut rooms = self.rooms(64);
        loop {
            let mut state = vec![0; rooms.state_len];
            let mut verdicts = vec![c::Verdict::default(); rooms.verdict_count];
            let mut roles = vec![c::Role::default(); rooms.role_count];
            let mut names = vec![0; rooms.name_len];
            let mut answer = c::Answer {
                size: size_of::<c::Answer>(),
                state: state.as_mut_ptr(),
                state_room: state.len(),
                verdicts: verdicts.as_mut_ptr(),
                verdict_room: verdicts.len(),
                roles: roles.as_mut_ptr(),
                role_room: roles.len(),
                names: names.as_mut_ptr(),
                name_room: names.len(),
                summary: c::Summary::default(),
            };
            let result = self.in_c(|job| unsafe { c::tufcheck_verify(job, &mut answer) })?;
            rooms = answer.summary;
            let Some(status) = status_of(result)? else {
                continue;
            };
            state.truncate(rooms.state_len);
            return Ok(Outcome {
                status,
                end: End::of(rooms.end),
                fault: fault_of(rooms.fault),
                root_version: rooms.root_version,
                state,
                verdicts: verdicts[..rooms.verdict_count]
                    .iter()
                    .map(|row| Verdict {
                        kind: Kind::of(row.kind),
                        fault: fault_of(row.fault),
                        length: row.length,
                        role: cut(&names, row.role_at, row.role_len),
                        file: source_of(row.source, row.file_at),
                    })
                    .collect(),
                roles: roles[..rooms.role_count]
                    .iter()
                    .map(|row| (cut(&names, row.name_at, row.name_len), row.version))
                    .collect(),
            });
        }
    }

    /// Returns what roles list of the wanted paths, without looking at target files.
    pub fn list(&self) -> Result<Listing, Error> {
        let none = c::Listed {
            kind: 0,
            fault: 0,
            length: 0,
            role_at: 0,
            role_len: 0,
            name_at: 0,
            name_len: 0,
            has_sha256: 0,
            has_sha512: 0,
            sha256: [0; 32],
            sha512: [0; 64],
            reserved: [0; 30],
        };
        let mut rooms = self.rooms(0);
        loop {
            let mut state = vec![0; rooms.state_len];
            let mut rows = vec![none; rooms.verdict_count];
            let mut names = vec![0; rooms.name_len];
            let mut listing = c::Listing {
                size: size_of::<c::Listing>(),
                state: state.as_mut_ptr(),
                state_room: state.len(),
                rows: rows.as_mut_ptr(),
                row_room: rows.len(),
                names: names.as_mut_ptr(),
                name_room: names.len(),
                summary: c::Summary::default(),
            };
            let result = self.in_c(|job| unsafe { c::tufcheck_list(job, &mut listing) })?;
            rooms = listing.summary;
            let Some(status) = status_of(result)? else {
                continue;
            };
            state.truncate(rooms.state_len);
            return Ok(Listing {
                status,
                end: End::of(rooms.end),
                fault: fault_of(rooms.fault),
                root_version: rooms.root_version,
                state,
                listed: rows[..rooms.verdict_count]
                    .iter()
                    .map(|row| Listed {
                        kind: Kind::of(row.kind),
                        fault: fault_of(row.fault),
                        length: row.length,
                        role: cut(&names, row.role_at, row.role_len),
                        name: cut(&names, row.name_at, row.name_len),
                        sha256: (row.has_sha256 == 1).then_some(row.sha256),
                        sha512: (row.has_sha512 == 1).then_some(row.sha512),
                    })
                    .collect(),
            });
        }
    }

    /// Returns the files to fetch next.
    pub fn next(&self) -> Result<Needs, Error> {
        let mut rooms = self.rooms(0);
        loop {
            let mut rows = vec![c::Need::default(); rooms.verdict_count];
            let mut names = vec![0; rooms.name_len];
            let mut needs = c::Needs {
                size: size_of::<c::Needs>(),
                rows: rows.as_mut_ptr(),
                row_room: rows.len(),
                names: names.as_mut_ptr(),
                name_room: names.len(),
                summary: c::Summary::default(),
            };
            let result = self.in_c(|job| unsafe { c::tufcheck_next(job, &mut needs) })?;
            rooms = needs.summary;
            let Some(status) = status_of(result)? else {
                continue;
            };
            return Ok(Needs {
                status,
                end: End::of(rooms.end),
                fault: fault_of(rooms.fault),
                root_version: rooms.root_version,
                files: rows[..rooms.verdict_count]
                    .iter()
                    .map(|row| Need {
                        place: Place::of(row.place),
                        name: cut(&names, row.name_at, row.name_len),
                        most: row.most,
                        optional: row.optional == 1,
                    })
                    .collect(),
            });
        }
    }

    /// A guess of how much room is needed.
    fn rooms(&self, roles: usize) -> c::Summary {
        let files: usize = self.metadata.iter().map(|(_, bytes)| bytes.len()).sum();
        c::Summary {
            state_len: self.state.len() + 2 * files + 64,
            verdict_count: self.wanted.len(),
            role_count: roles,
            name_len: 4096,
            ..c::Summary::default()
        }
    }

    /// Calls with the job in the layout of C, and returns the result.
    fn in_c(&self, call: impl FnOnce(*const c::Job) -> i32) -> Result<i32, Error> {
        same_version(version())?;
        let files = |all: &[(&str, &[u8])]| -> Vec<c::File> {
            all.iter()
                .map(|(name, data)| c::File {
                    name: bytes(name.as_bytes()),
                    bytes: bytes(data),
                })
                .collect()
        };
        let (metadata, targets) = (files(self.metadata), files(self.targets));
        let digests: Vec<c::Digests> = self
            .digests
            .iter()
            .map(|row| c::Digests {
                name: bytes(row.name.as_bytes()),
                length: row.length,
                has_sha256: row.sha256.is_some().into(),
                has_sha512: row.sha512.is_some().into(),
                sha256: row.sha256.unwrap_or([0; 32]),
                sha512: row.sha512.unwrap_or([0; 64]),
            })
            .collect();
        let wanted: Vec<c::Bytes> = self.wanted.iter().map(|path| bytes(path.as_bytes())).collect();
        Ok(call(&c::Job {
            size: size_of::<c::Job>(),
            state: bytes(self.state),
            metadata: metadata.as_ptr(),
            metadata_count: metadata.len(),
            targets: targets.as_ptr(),
            target_count: targets.len(),
            digests: digests.as_ptr(),
            digest_count: digests.len(),
            wanted: wanted.as_ptr(),
            wanted_count: wanted.len(),
            moment: self.moment,
            limit: self.limit,
        }))
    }
}

fn bytes(data: &[u8]) -> c::Bytes {
    c::Bytes {
        data: data.as_ptr(),
        len: data.len(),
    }
}

/// A name of the rows. Names are UTF-8, since JSON and wanted paths are.
fn cut(names: &[u8], at: usize, len: usize) -> String {
    String::from_utf8_lossy(&names[at..at + len]).into_owned()
}

/// Fails with `Version` if the library's version has another first number than this crate.
fn same_version(number: u32) -> Result<(), Error> {
    (number / 1_000_000 == 1).then_some(()).ok_or(Error::Version)
}

/// The status, or None if there was too little room. Texts of Rust are UTF-8, so no name fails.
fn status_of(result: i32) -> Result<Option<Status>, Error> {
    match result {
        0 => Ok(Some(Status::Good)),
        1 => Ok(Some(Status::Refused)),
        2 => Ok(Some(Status::Stopped)),
        -6 => Ok(None),
        -1 => Err(Error::Memory),
        -2 => Err(Error::State),
        -4 => Err(Error::Moment),
        -5 => Err(Error::Limit),
        _ => Err(Error::Unknown(result)),
    }
}

/// Writes the library's text of a number, with the number if it has none.
fn write_text(number: u32, f: &mut fmt::Formatter<'_>) -> fmt::Result {
    // The library's numbers are of C's int32_t, and the texts stay as long as it is loaded.
    let text = unsafe { CStr::from_ptr(c::tufcheck_text(number as i32)) }.to_string_lossy();
    f.write_str(&text)?;
    if text == "unknown number" { write!(f, " {number}") } else { Ok(()) }
}

fn fault_of(number: u32) -> Option<Fault> {
    (number != 0).then(|| Fault::of(number))
}

fn source_of(number: u32, at: usize) -> Option<Source> {
    Some(match number {
        0 => return None,
        81 => Source::Targets(at),
        82 => Source::Digests(at),
        _ => Source::Unknown(number),
    })
}

fn file_of(row: c::TrustedFile) -> TrustedFile {
    TrustedFile { version: row.version, expires: row.expires }
}

/// The file, or None if no such file is trusted.
fn trusted_of(row: c::TrustedFile) -> Option<TrustedFile> {
    (row.version != 0).then(|| file_of(row))
}

#[cfg(test)]
mod tests {
    use super::*;

    #[test]
    fn numbers_are_those_of_the_header() {
        assert_eq!([33, 34, 37].map(End::of), [End::Ready, End::Root, End::Targets]);
        assert_eq!([17, 22, 23].map(Kind::of), [Kind::Accepted, Kind::NotSearched, Kind::Listed]);
        assert_eq!([49, 50].map(Place::of), [Place::Metadata, Place::Targets]);
        assert_eq!([65, 75].map(fault_of), [Some(Fault::NotListed), Some(Fault::Expired)]);
        assert_eq!(fault_of(0), None);
        assert_eq!(source_of(81, 2), Some(Source::Targets(2)));
        assert_eq!(source_of(82, 3), Some(Source::Digests(3)));
        assert_eq!(source_of(0, 0), None);
        assert_eq!(status_of(0), Ok(Some(Status::Good)));
        assert_eq!(status_of(-6), Ok(None));
    }

    #[test]
    fn unknown_numbers_are_unknown() {
        for number in [0, 1, 2, 76, u32::MAX] {
            assert_eq!(End::of(number), End::Unknown(number));
            assert_eq!(Kind::of(number), Kind::Unknown(number));
            assert_eq!(Place::of(number), Place::Unknown(number));
        }
        for number in 0..=99 {
            assert_eq!(End::of(number).number(), number);
            assert_eq!(Kind::of(number).number(), number);
            assert_eq!(Place::of(number).number(), number);
            assert_eq!(Fault::of(number).number(), number);
        }
        assert_eq!(fault_of(76), Some(Fault::Unknown(76)));
        assert_eq!(source_of(83, 1), Some(Source::Unknown(83)));
        assert_eq!(fault_of(u32::MAX), Some(Fault::Unknown(u32::MAX)));
        for result in [3, -3, -7, i32::MIN, i32::MAX] {
            assert_eq!(status_of(result), Err(Error::Unknown(result)));
        }
    }

    #[test]
    fn a_file_of_version_0_is_not_trusted() {
        let row = c::TrustedFile { version: 2, expires: -1, reserved: [0; 2] };
        assert_eq!(trusted_of(row), Some(TrustedFile { version: 2, expires: -1 }));
        assert_eq!(trusted_of(c::TrustedFile::default()), None);
    }

    #[test]
    fn no_text_of_a_state_is_shown() {
        for text in [&b""[..], b"{}"] {
            assert_eq!(show(text), Err(Error::State));
        }
    }

    #[test]
    fn another_version_is_an_error() {
        assert_eq!(same_version(1_002_003), Ok(()));
        assert_eq!([0, 999_999, 2_000_000].map(same_version), [Err(Error::Version); 3]);
    }
}
