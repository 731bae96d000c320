//! Fetching what a job needs.

use crate::{Digests, Error, Job, Need, Place};
use std::collections::HashSet;

/// A target file that isn't in memory: its length in bytes and the digests of its bytes.
#[derive(Clone, Copy, Debug, Default, PartialEq, Eq)]
pub struct Measured {
    pub length: u64,
    pub sha256: Option<[u8; 32]>,
    pub sha512: Option<[u8; 64]>,
}

/// What a caller fetched.
#[derive(Clone, Debug, PartialEq, Eq)]
pub enum Found {
    /// The bytes of a file.
    Bytes(Vec<u8>),
    /// A target file by its digests. A metadata file counts as absent by them.
    Digests(Measured),
}

/// The files that [`fetch_all`] got, each with its name.
#[derive(Clone, Debug, Default, PartialEq, Eq)]
#[non_exhaustive]
pub struct Fetched {
    pub metadata: Vec<(String, Vec<u8>)>,
    pub targets: Vec<(String, Vec<u8>)>,
    pub digests: Vec<(String, Measured)>,
    /// The files that are needed and weren't found.
    pub absent: Vec<Need>,
}

impl Fetched {
    /// Calls with the job that has these files after its own ones. A [`Source`](crate::Source) of
    /// the outcome is an index in that job.
    pub fn with<T>(&self, job: &Job<'_>, call: impl FnOnce(&Job<'_>) -> T) -> T {
        let digests: Vec<Digests<'_>> = self
            .digests
            .iter()
            .map(|(name, file)| Digests {
                name,
                length: file.length,
                sha256: file.sha256,
                sha512: file.sha512,
            })
            .collect();
        call(&Job {
            metadata: &joined(job.metadata, &self.metadata),
            targets: &joined(job.targets, &self.targets),
            digests: &[job.digests, &digests].concat(),
            ..*job
        })
    }

    fn add(&mut self, need: Need, found: Found) {
        match (need.place, found) {
            (Place::Metadata, Found::Bytes(bytes)) => self.metadata.push((need.name, bytes)),
            (Place::Targets, Found::Bytes(bytes)) => self.targets.push((need.name, bytes)),
            (Place::Targets, Found::Digests(file)) => self.digests.push((need.name, file)),
            _ => {}
        }
    }
}

fn joined<'a>(
    own: &[(&'a str, &'a [u8])],
    more: &'a [(String, Vec<u8>)],
) -> Vec<(&'a str, &'a [u8])> {
    let more = more.iter().map(|(name, bytes)| (name.as_str(), bytes.as_slice()));
    own.iter().copied().chain(more).collect()
}

/// Fetches until `fetch` has no file that the job still needs, and returns the files. Calls `fetch`
/// once for each name; it returns `None` if there is no such file, and its error ends this call, as
/// one of [`Job::next`] does.
pub fn fetch_all<E: From<Error>>(
    job: &Job<'_>,
    mut fetch: impl FnMut(&Need) -> Result<Option<Found>, E>,
) -> Result<Fetched, E> {
    let mut fetched = Fetched::default();
    let mut asked = HashSet::new();
    loop {
        let needs = fetched.with(job, |job| job.next())?.files;
        let new = needs.iter().filter(|need| !asked.contains(&(need.place, need.name.clone())));
        let (optional, others): (Vec<Need>, Vec<Need>) =
            new.cloned().partition(|need| need.optional);
        // With an optional file, others may no longer be needed.
        let now = if optional.is_empty() { others } else { optional };
        if now.is_empty() {
            fetched.absent = needs;
            return Ok(fetched);
        }
        for need in now {
            asked.insert((need.place, need.name.clone()));
            if let Some(found) = fetch(&need)? {
                fetched.add(need, found);
            }
        }
    }
}
