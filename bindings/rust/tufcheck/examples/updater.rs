//! An updater that fetches from a folder: updater ROOT STATE REPOSITORY SECONDS OUT PATH..
//!
//! ROOT is the first root file, which is trusted. STATE is the file of the trusted state, which is
//! made of ROOT if there is no file of its name. REPOSITORY has the folders metadata and targets.
//! SECONDS is the moment, or `now`. Each wanted target that is accepted is installed in the folder
//! OUT, under its path.
//!
//! The new state, and then each target, is written to STATE.new, flushed and renamed to its place.
//! So STATE and OUT are on one file system, STATE isn't below OUT, and one updater runs at a time.
//!
//! The status is that of the outcome, 3 for a usage error, or 4 if something else fails. Another
//! transport takes the place of `fetch`.

use std::fs::{self, File};
use std::io::{self, ErrorKind, Read, Write};
use std::path::{Path, PathBuf};
use std::time::{SystemTime, UNIX_EPOCH};
use std::{env, process};
use tufcheck::{fetch_all, Found, Job, Kind, Need, Place, Source, Verdict};

type Failure = Box<dyn std::error::Error>;

/// Whether a name may be opened below a folder: no part between its `/` is empty, `.` or `..`.
/// Whoever signs a delegated role writes names.
fn is_below(name: &str) -> bool {
    !name.contains('\0') && name.split('/').all(|part| !matches!(part, "" | "." | ".."))
}

/// The trusted state: that of the file, or that of the first root if there is no file of its name.
/// Any other error ends the updater: it would forget what was trusted.
fn state_of(root: &str, place: &str) -> Result<Vec<u8>, Failure> {
    match fs::symlink_metadata(place) {
        Err(error) if error.kind() == ErrorKind::NotFound => Ok(tufcheck::first(&fs::read(root)?)?),
        _ => Ok(fs::read(place)?),
    }
}

/// Replaces a file as a whole, by the file `new`. If something fails before the end, or the power
/// does, the file has its old bytes or the new ones.
fn replace(new: &str, place: &Path, bytes: &[u8]) -> io::Result<()> {
    let written = || {
        let mut file = File::create(new)?;
        file.write_all(bytes)?;
        file.sync_all()?;
        fs::rename(new, place)
    };
    written().inspect_err(|_| drop(fs::remove_file(new)))?;
    let folder = place.parent().filter(|folder| folder != &Path::new(""));
    File::open(folder.unwrap_or(Path::new(".")))?.sync_all()
}

/// Fetches a file of the repository. Returns None if there is none, or if it can't be read.
fn fetch(repository: &str, need: &Need) -> Option<Found> {
    let folder = match need.place {
        Place::Metadata => "metadata",
        Place::Targets => "targets",
        _ => return None,
    };
    if !is_below(&need.name) {
        return None;
    }
    let mut bytes = Vec::new();
    // One byte more than it may have, by which the library sees that it is too long.
    let read = File::open(Path::new(repository).join(folder).join(&need.name))
        .and_then(|file| file.take(need.most.saturating_add(1)).read_to_end(&mut bytes));
    match read {
        Ok(_) => {
            println!("fetched {:?}", need.name);
            return Some(Found::Bytes(bytes));
        }
        Err(error) if error.kind() == ErrorKind::NotFound => {}
        Err(error) => eprintln!("updater: {:?}: {error}", need.name),
    }
    None
}

/// Installs the file that was verified for an accepted path. This updater has no digests, so it is
/// one of the targets.
fn install(job: &Job, verdict: &Verdict, new: &str, place: PathBuf) -> Result<(), Failure> {
    let Some(Source::Targets(at)) = verdict.file else { return Err("no verified file".into()) };
    fs::create_dir_all(place.parent().ok_or("no folder")?)?;
    Ok(replace(new, &place, job.targets[at].1)?)
}

/// Verifies the job, keeps its state and installs what is accepted. Returns the status.
fn verify(job: &Job, place: &str, out: &str) -> Result<i32, Failure> {
    let (outcome, new) = (job.verify()?, format!("{place}.new"));
    replace(&new, Path::new(place), &outcome.state)?;
    println!("root {} {:?} {:?}", outcome.root_version, outcome.end, outcome.fault);
    for (path, verdict) in job.wanted.iter().zip(&outcome.verdicts) {
        println!("{path:?}: {verdict:?}");
        if verdict.kind == Kind::Accepted {
            install(job, verdict, &new, Path::new(out).join(path))?;
        }
    }
    Ok(outcome.status as i32)
}

fn update(words: &[&str], moment: u64) -> Result<i32, Failure> {
    let [root, place, repository, _, out, wanted @ ..] = words else { return Ok(3) };
    let state = state_of(root, place)?;
    let job = Job::new(&state, wanted, moment);
    let fetched = fetch_all(&job, |need| Ok::<_, Failure>(fetch(repository, need)))?;
    fetched.with(&job, |job| verify(job, place, out))
}

fn main() {
    let words: Vec<String> = env::args().skip(1).collect();
    let words: Vec<&str> = words.iter().map(String::as_str).collect();
    let moment = match words.get(3) {
        Some(&"now") => SystemTime::now().duration_since(UNIX_EPOCH).ok().map(|it| it.as_secs()),
        seconds => seconds.and_then(|text| text.parse().ok()),
    };
    let status = match moment {
        Some(moment) if words.len() > 5 && words[5..].iter().all(|path| is_below(path)) => {
            update(&words, moment).unwrap_or_else(|error| {
                eprintln!("updater: {error}");
                4
            })
        }
        _ => {
            eprintln!("usage: updater ROOT STATE REPOSITORY SECONDS OUT PATH..");
            3
        }
    };
    process::exit(status)
}
