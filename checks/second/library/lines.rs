//! Does in Rust what lines.c does in C: lines STATE METADATA TARGETS SECONDS LIMIT OUT PATH..
//!
//! The outcome must be the same after `fetch_all` into an empty job, and with the digests of accepted
//! files; if it isn't, the status is 5.

use std::fmt::{Display, Write};
use std::path::Path;
use std::{env, fs, process};
use tufcheck::{
    fetch_all, show, Digests, Fault, Found, Job, Kind, Need, Outcome, Place, Source, Verdict,
};

type Failure = Box<dyn std::error::Error>;
type Files = Vec<(String, Vec<u8>)>;

fn read_below(folder: &Path, name: &str, all: &mut Files) -> Result<(), Failure> {
    for entry in fs::read_dir(folder)? {
        let entry = entry?;
        let own = format!("{name}{}", entry.file_name().to_str().ok_or("a name")?);
        if entry.file_type()?.is_dir() {
            read_below(&entry.path(), &format!("{own}/"), all)?;
        } else {
            all.push((own, fs::read(entry.path())?));
        }
    }
    Ok(())
}

fn lent(files: &Files) -> Vec<(&str, &[u8])> {
    files.iter().map(|(name, bytes)| (name.as_str(), bytes.as_slice())).collect()
}

fn quoted(name: &str) -> String {
    let mut out = String::from("\"");
    for byte in name.bytes() {
        match byte {
            b'"' | b'\\' => write!(out, "\\x{byte:02x}").unwrap(),
            0x20..=0x7e => out.push(byte.into()),
            _ => write!(out, "\\x{byte:02x}").unwrap(),
        }
    }
    out + "\""
}

/// The fault's text, also if there is none.
fn text(fault: Option<Fault>) -> String {
    fault.map_or("no fault".into(), |fault| fault.to_string())
}

fn hex(digest: Option<&[u8]>) -> String {
    digest.map_or("-".into(), |bytes| bytes.iter().map(|it| format!("{it:02x}")).collect())
}

fn fault_word(fault: Option<Fault>) -> String {
    fault.map_or(String::new(), |fault| format!(" {fault:?}"))
}

fn verdict_line(path: &str, row: &Verdict) -> String {
    let (path, role) = (quoted(path), quoted(&row.role));
    match row.kind {
        Kind::Accepted => format!("ok {path} {} {role}", row.length),
        Kind::RoleRefused => format!("no {path}{} {role}", fault_word(row.fault)),
        Kind::FileRefused => format!("no {path}{}", fault_word(row.fault)),
        kind => format!("no {path} {kind:?}"),
    }
}

fn print_all(job: &Job, outcome: &Outcome) {
    println!("root {}", outcome.root_version);
    let end = format!("{:?}", outcome.end).to_lowercase();
    println!("end {end}{}", fault_word(outcome.fault));
    for (name, version) in &outcome.roles {
        println!("role {} {version}", quoted(name));
    }
    for (path, row) in job.wanted.iter().zip(&outcome.verdicts) {
        println!("{}", verdict_line(path, row));
    }
}

fn cycle(call: &str, status: i32, end: impl Display, fault: Option<Fault>, root: u64) -> String {
    format!("{call}: {status}, {end}, {}, {root}\n", text(fault))
}

fn listed(job: &Job) -> Result<String, Failure> {
    let listing = job.list()?;
    let mut out =
        cycle("list", listing.status as i32, listing.end, listing.fault, listing.root_version);
    for (path, row) in job.wanted.iter().zip(&listing.listed) {
        let (role, name) = (quoted(&row.role), quoted(&row.name));
        let (low, high) = (hex(row.sha256.as_ref().map(|it| &it[..])), hex(row.sha512.as_ref().map(|it| &it[..])));
        let (path, fault) = (quoted(path), text(row.fault));
        writeln!(out, "{path} {}, {fault}, {} {role}{name} {low} {high}", row.kind, row.length)?;
    }
    Ok(out)
}

fn needed(job: &Job) -> Result<String, Failure> {
    let needs = job.next()?;
    let mut out = cycle("next", needs.status as i32, needs.end, needs.fault, needs.root_version);
    for row in &needs.files {
        let name = quoted(&row.name);
        writeln!(out, "{} {name} {} {}", row.place, row.most, i32::from(row.optional))?;
    }
    Ok(out)
}

/// A line for each file that a state trusts.
fn trusted(state: &[u8]) -> Result<String, Failure> {
    let (it, mut out) = (show(state)?, String::new());
    let rows = [
        ("root", Some(it.root)),
        ("timestamp", it.timestamp),
        ("snapshot", it.snapshot),
        ("targets", it.targets),
    ];
    for (name, row) in rows {
        if let Some(row) = row {
            writeln!(out, "{name} {} {}", row.version, row.expires)?;
        }
    }
    Ok(out)
}

/// The outcome with the name of each verified file.
fn named(job: &Job) -> Result<(Outcome, Vec<Option<String>>), Failure> {
    let mut outcome = job.verify()?;
    let mut names = Vec::new();
    for row in &mut outcome.verdicts {
        names.push(match row.file.take() {
            Some(Source::Targets(at)) => Some(job.targets[at].0.to_string()),
            Some(Source::Digests(at)) => Some(job.digests[at].name.to_string()),
            None => None,
            other => return Err(format!("{other:?}").into()),
        });
    }
    Ok((outcome, names))
}

/// The job's outcome, with each accepted file given by its listed digests in place of its bytes.
fn by_digests(job: &Job) -> Result<(Outcome, Vec<Option<String>>), Failure> {
    let (outcome, listing, mut digests) = (job.verify()?, job.list()?, Vec::new());
    for (verdict, row) in outcome.verdicts.iter().zip(&listing.listed) {
        if let (Kind::Accepted, Some(Source::Targets(at))) = (verdict.kind, verdict.file) {
            let (name, length) = (job.targets[at].0, verdict.length);
            digests.push(Digests { name, length, sha256: row.sha256, sha512: row.sha512 });
        }
    }
    named(&Job { digests: &digests, ..*job })
}

fn update(words: &[&str]) -> Result<i32, Failure> {
    let [state, metadata, targets, seconds, limit, out, wanted @ ..] = words else { return Ok(3) };
    let (state, mut folders) = (fs::read(state)?, [Files::new(), Files::new()]);
    read_below(Path::new(metadata), "", &mut folders[0])?;
    read_below(Path::new(targets), "", &mut folders[1])?;
    let empty = Job { limit: limit.parse()?, ..Job::new(&state, wanted, seconds.parse()?) };
    let (metadata, targets) = (lent(&folders[0]), lent(&folders[1]));
    let bare = Job { metadata: &metadata, ..empty };
    let job = Job { targets: &targets, ..bare };
    let outcome = job.verify()?;
    print_all(&job, &outcome);
    fs::write(out, &outcome.state)?;
    let more = listed(&job)? + &needed(&job)? + &needed(&bare)? + &trusted(&state)?;
    fs::write(format!("{out}.more"), more + &trusted(&outcome.state)?)?;
    let found = |need: &Need| {
        let files = &folders[if need.place == Place::Metadata { 0 } else { 1 }];
        files.iter().find(|(name, _)| *name == need.name).map(|(_, bytes)| bytes.clone())
    };
    let fetched =
        fetch_all(&empty, |need| Ok::<_, Failure>(found(need).map(Found::Bytes)))?;
    let whole = named(&job)?;
    let same = fetched.with(&empty, named)? == whole && by_digests(&job)? == whole;
    Ok(if same { outcome.status as i32 } else { 5 })
}

fn main() {
    let words: Vec<String> = env::args().skip(1).collect();
    let words: Vec<&str> = words.iter().map(String::as_str).collect();
    process::exit(update(&words).unwrap_or_else(|error| {
        eprintln!("lines: {error}");
        4
    }))
}
