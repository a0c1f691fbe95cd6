//! What the files of seeds must hold, for a comparison by them to say something.

use super::printed;
use super::sections::Sections;
use crate::gate::FILE_SEEDS;
use crate::generate::files::{file, kinds, File};
use crate::raster::Raster;
use crate::refusal::Refusal;
use std::collections::BTreeSet;
use std::sync::OnceLock;

/// A file of so many bytes is big.
const BIG: usize = 300_000;

fn files() -> &'static [File] {
    static FILES: OnceLock<Vec<File>> = OnceLock::new();
    FILES.get_or_init(|| (1..=FILE_SEEDS).map(file).collect())
}

/// What is printed for each file.
fn outputs() -> &'static [String] {
    static OUTPUTS: OnceLock<Vec<String>> = OnceLock::new();
    OUTPUTS.get_or_init(|| files().iter().map(|file| printed(&*file.bytes)).collect())
}

/// Where and with which number a file is refused.
type Refused = (&'static str, u32);
/// A job's raster and words.
type Job = (Raster, Vec<u16>);

/// A job if there is one, or in which section it is refused.
fn read_job(sections: &mut Sections<&[u8]>) -> Result<Option<Job>, Refused> {
    let at = |section| move |refusal: Refusal| (section, refusal.number());
    if sections.tag().map_err(at("tag"))?.is_none() {
        return Ok(None);
    }
    let raster = sections.raster().map_err(at("options"))?;
    let words = sections.words().map_err(at("words"))?;
    Ok(Some((raster, words)))
}

/// The jobs of a file before its end or its refusal, and the section and number of that.
fn read_file(file: &[u8]) -> (Vec<Job>, Option<Refused>) {
    let mut sections = Sections::of(file);
    let mut jobs = Vec::new();
    loop {
        match read_job(&mut sections) {
            Ok(Some(job)) => jobs.push(job),
            Ok(None) => return (jobs, None),
            Err(refused) => return (jobs, Some(refused)),
        }
    }
}

/// The jobs of small files, also of seeds that the gate has not.
pub fn small_jobs() -> impl Iterator<Item = Job> {
    let files = (1..=2 * FILE_SEEDS).map(|seed| file(seed).bytes);
    let small = files.filter(|file| file.len() < BIG);
    small.flat_map(|file| read_file(&file).0)
}

#[test]
fn most_files_are_small() {
    let mut sizes: Vec<usize> = files().iter().map(|file| file.bytes.len()).collect();
    sizes.sort_unstable();
    assert!(sizes[sizes.len() / 2] < 30_000);
    let big = sizes.iter().filter(|&&size| size >= BIG);
    assert!((1..=10).contains(&big.count()));
}

#[test]
fn every_kind_comes() {
    for kind in kinds() {
        let mut files = files().iter();
        assert!(files.any(|file| file.kinds.contains(&kind)), "{kind}");
    }
}

#[test]
fn every_verdict_and_every_raster_comes() {
    let lines = || outputs().iter().flat_map(|output| output.lines());
    for verdict in ["NO SIGNAL", "FAIL", "SHORT", "PASS"] {
        assert!(lines().any(|line| line.ends_with(verdict)), "{verdict}");
    }
    for raster in 1..=11 {
        let counted = format!(" raster {raster} rows ");
        let counted = lines().filter(|line| line.contains(&counted));
        assert!(counted.count() > 9, "{raster}");
    }
}

#[test]
fn every_section_is_refused_with_each_of_its_numbers() {
    let read = files().iter().map(|file| read_file(&file.bytes));
    let read: Vec<_> = read.map(|(jobs, refused)| (jobs.len(), refused)).collect();
    let refused = read.iter().filter_map(|(_, refused)| *refused);
    let refused: BTreeSet<_> = refused
        .map(|(section, number)| format!("{section} {number}"))
        .collect();
    let all = ["options 4", "options 9", "tag 9", "words 3", "words 9"];
    assert_eq!(refused, all.map(String::from).into());
    // With lines before it and without; and files without any.
    for expected in [(false, false), (false, true), (true, false), (true, true)] {
        let found = |(jobs, refused): &(usize, Option<_>)| (*jobs > 0, refused.is_some());
        assert!(read.iter().any(|file| found(file) == expected));
    }
}
