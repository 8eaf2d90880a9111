//! A collection planned, checked and filed: by one run of `floors`, and by the library's calls and the file system alone.

use std::fs::{self, File};
use std::io::{self, Write};
use std::path::{Path, PathBuf};
use std::process::Command;
use std::sync::atomic::{AtomicUsize, Ordering};
use std::thread;
use std::time::Instant;

use harness::gen::collection::collection;
use harness::model::answer::{is_refusal, unpack};
use harness::model::job::Job;
use harness::model::limits::{sheet_least, store_least};

use crate::table::least;

/// How many times as long `floors` takes, with one thread and with all cores.
pub struct Filed {
    pub jobs: usize,
    pub one: f64,
    pub all: f64,
}

struct Entry {
    sheet: PathBuf,
    text: Vec<u8>,
    store_len: usize,
    sheet_len: usize,
}

pub fn measure(program: &str, jobs: usize, rounds: usize) -> Filed {
    let folder = PathBuf::from(format!("target/collection-{}", std::process::id()));
    let entries = laid_out(&folder, jobs).expect("a collection in target/");
    let cores = thread::available_parallelism().map_or(1, usize::from);
    let ratio = |threads: usize| {
        let mut times: [Vec<f64>; 2] = Default::default();
        for _ in 0..rounds {
            times[0].push(timed(&entries, || by_floors(program, &folder, threads)));
            times[1].push(timed(&entries, || by_calls(&entries, threads)));
        }
        let [floors, calls] = times.map(|times| least(times.into_iter()));
        floors / calls
    };
    let (one, all) = (ratio(1), ratio(cores));
    fs::remove_dir_all(&folder).expect("a folder of ours");
    Filed { jobs, one, all }
}

/// Writes the jobs into folders, without sheets.
fn laid_out(folder: &Path, jobs: usize) -> io::Result<Vec<Entry>> {
    let mut entries = Vec::with_capacity(jobs);
    for entry in collection(jobs, 1) {
        let path = folder.join(entry.name);
        fs::create_dir_all(path.parent().expect("a folder"))?;
        let text = entry.job.text();
        fs::write(&path, &text)?;
        entries.push(of_job(&entry.job, text, path.with_extension("sheet")));
    }
    Ok(entries)
}

fn of_job(job: &Job, text: Vec<u8>, sheet: PathBuf) -> Entry {
    Entry { sheet, text, store_len: store_least(job), sheet_len: sheet_least(job) }
}

/// Seconds on the clock. Afterwards all sheets are gone again.
fn timed(entries: &[Entry], run: impl FnOnce()) -> f64 {
    let begun = Instant::now();
    run();
    let time = begun.elapsed().as_secs_f64();
    for entry in entries {
        fs::remove_file(&entry.sheet).expect("a sheet for each job");
    }
    time
}

fn by_floors(program: &str, folder: &Path, threads: usize) {
    let words = ["plan", "--quiet", "--jobs", &threads.to_string()];
    let ended = Command::new(program).args(words).arg(folder).status();
    assert!(ended.is_ok_and(|status| status.success()), "floors plan failed");
}

fn by_calls(entries: &[Entry], threads: usize) {
    let next = AtomicUsize::new(0);
    thread::scope(|scope| {
        for _ in 0..threads {
            scope.spawn(|| {
                let most = |len: fn(&Entry) -> usize| vec![0; entries.iter().map(len).max().unwrap_or(0)];
                let (mut store, mut sheet) = (most(|e| e.store_len), most(|e| e.sheet_len));
                while let Some(entry) = entries.get(next.fetch_add(1, Ordering::Relaxed)) {
                    planned_and_filed(entry, &mut store, &mut sheet).expect("a sheet that can be filed");
                }
            });
        }
    });
}

/// In the least buffers, which are known here.
fn planned_and_filed(entry: &Entry, store: &mut [u8], sheet: &mut [u8]) -> io::Result<()> {
    let store = &mut store[..entry.store_len];
    let (answer, len) = unpack(cartfloor::plan(&entry.text, store, &mut sheet[..entry.sheet_len]));
    let passed = unpack(cartfloor::check(&entry.text, store, &sheet[..len])).0;
    assert!(!is_refusal(answer) && passed == answer);
    let part = entry.sheet.with_extension("part");
    let mut file = File::create_new(&part)?;
    file.write_all(&sheet[..len])?;
    file.sync_all()?;
    fs::rename(part, &entry.sheet)
}
