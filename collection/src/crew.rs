//! Many jobs looked at by several threads, and the findings in the order of the jobs.

use std::collections::BTreeMap;
use std::path::PathBuf;
use std::sync::atomic::{AtomicUsize, Ordering};
use std::sync::mpsc::{self, Receiver, Sender};
use std::thread;

use crate::buffers::Buffers;
use crate::finding::Finding;
use crate::look::{look, Task};
use crate::signals;

/// Looks at the jobs, and hands each finding on, in order, as soon as all before it are there. After an interrupt no
/// further job is begun: then fewer findings come.
pub fn look_at_all(jobs: &[PathBuf], task: Task, threads: usize, found: impl FnMut(Finding)) {
    let next = AtomicUsize::new(0);
    let work = |sender: Sender<(usize, Finding)>| {
        let mut buffers = Buffers::default();
        while !signals::interrupted() {
            let number = next.fetch_add(1, Ordering::Relaxed);
            let Some(job) = jobs.get(number) else { return };
            // Whoever receives is there until all have been sent.
            let _ = sender.send((number, look(job, task, &mut buffers)));
        }
    };
    let (sender, receiver) = mpsc::channel();
    thread::scope(|scope| {
        let start = |_: &usize| {
            let (work, sender) = (&work, sender.clone());
            thread::Builder::new().spawn_scoped(scope, move || work(sender)).is_ok()
        };
        // Where no further thread can be had, those that are there do the work.
        let started = (0..threads.min(jobs.len())).take_while(start).count();
        match started {
            0 => work(sender),
            _ => drop(sender),
        }
        in_order(receiver, found);
    });
}

fn in_order(receiver: Receiver<(usize, Finding)>, mut found: impl FnMut(Finding)) {
    let mut waiting = BTreeMap::new();
    let mut due = 0;
    for (number, finding) in receiver {
        waiting.insert(number, finding);
        while let Some(finding) = waiting.remove(&due) {
            found(finding);
            due += 1;
        }
    }
}
