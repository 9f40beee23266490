//! Files in parallel, and what each came to in the order of the files.
use super::findings::{Findings, Manner, Verdict};
use super::totals::Totals;
use crate::complaints;
use crate::files::{self, Item};
use crate::terminal::Progress;
use sillgarland::{Reader, Records};
use std::collections::BTreeMap;
use std::io;
use std::path::Path;
use std::sync::atomic::{AtomicUsize, Ordering};
use std::sync::mpsc::{self, Sender};
use std::thread;

/// The deepest nesting is read on less than half of this.
const WORKERS_STACK: usize = 4 << 20;

/// What is done with each file, by whichever worker has it: its bytes and what was found in them, or why it could not be read,
/// becomes an answer.
pub trait Task: Sync {
    type Answer: Send;
    fn manner(&self) -> &Manner;
    fn answer(&self, file: Looked) -> Self::Answer;
}

/// A file that was looked at.
pub struct Looked<'a> {
    pub path: &'a Path,
    /// Its bytes; none where it could not be read.
    pub input: &'a [u8],
    pub verdict: Verdict,
    pub checked: Result<Findings, &'a io::Error>,
}

/// Checks files in parallel, and hands on each answer in the order of the files.
fn check_all<T: Task>(
    items: &[Item],
    task: &T,
    mut act: impl FnMut(&Item, Checked<T::Answer>) -> io::Result<()>,
) -> io::Result<()> {
    let next = AtomicUsize::new(0);
    let workers = thread::available_parallelism().map_or(1, usize::from).min(items.len());
    thread::scope(|scope| {
        let (sender, receiver) = mpsc::channel();
        let start = |_: &usize| {
            let (sender, next) = (sender.clone(), &next);
            let worker = thread::Builder::new().stack_size(WORKERS_STACK);
            worker.spawn_scoped(scope, move || check_each(items, task, next, &sender)).is_ok()
        };
        if (0..workers).take_while(start).count() == 0 {
            check_each(items, task, &next, &sender); // no threads to be had
        }
        drop(sender);
        let (mut waiting, mut done) = (BTreeMap::new(), 0);
        for (at, checked) in receiver {
            waiting.insert(at, checked);
            while let Some(checked) = waiting.remove(&done) {
                act(&items[done], checked)?;
                done += 1;
            }
        }
        Ok(())
    })
}

/// Does the task with every file: troubles are told, a person who watches sees how far it is, and each answer is handed on in the
/// order of the files. Gives the totals.
pub fn each_file<T: Task>(
    items: &[Item],
    task: &T,
    mut act: impl FnMut(T::Answer, &mut Progress) -> io::Result<()>,
) -> io::Result<Totals> {
    let (mut totals, mut progress) = (Totals::default(), Progress::new(items.len()));
    check_all(items, task, |item, checked| {
        if let Some(error) = item.trouble.as_ref().or(checked.error.as_ref()) {
            progress.clear();
            complaints::about(&item.path, error);
        }
        totals.add(checked.verdict);
        act(checked.answer, &mut progress)?;
        progress.show(totals.paths());
        Ok(())
    })?;
    progress.clear();
    Ok(totals)
}

/// A file's verdict and the answer, and the error where it could not be read only now.
pub struct Checked<A> {
    pub verdict: Verdict,
    pub answer: A,
    pub error: Option<io::Error>,
}

impl<A> Checked<A> {
    fn of(path: &Path, input: &[u8], found: Result<Findings, &io::Error>, task: &impl Task<Answer = A>) -> Self {
        let verdict = found.as_ref().map_or(Verdict::Trouble, Findings::verdict);
        Self { verdict, answer: task.answer(Looked { path, input, verdict, checked: found }), error: None }
    }
}

/// A worker: one buffer, one reader, one store of locations for all the files it takes. It stops when nobody listens.
fn check_each<T: Task>(items: &[Item], task: &T, next: &AtomicUsize, sender: &Sender<(usize, Checked<T::Answer>)>) {
    let mut worker = Worker { buffer: Vec::new(), reader: task.manner().reader(), records: Records::default() };
    loop {
        let at = next.fetch_add(1, Ordering::Relaxed);
        let Some(item) = items.get(at) else { return };
        if sender.send((at, worker.check(item, task))).is_err() {
            return;
        }
    }
}

struct Worker {
    buffer: Vec<u8>,
    reader: Reader,
    records: Records,
}

impl Worker {
    fn check<T: Task>(&mut self, item: &Item, task: &T) -> Checked<T::Answer> {
        if let Some(trouble) = &item.trouble {
            return Checked::of(&item.path, &[], Err(trouble), task);
        }
        match files::read_into(&item.path, &mut self.buffer) {
            Err(error) => {
                let checked = Checked::of(&item.path, &[], Err(&error), task);
                Checked { error: Some(error), ..checked }
            }
            Ok(()) => {
                let found = Findings::of(&self.buffer, task.manner(), &mut self.reader, &mut self.records);
                Checked::of(&item.path, &self.buffer, Ok(found), task)
            }
        }
    }
}
