//! Every exported function between pages that fault: what it is lent ends, or begins, where a page stands that nobody may
//! touch, so one byte read or written outside ends the run. The answers are held to the same as without.
use crate::exceptions::{self, Exceptions};
use crate::join::{self, Joins};
use crate::keep::{self, Keeps};
use crate::memory::{Mode, lend};
use crate::more::{self, Mores};
use crate::moves::{self, Moves};
use crate::pieces::{self, Pieces};
use crate::read::Reads;
use crate::salvage::{self, Salvages};
use crate::settings::{self, SettingsFiles};
use crate::sources::{self, Sources};
use crate::starts::{self, Starts};
use crate::subject::{Carried, Subject, held};
use crate::tally::Tally;
use crate::totals::{self, NightlyTotals};
use crate::write::Writes;
use crate::{hostile, leaf, linetable, localsplus, random::Random, spans, values, varint, write};
use std::ptr::null;
use std::sync::atomic::{AtomicPtr, AtomicUsize, Ordering::SeqCst};

/// How many questions of each kind, asked once at the end of a page and once at the start of one.
const OF_EACH: usize = 50_000;

pub fn hold() -> bool {
    say_which_at_a_fault();
    let mut tally = Tally::new("guard pages");
    for mode in [Mode::AtEnd, Mode::AtStart] {
        lend(mode);
        ask::<varint::Varints>(&mut tally, "varints", varint::carried_side::asks_to_list());
        let tables = linetable::carried_side::asks_to_list(&[]);
        ask::<linetable::LineTables>(&mut tally, "line tables, as numbers and as structs", tables);
        let mut random = Random::new(24);
        for _ in 0..OF_EACH {
            let asked = salvage::random_ask(&mut random);
            let answer = salvage::by_the_model(&asked);
            last_asked(&Salvages::row(&asked, &answer));
            tally.count("line tables repaired", held::<Salvages>(&asked, &answer));
        }
        for _ in 0..OF_EACH {
            let asked = sources::random_ask(&mut random);
            let answer = sources::by_the_model(&asked);
            last_asked(&Sources::row(&asked, &answer));
            tally.count("sources of instructions", held::<Sources>(&asked, &answer));
        }
        for _ in 0..OF_EACH {
            let asked = pieces::random_ask(&mut random);
            let answer = pieces::by_the_model(&asked);
            last_asked(&Pieces::row(&asked, &answer));
            tally.count("line tables by piece", held::<Pieces>(&asked, &answer));
        }
        for _ in 0..OF_EACH / 10 {
            let asked = starts::random_ask(&mut random);
            let answer = starts::by_the_model(&asked);
            last_asked(&Starts::row(&asked, &answer));
            tally.count("row starts indexed and asked for", held::<Starts>(&asked, &answer));
        }
        ask::<localsplus::LocalNames>(&mut tally, "splits", localsplus::carried_side::asks_to_list());
        for asked in settings::random_asks(26, OF_EACH) {
            let answer = settings::by_the_model(&asked);
            last_asked(&SettingsFiles::row(&asked, &answer));
            tally.count("settings looked up, rewritten, saved and rolled back", held::<SettingsFiles>(&asked, &answer));
        }
        for asked in moves::random_asks(27, OF_EACH) {
            let answer = moves::by_the_model(&asked);
            last_asked(&Moves::row(&asked, &answer));
            tally.count("golden files moved into fields and back", held::<Moves>(&asked, &answer));
        }
        for asked in exceptions::random_asks(25, OF_EACH) {
            let answer = exceptions::by_the_model(&asked);
            last_asked(&Exceptions::row(&asked, &answer));
            tally.count("exception tables read and written", held::<Exceptions>(&asked, &answer));
        }
        for asked in join::random_asks(26, OF_EACH) {
            let answer = join::by_the_model(&asked);
            last_asked(&Joins::row(&asked, &answer));
            tally.count("line tables joined, and their lines", held::<Joins>(&asked, &answer));
        }
        for asked in keep::random_asks(28, OF_EACH) {
            let answer = keep::by_the_model(&asked);
            last_asked(&Keeps::row(&asked, &answer));
            tally.count("values kept, in any stores", held::<Keeps>(&asked, &answer));
        }
        for asked in more::random_asks(29, OF_EACH) {
            let answer = more::by_the_model(&asked);
            last_asked(&Mores::row(&asked, &answer));
            tally.count("values read behind others", held::<Mores>(&asked, &answer));
        }
        for asked in totals::random_asks(26, OF_EACH) {
            let answer = totals::by_the_model(&asked);
            last_asked(&NightlyTotals::row(&asked, &answer));
            tally.count("totals counted, added and printed", held::<NightlyTotals>(&asked, &answer));
        }
        ask::<Reads>(&mut tally, "values read, with their leaves", values::random_inputs(21, OF_EACH));
        last_asked("a writing from a single record");
        hostile::ask_single_records(&mut tally, "writings from one record of every letter, size and count");
        ask::<Writes>(&mut tally, "values written", write::carried_side::random_asks(22, OF_EACH));
        last_asked("a leaf or a node's line table of a damaged store");
        leaf::ask(&mut tally, |_| "leaves and line tables of damaged stores", 11, values::random_inputs(23, OF_EACH));
        last_asked("a span of a damaged store");
        spans::of_any_stores(&mut tally, |_| "spans of damaged stores", 27, OF_EACH);
        last_asked("a writing from a damaged store");
        hostile::ask(&mut tally, |_| "writings from damaged stores", 15, OF_EACH);
    }
    lend(Mode::Marked);
    tally.finish()
}

fn ask<S: Carried>(tally: &mut Tally, class: &'static str, asks: impl Iterator<Item = S::Ask>) {
    for ask in asks {
        let answer = S::by_the_rust(&ask);
        last_asked(&S::row(&ask, &answer));
        tally.count(class, held::<S>(&ask, &answer));
    }
}

static LAST: AtomicPtr<u8> = AtomicPtr::new(null::<u8>().cast_mut());
static LAST_LEN: AtomicUsize = AtomicUsize::new(0);

/// Keeps the text for the one who must tell of a fault.
fn last_asked(text: &str) {
    thread_local!(static TEXT: std::cell::RefCell<String> = const { std::cell::RefCell::new(String::new()) });
    TEXT.with_borrow_mut(|kept| {
        text.clone_into(kept);
        LAST.store(kept.as_mut_ptr(), SeqCst);
        LAST_LEN.store(kept.len(), SeqCst);
    });
}

unsafe extern "C" {
    fn signal(number: i32, handler: extern "C" fn(i32)) -> usize;
    fn write(file: i32, bytes: *const u8, len: usize) -> isize;
    fn _exit(status: i32) -> !;
}

fn say_which_at_a_fault() {
    const SIGSEGV: i32 = 11;
    const SIGBUS: i32 = 7;
    // SAFETY: the handler calls only what a handler may.
    unsafe {
        signal(SIGSEGV, fault);
        signal(SIGBUS, fault);
    }
}

extern "C" fn fault(_: i32) {
    let said = b"guard pages: something outside what was lent was touched, at: ";
    let closing = b"\nguard pages: 0 passed, 1 failed\n";
    // SAFETY: the text is kept as long as it is the last.
    unsafe {
        write(1, said.as_ptr(), said.len());
        write(1, LAST.load(SeqCst), LAST_LEN.load(SeqCst));
        write(1, closing.as_ptr(), closing.len());
        _exit(1);
    }
}
