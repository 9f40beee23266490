//! Two or more ways to do the same work, timed in turns, so that what else the machine does falls on all of them.
use std::time::Duration;

const ROUNDS: usize = 15;

pub struct Way<'a> {
    pub name: &'static str,
    /// Does the work once, and says how much processor time it took.
    pub work: Box<dyn FnMut() -> Duration + 'a>,
}

/// Work of this thread, timed.
pub fn timed<'a>(mut work: impl FnMut() + 'a) -> Box<dyn FnMut() -> Duration + 'a> {
    Box::new(move || {
        let start = processor_time();
        work();
        processor_time() - start
    })
}

/// The same, done once before it is timed, so that what the other ways left in the caches plays no part.
pub fn timed_again<'a>(mut work: impl FnMut() + 'a) -> Box<dyn FnMut() -> Duration + 'a> {
    Box::new(move || {
        work();
        let start = processor_time();
        work();
        processor_time() - start
    })
}

/// The same, with something done before each time that does not count.
pub fn timed_after<'a>(
    mut before: impl FnMut() + 'a,
    mut work: impl FnMut() + 'a,
) -> Box<dyn FnMut() -> Duration + 'a> {
    Box::new(move || {
        before();
        let start = processor_time();
        work();
        processor_time() - start
    })
}

/// The processor time that this thread has used: waiting for a processor does not count.
fn processor_time() -> Duration {
    #[repr(C)]
    struct Time {
        seconds: i64,
        nanoseconds: i64,
    }
    unsafe extern "C" {
        fn clock_gettime(clock: i32, time: *mut Time) -> i32;
    }
    /// CLOCK_THREAD_CPUTIME_ID of Linux.
    const OF_THIS_THREAD: i32 = 3;
    let mut time = Time { seconds: 0, nanoseconds: 0 };
    // SAFETY: the time is written where it is asked for.
    let status = unsafe { clock_gettime(OF_THIS_THREAD, &mut time) };
    assert_eq!(status, 0, "no clock of processor time");
    Duration::new(time.seconds as u64, time.nanoseconds as u32)
}

/// Times every way in turns and prints, for each, the median and the best per item, and how its speed stands to the first
/// way's, by the medians and by the best (which what else runs on the machine touches least).
pub fn side_by_side(title: &str, (items, each_of): (usize, &str), mut ways: Vec<Way>) {
    let mut times = vec![Vec::new(); ways.len()];
    for _ in 0..ROUNDS {
        for (way, times) in ways.iter_mut().zip(&mut times) {
            times.push((way.work)());
        }
    }
    times.iter_mut().for_each(|times| times.sort());
    println!("{title}");
    let each = |time: Duration| time.as_secs_f64() * 1e9 / items as f64;
    for (way, times_of_way) in ways.iter().zip(&times) {
        let (median, best) = (each(times_of_way[ROUNDS / 2]), each(times_of_way[0]));
        let ratio = each(times[0][ROUNDS / 2]) / median;
        let ratio_of_best = each(times[0][0]) / best;
        println!(
            "  {:<20} {median:7.2} ns {each_of} (best {best:.2}), {ratio:.2} times the speed of {} (best {ratio_of_best:.2})",
            way.name, ways[0].name
        );
    }
}
