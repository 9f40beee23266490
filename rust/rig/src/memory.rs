//! The memory that the port is lent, as the run wants it: with marked cells on both sides; or just as long as is lent, on
//! the heap (for valgrind, which sees what lies beside it and what was never written), or up against a page that nobody
//! may touch, at its end or at its start.
use std::cell::RefCell;
use std::sync::atomic::{AtomicU8, Ordering::Relaxed};

#[derive(Clone, Copy, PartialEq, Eq)]
pub enum Mode {
    Marked,
    Exact,
    AtEnd,
    #[cfg_attr(not(carried), expect(dead_code))]
    AtStart,
}

static MODE: AtomicU8 = AtomicU8::new(Mode::Marked as u8);

/// From here on memory is lent so.
pub fn lend(mode: Mode) {
    MODE.store(mode as u8, Relaxed);
}

fn is(mode: Mode) -> bool {
    MODE.load(Relaxed) == mode as u8
}

/// How many marked cells stand on each side.
const BESIDE: usize = 4;

pub struct Memory<T> {
    start: *mut T,
    len: usize,
    home: Home<T>,
}

enum Home<T> {
    Marked(Vec<T>),
    Exact(#[expect(dead_code, reason = "it is what start points to")] Vec<T>),
    Pages(Pages),
}

impl<T: Copy + PartialEq> Memory<T> {
    /// Cells to be written: full of marks, or, where valgrind looks, of nothing.
    pub fn new(len: usize, mark: T) -> Self {
        if is(Mode::Exact) {
            return Self::exact(Vec::with_capacity(len), len);
        }
        Self::full(len, mark)
    }

    /// These cells, with marks beside them.
    pub fn of(cells: &[T], mark: T) -> Self {
        if is(Mode::Exact) {
            return Self::exact(cells.to_vec(), cells.len());
        }
        let memory = Self::full(cells.len(), mark);
        // SAFETY: the memory is that long, and is nobody else's.
        unsafe { memory.start.copy_from_nonoverlapping(cells.as_ptr(), cells.len()) };
        memory
    }

    fn exact(mut cells: Vec<T>, len: usize) -> Self {
        cells.shrink_to(len);
        Self { start: cells.as_mut_ptr(), len, home: Home::Exact(cells) }
    }

    fn full(len: usize, mark: T) -> Self {
        if is(Mode::Marked) {
            let mut cells = vec![mark; BESIDE + len + BESIDE];
            return Self { start: cells[BESIDE..].as_mut_ptr(), len, home: Home::Marked(cells) };
        }
        let pages = Pages::take(len * size_of::<T>());
        let start = pages.place(len * size_of::<T>(), is(Mode::AtEnd)).cast::<T>();
        // SAFETY: so many bytes fit between the two guards, and the place is aligned: a page's end less whole cells.
        (0..len).for_each(|i| unsafe { start.add(i).write(mark) });
        Self { start, len, home: Home::Pages(pages) }
    }

    pub fn len(&self) -> usize {
        self.len
    }

    pub fn pointer(&mut self) -> *mut T {
        self.start
    }

    pub fn cells(&self) -> &[T] {
        // SAFETY: the memory is that long; what was lent for writing is looked at after it was written.
        unsafe { std::slice::from_raw_parts(self.start, self.len) }
    }

    /// Whether the cells on both sides, where there are any, are the marks they were.
    pub fn is_untouched_beside(&self, mark: T) -> bool {
        let Home::Marked(cells) = &self.home else {
            return true;
        };
        cells[..BESIDE].iter().chain(&cells[BESIDE + self.len..]).all(|cell| *cell == mark)
    }
}

impl<T> Drop for Memory<T> {
    fn drop(&mut self) {
        if let Home::Pages(pages) = &self.home {
            POOL.with_borrow_mut(|pool| pool.push(*pages));
        }
    }
}

/// Pages to read and write, between two that fault. Once mapped they are kept and used again.
#[derive(Clone, Copy)]
struct Pages {
    first: *mut u8,
    size: usize,
}

thread_local! {
    static POOL: RefCell<Vec<Pages>> = const { RefCell::new(Vec::new()) };
}

/// A multiple of every size that a page has on Linux.
const PAGE: usize = 1 << 16;

unsafe extern "C" {
    fn mmap(at: *mut u8, size: usize, protection: i32, flags: i32, file: i32, offset: i64) -> *mut u8;
    fn mprotect(at: *mut u8, size: usize, protection: i32) -> i32;
}

impl Pages {
    fn take(size: usize) -> Self {
        let size = size.next_multiple_of(PAGE).max(PAGE);
        let kept = POOL.with_borrow_mut(|pool| {
            let fitting = pool.iter().rposition(|pages| pages.size == size)?;
            Some(pool.swap_remove(fitting))
        });
        kept.unwrap_or_else(|| Self::mapped(size))
    }

    /// Mapped so that nothing may be touched, and then opened but for the first and the last page.
    fn mapped(size: usize) -> Self {
        const NONE: i32 = 0;
        const READ_AND_WRITE: i32 = 3;
        const PRIVATE_AND_ANONYMOUS: i32 = 0x22;
        // SAFETY: new memory, of which the middle is opened.
        unsafe {
            let guard = mmap(std::ptr::null_mut(), size + 2 * PAGE, NONE, PRIVATE_AND_ANONYMOUS, -1, 0);
            assert!(guard as isize != -1, "no memory to map");
            let first = guard.add(PAGE);
            assert_eq!(mprotect(first, size, READ_AND_WRITE), 0, "pages that cannot be opened");
            Self { first, size }
        }
    }

    fn place(&self, len: usize, at_end: bool) -> *mut u8 {
        // SAFETY: within the pages.
        if at_end { unsafe { self.first.add(self.size - len) } } else { self.first }
    }
}
