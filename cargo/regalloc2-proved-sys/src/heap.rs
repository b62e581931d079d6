//! The library's memory: `rattle_alloc`, `rattle_realloc` and `rattle_dealloc`.
//!
//! A call allocates many small blocks, and frees all of them. A `malloc` and a `free` for each would cost more.
//! Therefore a thread in a call cuts small blocks from chunks, and keeps freed blocks in lists by size. Larger
//! blocks, and blocks allocated outside a call, are `malloc`'s. At a call's end the thread keeps at most [`KEPT`]
//! bytes of chunks.

use std::cell::Cell;
use std::ffi::c_void;
use std::ptr::{NonNull, copy_nonoverlapping, null_mut};

unsafe extern "C" {
    fn malloc(size: usize) -> *mut c_void;
    fn realloc(p: *mut c_void, size: usize) -> *mut c_void;
    fn free(p: *mut c_void);
}

/// The result of an allocation. If it fails, `p` is any address.
#[repr(C)]
struct Tried {
    ok: bool,
    p: *mut u8,
}

static NOTHING: u8 = 0;

fn tried(p: *mut u8) -> Tried {
    if p.is_null() { Tried { ok: false, p: (&raw const NOTHING).cast_mut() } } else { Tried { ok: true, p } }
}

/// The header of each block and of each chunk.
#[repr(C, align(16))]
struct Head {
    /// The block's class, or `CLASSES` for a block of `malloc`'s; the chunk's size in bytes.
    class: usize,
    /// The next freed block, or the next chunk.
    next: *mut Head,
}

/// The size of blocks is a multiple of this many bytes, the size of a head.
const UNIT: usize = 16;
const CLASSES: usize = 22;
/// The bytes of a block by class: 1, 2, 3, 4, 6, 8, 12, 16 units, and so on, up to 32,768 bytes.
const SIZES: [usize; CLASSES] = sizes();
const FIRST_CHUNK: usize = 1 << 16;
const LARGEST_CHUNK: usize = 1 << 20;
/// The most bytes of chunks that a thread keeps from call to call.
const KEPT: usize = 16 << 20;

const fn sizes() -> [usize; CLASSES] {
    let mut sizes = [0; CLASSES];
    let mut class = 0;
    while class < CLASSES {
        sizes[class] = UNIT
            * match class {
                0..4 => class + 1,
                _ if class % 2 == 0 => 3 << (class / 2 - 1),
                _ => 2 << (class / 2),
            };
        class += 1;
    }
    sizes
}

/// Returns the smallest class whose blocks have `size` bytes; `CLASSES` or more if none has.
const fn class_of(size: usize) -> usize {
    let n = size.saturating_sub(1) / UNIT;
    if n < 4 {
        return n;
    }
    let log = n.ilog2() as usize;
    2 * log + (n >> (log - 1) & 1)
}

/// The most bytes of a block whose class is in [`SMALL`].
const LARGEST_SMALL: usize = 1024;
/// The classes by the number of units, for nearly all blocks.
const SMALL: [u8; LARGEST_SMALL / UNIT + 1] = small();

const fn small() -> [u8; LARGEST_SMALL / UNIT + 1] {
    let mut classes = [0; LARGEST_SMALL / UNIT + 1];
    let mut n = 0;
    while n < classes.len() {
        classes[n] = class_of(UNIT * n) as u8;
        n += 1;
    }
    classes
}

struct Pool {
    /// Whether a call is under way.
    inside: Cell<bool>,
    /// The number of blocks cut from chunks and not freed.
    out: Cell<usize>,
    /// The freed blocks by class.
    freed: [Cell<*mut Head>; CLASSES],
    /// The first chunk; the chunk that blocks are cut from, its rest, and the bytes of that. Later chunks are unused.
    first: Cell<*mut Head>,
    current: Cell<*mut Head>,
    at: Cell<*mut u8>,
    left: Cell<usize>,
}

thread_local! {
    /// It has no destructor, so that an access tests nothing. `AT_EXIT` frees its chunks.
    static POOL: Pool = const { Pool::new() };
    static AT_EXIT: AtExit = const { AtExit };
}

impl Pool {
    const fn new() -> Pool {
        Pool {
            inside: Cell::new(false),
            out: Cell::new(0),
            freed: [const { Cell::new(null_mut()) }; CLASSES],
            first: Cell::new(null_mut()),
            current: Cell::new(null_mut()),
            at: Cell::new(null_mut()),
            left: Cell::new(0),
        }
    }

    /// Returns what [`Pool::take`] returns for a block of `size` bytes, if they are few.
    #[inline]
    fn small(&self, size: usize) -> Option<NonNull<u8>> {
        if size > LARGEST_SMALL {
            return None;
        }
        self.take(usize::from(SMALL[size.div_ceil(UNIT)]))
    }

    /// Returns a freed block of a class, or one from the current chunk, if it has room. Outside a call there is
    /// neither.
    #[inline]
    fn take(&self, class: usize) -> Option<NonNull<u8>> {
        let first = self.freed[class].get();
        let head = if first.is_null() {
            self.cut(class)?
        } else {
            // SAFETY: the head of a freed block is written, and nobody else uses it.
            self.freed[class].set(unsafe { (*first).next });
            first
        };
        self.out.set(self.out.get().wrapping_add(1));
        // SAFETY: a head and its block are within one chunk.
        NonNull::new(unsafe { head.add(1).cast() })
    }

    /// Cuts a block of a class and its head from the current chunk, if it has room.
    #[inline]
    fn cut(&self, class: usize) -> Option<*mut Head> {
        let size = UNIT + SIZES[class];
        let rest = self.left.get().checked_sub(size)?;
        let head: *mut Head = self.at.get().cast();
        self.left.set(rest);
        // SAFETY: `left` bytes followed, of which these are the first.
        unsafe {
            self.at.set(head.byte_add(size).cast());
            (*head).class = class;
        }
        Some(head)
    }

    /// Makes the next chunk the current one, after adding one if there is none. Returns `false` if memory runs out.
    fn go_on(&self) -> bool {
        let current = self.current.get();
        // SAFETY: chunks that are in the list aren't freed.
        let behind = if current.is_null() { self.first.get() } else { unsafe { (*current).next } };
        let chunk = if behind.is_null() { self.add_chunk(current) } else { behind };
        if chunk.is_null() {
            return false;
        }
        self.current.set(chunk);
        // SAFETY: the chunk's first bytes are its head.
        self.at.set(unsafe { chunk.add(1) }.cast());
        self.left.set(unsafe { (*chunk).class } - UNIT);
        true
    }

    /// Adds a chunk to the list's end, of twice the last one's size within bounds. Returns null if memory runs out.
    fn add_chunk(&self, last: *mut Head) -> *mut Head {
        // SAFETY: a chunk's head holds its size.
        let size = if last.is_null() { 0 } else { unsafe { (*last).class } };
        let size = (2 * size).clamp(FIRST_CHUNK, LARGEST_CHUNK);
        // SAFETY: `malloc` takes any size, and aligns by 16.
        let chunk: *mut Head = unsafe { malloc(size) }.cast();
        if chunk.is_null() {
            return chunk;
        }
        // SAFETY: the chunk is larger than a head, and `last` is in the list.
        unsafe {
            chunk.write(Head { class: size, next: null_mut() });
            if last.is_null() {
                self.first.set(chunk);
            } else {
                (*last).next = chunk;
            }
        }
        chunk
    }

    /// Ends a call, which has freed all its blocks. If a block is left, all chunks stay.
    fn end(&self) {
        self.inside.set(false);
        self.freed.iter().for_each(|list| list.set(null_mut()));
        self.left.set(0);
        if self.out.get() != 0 {
            return;
        }
        self.current.set(null_mut());
        let (mut bytes, mut chunk) = (0, self.first.get());
        while !chunk.is_null() {
            // SAFETY: no block of the chunks is in use, and freed chunks leave the list.
            unsafe {
                bytes += (*chunk).class;
                let behind = (*chunk).next;
                if !behind.is_null() && bytes + (*behind).class > KEPT {
                    free_all(behind);
                    (*chunk).next = null_mut();
                    return;
                }
                chunk = behind;
            }
        }
    }
}

/// Frees a chunk and all after it.
///
/// # Safety
///
/// No block of these chunks is in use, and the chunks aren't freed again.
unsafe fn free_all(mut chunk: *mut Head) {
    while !chunk.is_null() {
        // SAFETY: a chunk is `malloc`'s.
        unsafe {
            let behind = (*chunk).next;
            free(chunk.cast());
            chunk = behind;
        }
    }
}

/// Frees the thread's chunks when the thread ends, unless a block is left.
struct AtExit;

impl Drop for AtExit {
    fn drop(&mut self) {
        POOL.with(|pool| {
            if pool.out.get() == 0 {
                // SAFETY: no block is in use, and the list is empty from now on.
                unsafe { free_all(pool.first.replace(null_mut())) };
                pool.current.set(null_mut());
                pool.left.set(0);
                pool.freed.iter().for_each(|list| list.set(null_mut()));
            }
        });
    }
}

/// Makes a call of the library, with small blocks from this thread's chunks.
pub(crate) fn with_pool<T>(call: impl FnOnce() -> T) -> T {
    // fails only while the thread ends; then nobody frees this call's chunks
    let _ = AT_EXIT.try_with(|_| ());
    POOL.with(|pool| pool.inside.set(true));
    let value = call();
    POOL.with(Pool::end);
    value
}

/// Returns the block behind a head from `malloc`, or null.
fn behind(head: *mut c_void) -> *mut u8 {
    if head.is_null() {
        return null_mut();
    }
    let head: *mut Head = head.cast();
    // SAFETY: `malloc` returned room for a head, aligned to 16.
    unsafe {
        (*head).class = CLASSES;
        head.add(1).cast()
    }
}

/// Returns a block of `size` bytes, or null. An empty block has an address of its own.
fn block(size: usize) -> *mut u8 {
    let class = class_of(size);
    POOL.with(|pool| {
        if class >= CLASSES || !pool.inside.get() {
            return large(size);
        }
        // a chunk has room for the largest block
        pool.take(class).or_else(|| if pool.go_on() { pool.take(class) } else { None }).map_or(null_mut(), NonNull::as_ptr)
    })
}

/// Returns a block of `malloc`'s, or null.
fn large(size: usize) -> *mut u8 {
    match size.checked_add(UNIT) {
        // SAFETY: `malloc` takes any size.
        Some(size) => behind(unsafe { malloc(size) }),
        None => null_mut(),
    }
}

/// `align` is at most 16, the alignment of all blocks.
#[unsafe(no_mangle)]
extern "C" fn rattle_alloc(size: usize, _align: usize) -> Tried {
    // The pool comes first: to find it is a call for the compiler, over which little has to be kept.
    POOL.with(|pool| match pool.small(size) {
        Some(p) => Tried { ok: true, p: p.as_ptr() },
        None => slow_alloc(size),
    })
}

/// Allocates what needs another chunk, is large, or is outside a call.
#[cold]
#[inline(never)]
fn slow_alloc(size: usize) -> Tried {
    tried(block(size))
}

/// # Safety
///
/// `p` is a block of `kept` bytes from these functions, and not freed.
#[unsafe(no_mangle)]
unsafe extern "C" fn rattle_realloc(p: *mut u8, kept: usize, size: usize, _align: usize) -> Tried {
    // SAFETY: a head precedes each block.
    let head = unsafe { p.cast::<Head>().sub(1) };
    let class = unsafe { (*head).class };
    if class == CLASSES {
        return match size.checked_add(UNIT) {
            // SAFETY: the head is `malloc`'s, and the size isn't 0.
            Some(size) => tried(behind(unsafe { realloc(head.cast(), size) })),
            None => tried(null_mut()),
        };
    }
    if size <= SIZES[class] {
        return tried(p);
    }
    let new = block(size);
    if !new.is_null() {
        // SAFETY: two blocks of at least that many bytes.
        unsafe {
            copy_nonoverlapping(p, new, kept.min(size));
            rattle_dealloc(p);
        }
    }
    tried(new)
}

/// # Safety
///
/// `p` is a block from these functions, and not freed.
#[unsafe(no_mangle)]
unsafe extern "C" fn rattle_dealloc(p: *mut u8) {
    POOL.with(|pool| {
        // SAFETY: a head precedes each block.
        unsafe {
            let head = p.cast::<Head>().sub(1);
            match pool.freed.get((*head).class) {
                Some(list) => {
                    (*head).next = list.replace(head);
                    pool.out.set(pool.out.get().wrapping_sub(1));
                }
                None => free(head.cast()),
            }
        }
    });
}

#[cfg(test)]
mod tests {
    use super::*;

    /// Grows lists in turn, as a call does. They keep their contents.
    fn grow_in_turn() {
        let mut lists: Vec<(*mut u8, usize)> = (0..40).map(|k| (rattle_alloc(k, 8).p, k)).collect();
        for (k, (p, n)) in lists.iter().enumerate() {
            unsafe { p.write_bytes(k as u8, *n) };
        }
        for round in 0..11 {
            for (k, (p, n)) in lists.iter_mut().enumerate() {
                assert_eq!(*p as usize % 16, 0);
                let more = 2 * *n + round;
                let tried = unsafe { rattle_realloc(*p, *n, more, 8) };
                assert!(tried.ok);
                unsafe { tried.p.add(*n).write_bytes(k as u8, more - *n) };
                (*p, *n) = (tried.p, more);
                assert!((0..more).all(|i| unsafe { *tried.p.add(i) } == k as u8), "list {k}, round {round}");
            }
        }
        for (p, _) in lists {
            unsafe { rattle_dealloc(p) };
        }
    }

    #[test]
    fn memory_is_kept() {
        for _ in 0..3 {
            with_pool(grow_in_turn);
            grow_in_turn();
            POOL.with(|pool| assert_eq!(pool.out.get(), 0));
        }
        std::thread::scope(|scope| {
            (0..4).for_each(|_| drop(scope.spawn(|| (0..9).for_each(|_| with_pool(grow_in_turn)))));
        });
    }

    /// A block that outlives its call stays valid.
    #[test]
    fn a_block_that_outlives_its_call() {
        let p = with_pool(|| rattle_alloc(100, 8).p);
        unsafe { p.write_bytes(7, 100) };
        with_pool(grow_in_turn);
        assert!((0..100).all(|i| unsafe { *p.add(i) } == 7));
        unsafe { rattle_dealloc(p) };
        with_pool(grow_in_turn);
        POOL.with(|pool| assert_eq!(pool.out.get(), 0));
    }

    #[test]
    fn a_thread_keeps_so_much() {
        let bytes = |pool: &Pool| {
            let (mut bytes, mut chunk) = (0, pool.first.get());
            while !chunk.is_null() {
                bytes += unsafe { (*chunk).class };
                chunk = unsafe { (*chunk).next };
            }
            bytes
        };
        with_pool(|| {
            let blocks: Vec<*mut u8> = (0..2 * KEPT / 30_000).map(|_| rattle_alloc(30_000, 8).p).collect();
            assert!(POOL.with(bytes) > 2 * KEPT);
            blocks.into_iter().for_each(|p| unsafe { rattle_dealloc(p) });
        });
        assert!((KEPT / 2..=KEPT).contains(&POOL.with(bytes)));
        with_pool(grow_in_turn);
        assert!((KEPT / 2..=KEPT).contains(&POOL.with(bytes)));
    }

    #[test]
    fn classes() {
        for size in 0..SIZES[CLASSES - 1] + 1 {
            let class = class_of(size);
            assert!(size <= SIZES[class] && (class == 0 || size > SIZES[class - 1]), "{size}");
        }
        assert!([SIZES[CLASSES - 1] + 1, usize::MAX].iter().all(|size| class_of(*size) >= CLASSES));
    }

    #[test]
    fn a_failed_allocation_is_reported() {
        for size in [usize::MAX / 2, usize::MAX] {
            let tried = rattle_alloc(size, 16);
            assert!(!tried.ok && !tried.p.is_null());
        }
        let block = rattle_alloc(0, 16);
        assert!(block.ok);
        assert!(!unsafe { rattle_realloc(block.p, 0, usize::MAX, 16) }.ok);
        unsafe { rattle_dealloc(block.p) };
    }
}
