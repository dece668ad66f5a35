// NOrec in Rust, with the standard library alone, over the C interface (include/vacation_tm.h):
//
//     benchmark/build built --interface
//     rustc --edition 2021 -O --crate-type cdylib share/vacation/templates/rust/norec.rs -o norec.so
//     ./vacation tasks --tasks 1000 --items 8 > work
//     built/peer ./norec.so --attempts --jitter 1 < work > attempts && ./judge attempts < attempts
//     built/peer ./norec.so --history --jitter 1 < work > log && ./judge history --given-order --tasks work < log
//
// (`&&`, because a run that hung or crashed can end as `legal`: vacation_tm.h.) With `--cfg mistake` an
// attempt that finds the sequence changed does not compare what it has read: the judge shall find that.

use std::ffi::{c_int, c_uint, c_void};
use std::hint::spin_loop;
use std::sync::atomic::{fence, AtomicU64, Ordering};

extern "C" {
    fn vacation_step();
}

/// A place between two steps, where `--jitter` draws pauses.
fn step() {
    // SAFETY: the program that loads this object has the function, and it takes nothing.
    unsafe { vacation_step() }
}

/// The memory: its words in place, and a sequence lock, odd while a writer stores.
pub struct Shared {
    words: &'static [AtomicU64],
    sequence: AtomicU64,
}

/// A client, and its attempt.
pub struct Client {
    shared: &'static Shared,
    snapshot: u64,
    place: u64,
    reads: Vec<(u32, u64)>,
    writes: Vec<(u32, u64)>,
}

impl Client {
    fn word(&self, addr: u32) -> &'static AtomicU64 {
        &self.shared.words[addr as usize]
    }

    /// The sequence, once no writer stores.
    fn even_sequence(&self) -> u64 {
        loop {
            let now = self.shared.sequence.load(Ordering::Acquire);
            if now % 2 == 0 {
                return now;
            }
            spin_loop();
        }
    }

    fn begin(&mut self) {
        self.reads.clear();
        self.writes.clear();
        self.snapshot = self.even_sequence();
        self.place = self.snapshot + 1;
    }

    /// Moves the snapshot to a moment at which all that was read is still there, if there is one.
    fn validate(&mut self) -> Option<()> {
        loop {
            let now = self.even_sequence();
            step();
            let changed = |&(addr, value): &(u32, u64)| self.word(addr).load(Ordering::Relaxed) != value;
            if !cfg!(mistake) && self.reads.iter().any(changed) {
                return None;
            }
            fence(Ordering::Acquire);
            if self.shared.sequence.load(Ordering::Relaxed) == now {
                self.snapshot = now;
                self.place = now + 1;
                return Some(());
            }
        }
    }

    fn read(&mut self, addr: u32) -> Option<u64> {
        if let Some(&(_, value)) = self.writes.iter().find(|written| written.0 == addr) {
            return Some(value);
        }
        let mut value = self.word(addr).load(Ordering::Acquire);
        step();
        while self.shared.sequence.load(Ordering::Acquire) != self.snapshot {
            self.validate()?;
            value = self.word(addr).load(Ordering::Acquire);
        }
        self.reads.push((addr, value));
        Some(value)
    }

    fn write(&mut self, addr: u32, value: u64) {
        match self.writes.iter_mut().find(|written| written.0 == addr) {
            Some(written) => written.1 = value,
            None => self.writes.push((addr, value)),
        }
    }

    fn commit(&mut self) -> Option<()> {
        if self.writes.is_empty() {
            return Some(());
        }
        let sequence = &self.shared.sequence;
        let take = |from| sequence.compare_exchange(from, from + 1, Ordering::AcqRel, Ordering::Relaxed);
        while take(self.snapshot).is_err() {
            self.validate()?;
        }
        for &(addr, value) in &self.writes {
            self.word(addr).store(value, Ordering::Release);
            step();
        }
        self.place = self.snapshot + 2;
        sequence.store(self.place, Ordering::Release);
        Some(())
    }
}

// ---- the C interface

/// # Safety
/// `words` points to `count` words that stay where they are and that nobody else uses.
#[no_mangle]
pub unsafe extern "C" fn tm_open(words: *mut u64, count: usize) -> *mut c_void {
    let words = unsafe { std::slice::from_raw_parts(words as *const AtomicU64, count) };
    Box::into_raw(Box::new(Shared { words, sequence: AtomicU64::new(0) })) as *mut c_void
}

/// # Safety
/// `shared` is what `tm_open` returned.
#[no_mangle]
pub unsafe extern "C" fn tm_client(shared: *mut c_void, _number: c_uint) -> *mut c_void {
    let shared = unsafe { &*(shared as *const Shared) };
    let client = Client { shared, snapshot: 0, place: 0, reads: Vec::new(), writes: Vec::new() };
    Box::into_raw(Box::new(client)) as *mut c_void
}

#[no_mangle]
pub extern "C" fn tm_begin(client: &mut Client, _way_out: *mut c_void) {
    client.begin();
}

#[no_mangle]
pub extern "C" fn tm_read(client: &mut Client, addr: u32, value: &mut u64) -> c_int {
    match client.read(addr) {
        Some(found) => {
            *value = found;
            0
        }
        None => 1,
    }
}

#[no_mangle]
pub extern "C" fn tm_write(client: &mut Client, addr: u32, value: u64) -> c_int {
    client.write(addr, value);
    0
}

#[no_mangle]
pub extern "C" fn tm_commit(client: &mut Client) -> c_int {
    c_int::from(client.commit().is_none())
}

#[no_mangle]
pub extern "C" fn tm_place(client: &mut Client) -> u64 {
    client.place
}
