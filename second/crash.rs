//! A subject that touches what it must not, gives up or runs on without end: the signal that ends it is
//! reported as a difference, with the seed, the part and the number of its case.

use std::fmt::Write;
use std::ptr::{addr_of, addr_of_mut};
use std::sync::atomic::{AtomicI32, AtomicUsize, Ordering::Relaxed};

/// A call that takes longer runs on without end.
const SECONDS: u32 = 60;

const ALARM: i32 = 14;
/// Illegal instruction, abort, bus error, arithmetic, access, alarm, and the end that others ask for.
const SIGNALS: [i32; 7] = [4, 6, 7, 8, 11, ALARM, 15];
/// With the address in question, and on the stack that the runtime keeps for signals.
const WITH_ADDRESS_ON_OWN_STACK: i32 = 4 | 0x0800_0000;

#[repr(C)]
struct Action {
    handler: usize,
    mask: [u64; 16],
    flags: i32,
    restorer: usize,
}

extern "C" {
    fn sigaction(signal: i32, action: *const Action, old: *mut Action) -> i32;
    fn alarm(seconds: u32) -> u32;
    fn write(file: i32, bytes: *const u8, count: usize) -> isize;
    fn kill(process: i32, signal: i32) -> i32;
    fn _exit(status: i32) -> !;
}

/// Text without memory of its own making, so that it can be written when a signal has come.
struct Line {
    bytes: [u8; 400],
    length: usize,
}

impl Write for Line {
    fn write_str(&mut self, text: &str) -> std::fmt::Result {
        let count = text.len().min(self.bytes.len() - self.length);
        self.bytes[self.length..self.length + count].copy_from_slice(&text.as_bytes()[..count]);
        self.length += count;
        Ok(())
    }
}

static mut CASE: Line = Line { bytes: [0; 400], length: 0 };

/// Where the contents of the lent buffers begin, and their lengths.
static STARTS: [AtomicUsize; 4] = [const { AtomicUsize::new(0) }; 4];
static LENGTHS: [AtomicUsize; 4] = [const { AtomicUsize::new(0) }; 4];

/// The processes that were started: the engine, the run program.
static STARTED: [AtomicI32; 2] = [const { AtomicI32::new(0) }; 2];

pub const ENGINE: usize = 0;
pub const PROGRAM: usize = 1;

/// A process that is not to outlive this one; 0 if there is none any more.
pub fn started(which: usize, process: u32) {
    STARTED[which].store(process as i32, Relaxed);
}

/// The case that is compared from now on.
pub fn case(words: &str) {
    // SAFETY: one thread compares, and the handler of signals, which alone reads it besides, ends the process.
    let line = unsafe { &mut *addr_of_mut!(CASE) };
    line.length = 0;
    let _ = line.write_str(words);
}

/// A call begins: its time is counted from here.
pub fn call() {
    // SAFETY: it takes a number and touches no memory.
    unsafe { alarm(SECONDS) };
}

/// Where the content of a buffer lies in this process.
#[allow(dead_code)]
pub fn lies(index: usize, start: *const u8, length: usize) {
    STARTS[index].store(start as usize, Relaxed);
    LENGTHS[index].store(length, Relaxed);
}

pub fn watch() {
    let handler = ended as extern "C" fn(i32, *const u8, *const u8) as usize;
    let action = Action { handler, mask: [0; 16], flags: WITH_ADDRESS_ON_OWN_STACK, restorer: 0 };
    for signal in SIGNALS {
        // SAFETY: `action` is laid out as the system has it and lives through the call; the old one is not asked for.
        unsafe { sigaction(signal, &action, std::ptr::null_mut()) };
    }
}

/// The buffer nearest to an address, if there is one within a megabyte.
fn nearest(address: usize) -> Option<(usize, isize)> {
    let distance = |index: &usize| {
        let start = STARTS[*index].load(Relaxed);
        let end = start + LENGTHS[*index].load(Relaxed);
        if address < start {
            start - address
        } else {
            address.saturating_sub(end)
        }
    };
    let index = (0..4).filter(|index| STARTS[*index].load(Relaxed) != 0).min_by_key(distance)?;
    let byte = address as isize - STARTS[index].load(Relaxed) as isize;
    (distance(&index) < 1 << 20).then_some((index, byte))
}

extern "C" fn ended(signal: i32, info: *const u8, _: *const u8) {
    let mut line = Line { bytes: [0; 400], length: 0 };
    // SAFETY: nobody writes it while this runs, on the one thread that does.
    let case = unsafe { &*addr_of!(CASE) };
    let words = std::str::from_utf8(&case.bytes[..case.length]).unwrap_or("");
    let _ = write!(line, "\nDIFFERENCE {words}: ended by signal {signal}");
    if signal == ALARM {
        let _ = write!(line, ", it runs on without end");
    }
    // The address stands at byte 16 of what the system tells about signals 7 and 11.
    // SAFETY: the system hands over that many bytes and more, whatever the signal is.
    let address = unsafe { info.wrapping_add(16).cast::<usize>().read_unaligned() };
    if let Some((index, byte)) = nearest(address).filter(|_| signal == 7 || signal == 11) {
        let length = LENGTHS[index].load(Relaxed);
        let _ = write!(line, " at byte {byte} of buffer {index}, which has {length} bytes");
        let inside = byte >= 0 && (byte as usize) < length;
        let _ = line.write_str(if inside { ": it writes what must stay untouched" } else { "" });
    }
    let _ = line.write_str("\ncompare: FAILED\n");
    for process in STARTED.iter().map(|process| process.load(Relaxed)).filter(|process| *process > 0) {
        // SAFETY: it takes two numbers; the process is one that was started here.
        unsafe { kill(process, 9) };
    }
    // SAFETY: `length` bytes of the line are written, and it has them; then the process ends.
    unsafe {
        write(1, line.bytes.as_ptr(), line.length);
        _exit(1)
    }
}
