//! The proved library through its C entries, beside the second implementation.

pub mod earlier;
pub mod plain;
pub mod timing;

use reference::answer::{Answer, Method, Reply, ANSWER_ROOM};

/// File, its length, buffer and its length.
type AnswerEntry = unsafe extern "C" fn(*const u8, usize, *mut u8, usize) -> u64;
/// File, its length and the phase.
type PhaseEntry = unsafe extern "C" fn(*const u8, usize, u64) -> u64;

mod entries {
    extern "C" {
        pub(super) fn density_answer(
            file: *const u8,
            file_length: usize,
            out: *mut u8,
            out_length: usize,
        ) -> u64;
        pub(super) fn density_phase(file: *const u8, file_length: usize, phase: u64) -> u64;
    }
}

/// A state of the proved library, by its entries.
#[derive(Clone, Copy)]
pub struct Library {
    answer: AnswerEntry,
    phase: PhaseEntry,
}

/// The state that is linked.
pub const LINKED: Library = Library {
    answer: entries::density_answer,
    phase: entries::density_phase,
};

/// The library's one number is this many times the fault's number, 0 for none,
/// plus the answer's length or the fault's line.
const FACTOR: u64 = 100_000;

impl Library {
    /// The proved unit's answer into a lent buffer.
    pub fn answer(&self, file: &[u8], out: &mut [u8]) -> Reply {
        // SAFETY: both are slices for the time of the call, and the function has
        // no condition of its own.
        let code = unsafe { (self.answer)(file.as_ptr(), file.len(), out.as_mut_ptr(), out.len()) };
        let (number, value) = (code / FACTOR, code % FACTOR);
        if number == 0 {
            Reply::Accepted(value as usize)
        } else {
            Reply::Refused {
                number: number as u32,
                line: value as u32,
            }
        }
    }

    /// What the program prints for a job: its answer or its refusal.
    pub fn printed(&self, file: &[u8]) -> String {
        let (reply, out) = answered(|file, out| self.answer(file, out), file, ANSWER_ROOM);
        match reply {
            Reply::Accepted(length) => String::from_utf8_lossy(&out[..length]).into_owned(),
            Reply::Refused { number, line } => format!("(refused {number} {line})\n"),
        }
    }

    /// Reads a job and runs one phase, for the benchmark: 1 is the exact run,
    /// which gives the greatest area; 2 the exact run and the quick run for the
    /// greatest, which gives the ceiling; 3 the exact run and the quick run for
    /// the least, which gives the low end; 4 the verdict; 5 the positions, which
    /// gives those within; 0 reads only. A phase that a state does not have gives 0.
    pub fn phase(&self, file: &[u8], phase: u64) -> u64 {
        // SAFETY: as for `answer`.
        unsafe { (self.phase)(file.as_ptr(), file.len(), phase) }
    }
}

/// The byte that buffers hold before a call: no answer has it.
const UNTOUCHED: u8 = 0xa5;

/// The reply of an implementation, and its buffer of that length afterwards.
pub fn answered(
    answer: impl Fn(&[u8], &mut [u8]) -> Reply,
    file: &[u8],
    room: usize,
) -> (Reply, Vec<u8>) {
    let mut out = vec![UNTOUCHED; room];
    (answer(file, &mut out), out)
}

/// Holds the proved library to the second implementation's reply and to all bytes
/// of the buffer, for one job and one length of buffer.
fn compare_with_room(file: &[u8], second: &Answer, room: usize) -> Reply {
    let proved = answered(|file, out| LINKED.answer(file, out), file, room);
    let second = answered(|_, out| second.write(out), file, room);
    assert_eq!(proved, second, "room {room}: {}", shown(file));
    proved.0
}

/// The same for buffers of no length, one byte short, exact and longer. The
/// second implementation writes only the front of an accepted job's buffer, so
/// equal buffers are untouched everywhere else.
pub fn compare(file: &[u8]) {
    let second = Answer::new(Method::Fast, file);
    match compare_with_room(file, &second, ANSWER_ROOM) {
        Reply::Accepted(length) => {
            for room in [0, length - 1, length, length + 1] {
                compare_with_room(file, &second, room);
            }
        }
        Reply::Refused { .. } => {
            compare_with_room(file, &second, 0);
        }
    }
}

/// A file for a message: its first bytes as text.
fn shown(file: &[u8]) -> String {
    String::from_utf8_lossy(&file[..file.len().min(2000)]).into_owned()
}

/// Runs a task on a stack that holds the library's tables: the unit keeps all of
/// its tables on the stack, and a test's thread has but little of it.
pub fn on_large_stack(task: impl FnOnce() + Send + 'static) {
    std::thread::Builder::new()
        .stack_size(64 << 20)
        .spawn(task)
        .expect("a thread")
        .join()
        .expect("a task that does not panic");
}
