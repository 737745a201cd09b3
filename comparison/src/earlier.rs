//! An earlier state of the proved library, loaded beside the linked one. Only a
//! shared object keeps the two apart, because their entries have the same names.

use crate::{AnswerEntry, Library, PhaseEntry};
use std::collections::BTreeMap;
use std::ffi::{c_char, c_int, c_void, CStr, CString};
use std::mem::transmute;

extern "C" {
    fn dlopen(path: *const c_char, mode: c_int) -> *mut c_void;
    fn dlsym(object: *mut c_void, name: *const c_char) -> *mut c_void;
    fn dlerror() -> *const c_char;
}

/// Resolves all names on opening, so that no call is timed with it.
const RTLD_NOW: c_int = 2;

/// Loads the shared object at a path, for the rest of the process. That its
/// entries are the library's is taken on trust; no path, no object and no entry
/// of the name each give a message.
pub fn load(path: &str) -> Result<Library, String> {
    load_whole(path).map_err(|reason| format!("no earlier library at {path}: {reason}"))
}

fn load_whole(path: &str) -> Result<Library, String> {
    // A bare name would be looked for in the system's folders.
    let whole = std::fs::canonicalize(path).map_err(|error| error.to_string())?;
    let whole = CString::new(whole.into_os_string().into_encoded_bytes())
        .map_err(|error| error.to_string())?;
    // SAFETY: the path ends in a 0; what opening runs is the C runtime's alone.
    let object = found(unsafe { dlopen(whole.as_ptr(), RTLD_NOW) })?;
    let entry = |name: &CStr| {
        // SAFETY: the object is open, and the name ends in a 0.
        found(unsafe { dlsym(object, name.as_ptr()) })
    };
    let (answer, phase) = (entry(c"density_answer")?, entry(c"density_phase")?);
    // SAFETY: neither is null, the object is never closed, and the library's
    // entries of these names have these types.
    Ok(unsafe {
        Library {
            answer: transmute::<*mut c_void, AnswerEntry>(answer),
            phase: transmute::<*mut c_void, PhaseEntry>(phase),
        }
    })
}

/// What was asked for, or the loader's message where there is none.
fn found(pointer: *mut c_void) -> Result<*mut c_void, String> {
    if pointer.is_null() {
        // SAFETY: after a failure it is a text that stands until the next call.
        let message = unsafe { CStr::from_ptr(dlerror()) };
        return Err(message.to_string_lossy().into_owned());
    }
    Ok(pointer)
}

/// The word that a line begins with.
pub fn word_of(line: &str) -> &str {
    line.split(' ').next().unwrap_or(line)
}

/// What two states print for a job, as far as it is not the same.
pub struct Difference<'a> {
    /// Each line as it is now and as it was before; empty where none begins with
    /// its word.
    pub changed: Vec<[&'a str; 2]>,
    /// Lines of an answer that begin with a word which no line of the earlier
    /// state's answer does. They say more, and change nothing of what it said.
    pub new: Vec<&'a str>,
}

/// Compares what is printed now with what was before. No text has two lines that
/// begin with one word.
pub fn difference<'a>(now: &'a str, before: &'a str) -> Difference<'a> {
    let mut pairs: BTreeMap<&str, [&str; 2]> = BTreeMap::new();
    for (place, text) in [now, before].into_iter().enumerate() {
        for line in text.lines() {
            pairs.entry(word_of(line)).or_default()[place] = line;
        }
    }
    // A refusal has none of an answer's lines, so between the two all lines change.
    let are_answers = [now, before].iter().all(|text| word_of(text) != "(refused");
    let differing = pairs.into_values().filter(|[now, before]| now != before);
    let (new, changed): (Vec<_>, Vec<_>) =
        differing.partition(|[_, before]| are_answers && before.is_empty());
    Difference {
        changed,
        new: new.into_iter().map(|[line, _]| line).collect(),
    }
}

#[cfg(test)]
mod tests {
    use super::*;

    const BEFORE: &str = "(density 2500)\n(fill safe)\n";
    const REFUSED: &str = "(refused 11 8)\n";

    /// Checks the lines that changed and the new ones.
    fn assert_difference(now: &str, before: &str, changed: &[[&str; 2]], new: &[&str]) {
        let found = difference(now, before);
        assert_eq!((&found.changed[..], &found.new[..]), (changed, new));
    }

    #[test]
    fn a_line_of_a_new_word_is_no_change() {
        assert_difference(BEFORE, BEFORE, &[], &[]);
        let now = "(density 2500)\n(positions 0 25 0)\n(fill safe)\n";
        assert_difference(now, BEFORE, &[], &["(positions 0 25 0)"]);
        let other = "(density 2499)\n(positions 0 25 0)\n(fill safe)\n";
        let density = ["(density 2499)", "(density 2500)"];
        assert_difference(other, BEFORE, &[density], &["(positions 0 25 0)"]);
        // One that is gone is a change.
        assert_difference(BEFORE, now, &[["", "(positions 0 25 0)"]], &[]);
    }

    #[test]
    fn between_an_answer_and_a_refusal_all_lines_change() {
        let (density, fill) = ("(density 2500)", "(fill safe)");
        let refused = "(refused 11 8)";
        let accepted_now = [[density, ""], [fill, ""], ["", refused]];
        assert_difference(BEFORE, REFUSED, &accepted_now, &[]);
        let refused_now = [["", density], ["", fill], [refused, ""]];
        assert_difference(REFUSED, BEFORE, &refused_now, &[]);
        let elsewhere = [["(refused 11 9)", refused]];
        assert_difference("(refused 11 9)\n", REFUSED, &elsewhere, &[]);
    }
}
