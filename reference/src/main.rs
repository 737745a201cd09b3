//! Reads a job on standard input and prints its answer or its refusal.

use reference::answer::{printed, Method};
use std::io::{self, Read, Write};

fn main() -> io::Result<()> {
    let mut job = Vec::new();
    io::stdin().lock().read_to_end(&mut job)?;
    let text = printed(Method::Fast, &job);
    io::stdout().lock().write_all(text.as_bytes())
}
