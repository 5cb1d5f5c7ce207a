//! The other side of a comparison: whatever takes a listing's text and gives
//! what the listing program writes for it.

use std::io::{self, Write};
use std::path::PathBuf;
use std::process::{ChildStdin, Command, Stdio};
use std::time::Duration;
use std::{fs, thread};

pub trait Other {
    /// What the other side writes for a text that comes in pieces, or why that
    /// is no answer.
    fn answer_pieces(&self, pieces: &[&[u8]]) -> Result<Vec<u8>, String>;

    /// The same for a text that comes whole.
    fn answer(&self, text: &[u8]) -> Result<Vec<u8>, String> {
        self.answer_pieces(&[text])
    }
}

/// A listing program started anew for every text.
pub struct Child {
    path: PathBuf,
}

impl Child {
    pub fn new(path: impl Into<PathBuf>) -> Child {
        Child { path: path.into() }
    }
}

impl Other for Child {
    /// An exit status other than 0 is no answer.
    fn answer_pieces(&self, pieces: &[&[u8]]) -> Result<Vec<u8>, String> {
        let explain = |error: io::Error| format!("{}: {error}", self.path.display());
        let mut child =
            Command::new(&self.path).stdin(Stdio::piped()).stdout(Stdio::piped()).spawn().map_err(explain)?;
        let id = child.id();
        let mut input = child.stdin.take().expect("standard input was asked for");
        let output = thread::scope(|scope| {
            // A program may stop reading a text that is too long, so that a
            // failed write is no fault; what it answers is what counts.
            scope.spawn(move || feed(&mut input, pieces, id));
            child.wait_with_output()
        });
        let output = output.map_err(explain)?;
        if output.status.success() {
            Ok(output.stdout)
        } else {
            Err(format!("{}: {}", self.path.display(), output.status))
        }
    }
}

/// Writes the pieces with a pause between them, so that each is read alone.
fn feed(input: &mut ChildStdin, pieces: &[&[u8]], id: u32) -> io::Result<()> {
    for (place, piece) in pieces.iter().enumerate() {
        if place > 0 {
            pause(id);
        }
        input.write_all(piece)?;
        input.flush()?;
    }
    Ok(())
}

/// Waits at least a millisecond, and on a busy machine until the program has
/// read what there is and waits for more, or has ended.
fn pause(id: u32) {
    const MOST_MILLISECONDS: usize = 1_000;
    for _ in 0..MOST_MILLISECONDS {
        thread::sleep(Duration::from_millis(1));
        if !is_running(id) {
            return;
        }
    }
}

/// Whether the system says that a process is at work. Where it says nothing,
/// the answer is no.
fn is_running(id: u32) -> bool {
    let told = fs::read_to_string(format!("/proc/{id}/stat")).unwrap_or_default();
    told.rsplit(") ").next().is_some_and(|state| state.starts_with(['R', 'D']))
}

#[cfg(test)]
mod tests {
    use super::*;

    #[test]
    fn a_child_answers_with_its_output() {
        assert_eq!(Child::new("/bin/cat").answer(b"abc\n"), Ok(b"abc\n".to_vec()));
    }

    #[test]
    fn a_child_may_leave_a_long_text_unread() {
        assert_eq!(Child::new("/bin/true").answer(&[0; 1_000_000]), Ok(Vec::new()));
    }

    #[test]
    fn a_long_answer_does_not_block() {
        let text = vec![b'x'; 1_000_000];
        assert_eq!(Child::new("/bin/cat").answer(&text), Ok(text));
    }

    #[test]
    fn pieces_come_one_after_the_other() {
        assert_eq!(Child::new("/bin/cat").answer_pieces(&[b"", b"ab", b"", b"c\n"]), Ok(b"abc\n".to_vec()));
        assert_eq!(Child::new("/bin/cat").answer_pieces(&[]), Ok(Vec::new()));
    }

    #[test]
    fn each_piece_is_read_alone() {
        // The shell reads the first piece and leaves the second to its command.
        let pieces: [&[u8]; 2] = [b"dd bs=100 count=1 2>/dev/null\n", b"echo second\n"];
        assert_eq!(Child::new("/bin/sh").answer_pieces(&pieces), Ok(b"echo second\n".to_vec()));
    }

    #[test]
    fn an_exit_status_other_than_0_is_no_answer() {
        assert!(Child::new("/bin/false").answer(b"").is_err());
    }

    #[test]
    fn a_program_that_is_not_there_is_told() {
        assert!(Child::new("/no/such/program").answer(b"").is_err());
    }
}
