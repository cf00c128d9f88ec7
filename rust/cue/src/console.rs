//! What is printed: answers on standard output, in one buffer; messages on standard error; the exit status that they add up to.
use crate::input::Progress;
use std::fmt::Display;
use std::io::{self, BufWriter, IsTerminal, StdoutLock, Write};

/// A cue was refused.
pub const REFUSED: u8 = 1;
/// Wrong words, or input that is no cue's text.
pub const WRONG: u8 = 2;

pub struct Console {
    pub out: BufWriter<StdoutLock<'static>>,
    /// is output coloured?
    pub colour: bool,
    /// the largest that was met
    pub status: u8,
    pub progress: Progress,
    is_terminal: bool,
}

impl Console {
    /// `choice` is that of `--color`.
    pub fn new(choice: &str) -> Self {
        let stdout = io::stdout().lock();
        let is_terminal = stdout.is_terminal();
        let colour = match choice {
            "always" => true,
            "never" => false,
            _ => {
                let set = |name| std::env::var_os(name).is_some_and(|v| !v.is_empty());
                is_terminal && !set("NO_COLOR") && std::env::var_os("TERM").is_some_and(|t| t != "dumb")
            }
        };
        Console { out: BufWriter::with_capacity(1 << 16, stdout), colour, status: 0, progress: Progress::default(), is_terminal }
    }

    /// A message on standard error, about cue `number` of the input.
    pub fn complain(&mut self, status: u8, number: u64, what: impl Display) {
        self.say(status, format_args!("cue {number}: {what}"));
    }

    /// A message on standard error.
    pub fn say(&mut self, status: u8, what: impl Display) {
        self.status = self.status.max(status);
        self.progress.clear();
        if self.is_terminal {
            // on a terminal the two appear in order; where it is gone, the next write of an answer says so
            let _ = self.out.flush();
        }
        // where standard error is closed there is nobody to tell
        let _ = writeln!(io::stderr(), "{what}");
    }
}
