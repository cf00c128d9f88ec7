//! `cue`: SCTE 35 cues on the command line. It hands bytes to the proved functions of libscte35.a and prints what comes back; nothing of the standard
//! is read or written here. Each verb is a file of `verbs/`.
#![forbid(unsafe_code)]
mod console;
mod input;
mod json;
mod layout;
mod names;
mod text;
mod verbs;

use clap::{Arg, Command};
use console::{Console, WRONG};
use std::io::{ErrorKind, Write};
use std::process::ExitCode;

/// All words of the command line.
fn command() -> Command {
    Command::new("cue")
        .version(env!("CARGO_PKG_VERSION"))
        .about("Reads, shows, checks and makes SCTE 35 cues, by proved code")
        // examples stay on one line each
        .term_width(0)
        .after_help(
            "A CUE is base64 (either alphabet, padded or not), hexadecimal (with or without 0x, blanks, colons),\n\
             @FILE, or - for standard input: a cue a line, or one cue as raw bytes.\n\n\
             Exit status: 0 where all cues were accepted, 1 where one was refused, 2 for wrong words or input that\n\
             is no cue's text.\n\n\
             Example:\n  cue show /DA0AAAAAAAA///wBQb+cr0AUAAeAhxDVUVJSAAAjn/PAAGlmbAICAAAAAAsoKGKNAIAmsnRfg==",
        )
        .propagate_version(true)
        .subcommand_required(true)
        .arg_required_else_help(true)
        .arg(
            Arg::new("color")
                .long("color")
                .value_name("WHEN")
                .help("Whether to colour: on a terminal without NO_COLOR (auto), always, or never")
                .value_parser(["auto", "always", "never"])
                .default_value("auto")
                .hide_default_value(true)
                .hide_possible_values(true)
                .global(true),
        )
        .subcommands(verbs::ALL.iter().map(|verb| (verb.words)(Command::new(verb.name))))
}

fn main() -> ExitCode {
    let words = command().get_matches();
    let Some((name, words)) = words.subcommand() else { return ExitCode::from(WRONG) };
    let Some(verb) = verbs::ALL.iter().find(|verb| verb.name == name) else { return ExitCode::from(WRONG) };
    let mut console = Console::new(words.get_one::<String>("color").map_or("auto", String::as_str));
    if let Err(why) = (verb.run)(words, &mut console).and_then(|()| console.out.flush()) {
        // whoever closed the pipe has read enough
        if why.kind() != ErrorKind::BrokenPipe {
            console.say(WRONG, format_args!("cue: {why}"));
        }
    }
    let status = console.status;
    // what is left in the buffer could not be written, and is not tried again
    std::mem::forget(console);
    ExitCode::from(status)
}
