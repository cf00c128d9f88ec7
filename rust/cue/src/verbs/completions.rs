//! `cue completions`: what a shell needs to complete the words of `cue`.
use crate::console::Console;
use clap::{Arg, ArgMatches, Command};
use clap_complete::Shell;
use std::io::{self, Write};

pub fn words(command: Command) -> Command {
    command
        .about("Prints the completions for a shell")
        .arg(Arg::new("shell").value_name("SHELL").value_parser(["bash", "zsh", "fish"]).required(true).help("Which shell"))
        .after_help("Example:\n  cue completions bash")
}

pub fn run(words: &ArgMatches, console: &mut Console) -> io::Result<()> {
    let shell = match words.get_one::<String>("shell").map(String::as_str) {
        Some("zsh") => Shell::Zsh,
        Some("fish") => Shell::Fish,
        _ => Shell::Bash,
    };
    let mut script = vec![];
    clap_complete::generate(shell, &mut crate::command(), "cue", &mut script);
    console.out.write_all(&script)
}

#[cfg(test)]
mod tests {
    use crate::verbs::tests::{cue, stdout};

    #[test]
    fn each_shell() {
        for (shell, first) in [("bash", "_cue()"), ("zsh", "#compdef cue"), ("fish", "complete -c cue")] {
            let script = stdout(&["completions", shell]);
            assert!(script.starts_with(first), "{script}");
            for verb in crate::verbs::ALL {
                assert!(script.contains(verb.name), "{shell} {}", verb.name);
            }
        }
        cue(&["completions", "tcsh"]).assert().code(2);
    }
}
