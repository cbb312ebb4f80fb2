//! Command line of the second program.

mod commands;

use commands::{bench, lists, sessions, steps, texts, vectors, Outcome, Output};
use std::io::Write;
use std::process::ExitCode;

struct Command {
    name: &'static str,
    usage: &'static str,
    about: &'static str,
    run: fn(&[String]) -> Outcome,
}

const COMMANDS: &[Command] = &[
    Command {
        name: "report",
        usage: "LIST OPERANDS SCHEDULE",
        about: "Runs the schedule and prints the report; ends with status 0 whatever the files hold.",
        run: sessions::report,
    },
    Command {
        name: "compare",
        usage: "[--report PATH] N SEED",
        about: "Runs N random sessions: the report program at PATH (target/bin/report) against this one, demand 3 on this machine,
    and, built with `--features proved`, the entries of the proved library; status 1 and the smallest case if any differs.",
        run: sessions::compare,
    },
    Command {
        name: "bench",
        usage: "[--rounds N]",
        about: "Measures the proved library against this program, medians of N rounds (200); needs a build with `--features proved`.",
        run: bench::bench,
    },
    Command {
        name: "assemble",
        usage: "TEXT > LIST",
        about: "Makes a list file from lines such as `LD F0,0`, `ADR F0,F2`, `STD F4,17`; # and ; begin comments.",
        run: texts::assemble,
    },
    Command {
        name: "listing",
        usage: "LIST",
        about: "Prints a list file as text for `assemble`.",
        run: texts::listing,
    },
    Command {
        name: "operands",
        usage: "TEXT > FILE",
        about: "Makes an operands file from decimal numbers or patterns such as 0x3FF8000000000000, one a line.",
        run: texts::operands,
    },
    Command {
        name: "operands-text",
        usage: "FILE",
        about: "Prints an operands file as text for `operands`.",
        run: texts::operands_text,
    },
    Command {
        name: "schedule",
        usage: "TEXT > FILE",
        about: "Makes a schedule from lines such as `issue`, `grant 2` and `code 23`.",
        run: texts::schedule,
    },
    Command {
        name: "schedule-text",
        usage: "FILE",
        about: "Prints a schedule as text for `schedule`.",
        run: texts::schedule_text,
    },
    Command {
        name: "read-list",
        usage: "FILE ROOM",
        about: "Reads a list file into ROOM words: `refusal R at P count C`, then the words.",
        run: vectors::read_list,
    },
    Command {
        name: "check-list",
        usage: "[--areas OPERANDS RESULTS] WORD..",
        about: "Checks decimal words, against areas of these lengths if given: `refusal R at P`.",
        run: vectors::check_list_words,
    },
    Command {
        name: "lists",
        usage: "FILE..",
        about: "Reads, checks and writes the lists named, and prints what the proved program `lists` should.",
        run: lists::lists,
    },
    Command {
        name: "steps",
        usage: "SESSION..",
        about: "Takes the steps of the sessions named, and prints what the proved program `steps` should.",
        run: steps::steps,
    },
];

fn main() -> ExitCode {
    let texts = std::env::args_os().skip(1).map(|argument| argument.into_string());
    let Ok(arguments) = texts.collect::<Result<Vec<String>, _>>() else {
        eprintln!("second: an argument is not UTF-8 text");
        return ExitCode::from(2);
    };
    let Some((name, rest)) = arguments.split_first() else {
        eprintln!("second: needs a subcommand; `second --help` lists them");
        return ExitCode::from(2);
    };
    if name == "--help" {
        return print(overview().into());
    }
    let Some(command) = COMMANDS.iter().find(|command| command.name == name) else {
        eprintln!("second: unknown subcommand `{name}`; `second --help` lists them");
        return ExitCode::from(2);
    };
    if rest == ["--help"] {
        return print(help(command).into());
    }
    match (command.run)(rest) {
        Ok(output) => print(output),
        Err(message) => {
            eprintln!("second {name}: {message}");
            ExitCode::from(2)
        }
    }
}

fn help(command: &Command) -> String {
    format!("second {} {}\n    {}\n", command.name, command.usage, command.about)
}

fn overview() -> String {
    COMMANDS.iter().map(help).collect()
}

fn print(output: Output) -> ExitCode {
    match std::io::stdout().write_all(&output.bytes) {
        Ok(()) => ExitCode::from(output.status),
        Err(error) => {
            eprintln!("second: standard output: {error}");
            ExitCode::from(2)
        }
    }
}
