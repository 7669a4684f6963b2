//! A second implementation of the reader, whole and in steps, the runs and the
//! writer of Compound Text, of the form in resource files, of the X11R5 form, and of
//! the table of sets, made from the papers alone, and its comparison with the proved
//! library.

#![deny(unsafe_code)]

mod archive;
mod compare;
mod escaping;
#[cfg(test)]
mod faults;
mod ffi;
mod forms;
mod listing;
mod lists;
mod naming;
mod nesting;
mod odd;
mod oracle;
mod places;
mod positions;
mod r5_lists;
mod r5_reader;
mod r5_reading;
mod r5_strings;
mod r5_writer;
mod r5_writing;
mod random;
mod reader;
mod resource;
mod run_steps;
mod running;
mod runs;
mod session;
mod sets;
mod shape;
mod shrink;
mod stepping;
mod steps;
mod stretches;
mod strings;
#[cfg(test)]
mod tests;
mod unit;
mod writer;
#[cfg(test)]
mod wrong_archive;
#[cfg(test)]
mod wrong_directions;
#[cfg(test)]
mod wrong_places;
#[cfg(test)]
mod wrong_r5_reader;
#[cfg(test)]
mod wrong_r5_writer;
#[cfg(test)]
mod wrong_rules;

use std::env;
use std::process::ExitCode;
use std::time::Duration;

use ffi::Functions;
use session::Plan;

const USAGE: &str = "\
second compare [--long] [--minutes N] [--seed N]
               [--only check,read,run,next,runs,listed,write,resource,sets,archive,r5]
second answer|units|runs|write   lines of hexadecimal octets on standard input
second step                      lines `place gl gr directions marked texted handed octets`";

fn main() -> ExitCode {
    let words: Vec<String> = env::args().skip(1).collect();
    match run(&words) {
        Ok(code) => code,
        Err(message) => {
            eprintln!("{message}");
            ExitCode::from(2)
        }
    }
}

fn run(words: &[String]) -> Result<ExitCode, String> {
    let Some((command, options)) = words.split_first() else {
        return Err(USAGE.to_string());
    };
    match command.as_str() {
        "compare" => return compare(options),
        "answer" => oracle::serve(oracle::answer)?,
        "units" => oracle::serve(oracle::units)?,
        "runs" => oracle::serve(oracle::runs)?,
        "write" => oracle::serve(oracle::write)?,
        "step" => oracle::serve(oracle::step)?,
        _ => return Err(USAGE.to_string()),
    }
    Ok(ExitCode::SUCCESS)
}

fn compare(options: &[String]) -> Result<ExitCode, String> {
    let plan = plan(options)?;
    if plan.functions == Functions::NONE {
        return Err("no function of the library is linked and chosen".to_string());
    }
    let differences = session::compare(ffi::Proved, &plan);
    Ok(if differences == 0 {
        ExitCode::SUCCESS
    } else {
        ExitCode::FAILURE
    })
}

fn plan(options: &[String]) -> Result<Plan, String> {
    let mut plan = Plan {
        functions: ffi::LINKED,
        seed: 1,
        long: None,
    };
    let (mut long, mut minutes) = (false, 30);
    let mut options = options.iter();
    while let Some(option) = options.next() {
        let mut value = || options.next().ok_or(format!("{option} needs a value"));
        match option.as_str() {
            "--long" => long = true,
            "--minutes" => minutes = number(value()?)?,
            "--seed" => plan.seed = number(value()?)?,
            "--only" => plan.functions = only(value()?)?,
            _ => return Err(format!("unknown option {option}\n{USAGE}")),
        }
    }
    plan.long = long.then(|| Duration::from_secs(60 * minutes));
    Ok(plan)
}

fn number(word: &str) -> Result<u64, String> {
    word.parse().map_err(|_| format!("not a number: {word}"))
}

/// The functions named, as far as they are linked.
fn only(names: &str) -> Result<Functions, String> {
    let names: Vec<&str> = names.split(',').collect();
    let known = [
        "check", "read", "run", "next", "runs", "listed", "write", "resource", "sets", "archive",
        "r5",
    ];
    if let Some(name) = names.iter().find(|name| !known.contains(name)) {
        return Err(format!("unknown function {name}"));
    }
    Ok(Functions {
        check: ffi::LINKED.check && names.contains(&"check"),
        read: ffi::LINKED.read && names.contains(&"read"),
        run: ffi::LINKED.run && names.contains(&"run"),
        next: ffi::LINKED.next && names.contains(&"next"),
        runs: ffi::LINKED.runs && names.contains(&"runs"),
        listed: ffi::LINKED.listed && names.contains(&"listed"),
        write: ffi::LINKED.write && names.contains(&"write"),
        resource: ffi::LINKED.resource && names.contains(&"resource"),
        sets: ffi::LINKED.sets && names.contains(&"sets"),
        archive: ffi::LINKED.archive && names.contains(&"archive"),
        r5: ffi::LINKED.r5 && names.contains(&"r5"),
    })
}
