//! Answers of this implementation alone, for lines of hexadecimal octets on
//! standard input.

use std::io::{self, BufRead, Write};

use crate::reader::{self, Marks, State};
use crate::runs;
use crate::sets::Sets;
use crate::unit::*;
use crate::writer;

/// Prints a line for every line of standard input.
pub fn serve(print: fn(&str) -> Result<String, String>) -> Result<(), String> {
    let mut out = io::stdout().lock();
    for line in io::stdin().lock().lines() {
        let line = line.map_err(|e| e.to_string())?;
        let printed = print(&line)?;
        writeln!(out, "{printed}").map_err(|e| e.to_string())?;
    }
    Ok(())
}

/// `number place count`
pub fn answer(line: &str) -> Result<String, String> {
    Ok(show_answer(&reader::check(&octets(line)?)))
}

/// The answer, and the units before the end or the offending element as
/// `[kind set code start length direction depth]`, the code in hexadecimal.
pub fn units(line: &str) -> Result<String, String> {
    let (units, answer) = reader::units_from(&octets(line)?, State::fresh());
    Ok(show_reading(&units, &answer))
}

/// The answer, and the runs as `[start length set width direction]`.
pub fn runs(line: &str) -> Result<String, String> {
    let s = octets(line)?;
    let mut shown = show_answer(&reader::check(&s));
    for run in runs::runs(&s).unwrap_or_default() {
        shown += &format!(
            " [{} {} {} {} {}]",
            run.start, run.length, run.set, run.width, run.direction
        );
    }
    Ok(shown)
}

/// The shortest form in hexadecimal, or `refused N at P`.
pub fn write(line: &str) -> Result<String, String> {
    let s = octets(line)?;
    Ok(match reader::read(&s) {
        Ok(units) => show_octets(&writer::shortest_lazy(&units, &s)),
        Err(answer) => format!("refused {} at {}", answer.number, answer.place),
    })
}

/// What a reader made by hand hands out. The line is
/// `place gl gr directions marked texted handed octets`: decimal numbers, the
/// open directions as `-` or a word of `l` and `r` with the innermost last,
/// marked and texted as 0 or 1.
pub fn step(line: &str) -> Result<String, String> {
    let words: Vec<&str> = line.splitn(8, ' ').collect();
    let [place, gl, gr, directions, marked, texted, handed, rest @ ..] = words.as_slice() else {
        return Err(format!("not a reader's state: {line}"));
    };
    let state = State {
        place: number(place)?,
        sets: Sets {
            gl: number(gl)?,
            gr: number(gr)?,
        },
        marks: Marks {
            open: open_directions(directions)?,
            marked: *marked == "1",
            texted: *texted == "1",
        },
        handed: number(handed)?,
    };
    let s = octets(rest.first().unwrap_or(&""))?;
    let (units, answer) = reader::units_from(&s, state);
    Ok(show_reading(&units, &answer))
}

fn open_directions(word: &str) -> Result<Vec<Direction>, String> {
    word.chars()
        .filter(|&letter| letter != '-')
        .map(|letter| match letter {
            'l' => Ok(Direction::LeftToRight),
            'r' => Ok(Direction::RightToLeft),
            _ => Err(format!("not a direction: {letter}")),
        })
        .collect()
}

fn number<T: std::str::FromStr>(word: &str) -> Result<T, String> {
    word.parse().map_err(|_| format!("not a number: {word}"))
}

/// The octets of a line of hexadecimal digits, with or without blanks.
pub fn octets(line: &str) -> Result<Vec<u8>, String> {
    let digits: Vec<u8> = line.bytes().filter(|b| !b.is_ascii_whitespace()).collect();
    digits
        .chunks(2)
        .map(|pair| {
            let pair = std::str::from_utf8(pair).ok().filter(|p| p.len() == 2);
            pair.and_then(|p| u8::from_str_radix(p, 16).ok())
                .ok_or_else(|| format!("not hexadecimal octets: {line}"))
        })
        .collect()
}

pub fn show_octets(octets: &[u8]) -> String {
    let shown: Vec<String> = octets.iter().map(|o| format!("{o:02X}")).collect();
    shown.join(" ")
}

pub fn show_answer(answer: &Answer) -> String {
    format!("{} {} {}", answer.number, answer.place, answer.count)
}

pub fn show_unit(unit: &Unit) -> String {
    format!(
        "[{} {} {:02X} {} {} {} {}]",
        unit.kind, unit.set, unit.code, unit.start, unit.length, unit.direction, unit.depth
    )
}

pub fn show_units(units: &[Unit]) -> String {
    let shown: Vec<String> = units.iter().map(show_unit).collect();
    shown.join(" ")
}

fn show_reading(units: &[Unit], answer: &Answer) -> String {
    format!("{} {}", show_answer(answer), show_units(units))
        .trim_end()
        .to_string()
}
