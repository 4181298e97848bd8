//! A plain program that does what `world run` does to jobs of `project` (of `const` and `ramp`), `print` and `fence`, in
//! stock Rust with std alone: the yardstick of the measurements. It proves nothing, and refuses what is wrong with such
//! jobs with the same lines. Other commands and functions are unknown to it.

use std::collections::{BTreeMap, HashSet};
use std::io::{self, Read, Write};
use std::process::ExitCode;

const MAX_INPUT: usize = 1_048_576;
const MAX_COMMANDS: usize = 512;
const MAX_COMMANDS_BEFORE_FENCE: usize = 32;
const MAX_TREES: usize = 16;
const MAX_PRINTS: usize = 64;
const MAX_VALUE: i64 = 1 << 24;
const MAX_DIFFERENCE: i64 = 1 << 25;

/// What is refused: the text of the line without its line feed.
type Refusal = String;

/// What is wrong with a line behind the header: its kind and its name.
type Fault = (u8, &'static str);

const ASCII: Fault = (1, "byte outside ASCII");
const HEADER: Fault = (2, "header");
const UNKNOWN_COMMAND: Fault = (3, "unknown command");
const WORDS: Fault = (4, "words");
const LIMIT: Fault = (5, "limit");
const UNKNOWN_TREE: Fault = (6, "unknown tree");
const FENCE: Fault = (8, "too many before a fence");

#[derive(Clone, Copy)]
enum Function {
    Const(i64),
    Ramp(i64, i64),
}

impl Function {
    fn value(self, cell: u32) -> i64 {
        match self {
            Function::Const(constant) => constant,
            Function::Ramp(start, slope) => start + slope * i64::from(cell),
        }
    }

    fn fits(self, depth: u32) -> bool {
        let is_value = |number: i64| number.abs() <= MAX_VALUE;
        match self {
            Function::Const(constant) => is_value(constant),
            Function::Ramp(start, slope) => {
                slope.abs() <= MAX_DIFFERENCE
                    && is_value(start)
                    && is_value(self.value((1 << depth) - 1))
            }
        }
    }
}

struct Projection {
    function: Function,
    level: u32,
    tolerance: u64,
}

enum Command<'a> {
    Project(&'a [u8], Projection),
    Print(&'a [u8]),
    Fence,
}

/// The commands so far, and what the check of one more needs of them.
#[derive(Default)]
struct Accepted<'a> {
    commands: Vec<Command<'a>>,
    names: HashSet<&'a [u8]>,
    prints: usize,
    since_fence: usize,
}

/// The leaves of a tree in key order, a key being its level and its place, each with the sum over its box.
type Leaves = BTreeMap<(u32, u32), i64>;

fn lines(text: &[u8]) -> impl Iterator<Item = &[u8]> {
    text.split_inclusive(|byte| *byte == b'\n')
        .map(|line| match line {
            [front @ .., b'\r', b'\n'] | [front @ .., b'\n'] => front,
            rest => rest,
        })
}

fn words(line: &[u8]) -> Vec<&[u8]> {
    line.split(|byte| matches!(byte, b' ' | b'\t'))
        .filter(|word| !word.is_empty())
        .collect()
}

fn number(word: &[u8]) -> Option<i64> {
    let digits = word.strip_prefix(b"-").unwrap_or(word);
    let is_number = (1..=18).contains(&digits.len()) && digits.iter().all(u8::is_ascii_digit);
    if is_number {
        std::str::from_utf8(word).ok()?.parse().ok()
    } else {
        None
    }
}

fn within(number: i64, limit: i64) -> bool {
    (0..=limit).contains(&number)
}

fn is_name(word: &[u8]) -> bool {
    let is_name_byte = |byte: &u8| matches!(byte, b'a'..=b'z' | b'0'..=b'9' | b'_');
    word.len() <= 16 && word[0].is_ascii_lowercase() && word.iter().all(is_name_byte)
}

fn depth_of(words: &[&[u8]]) -> Option<u32> {
    match words {
        [b"job", b"1", b"depth", depth] => {
            Some(number(depth).filter(|depth| within(*depth, 16))? as u32)
        }
        _ => None,
    }
}

/// The command of a line where its words are in a form, and whether its numbers are within their limits.
fn form_of<'a>(depth: u32, words: &[&'a [u8]]) -> Option<(Command<'a>, bool)> {
    let (name, function, level, tolerance) = match *words {
        [b"fence"] => return Some((Command::Fence, true)),
        [b"print", name] if is_name(name) => return Some((Command::Print(name), true)),
        [
            b"project",
            name,
            b"const",
            constant,
            b"level",
            level,
            b"tol",
            tolerance,
        ] => (name, Function::Const(number(constant)?), level, tolerance),
        [
            b"project",
            name,
            b"ramp",
            start,
            slope,
            b"level",
            level,
            b"tol",
            tolerance,
        ] => {
            let function = Function::Ramp(number(start)?, number(slope)?);
            (name, function, level, tolerance)
        }
        _ => return None,
    };
    let (level, tolerance) = (number(level)?, number(tolerance)?);
    let is_within = function.fits(depth)
        && within(level, i64::from(depth))
        && within(tolerance, MAX_DIFFERENCE);
    let projection = Projection {
        function,
        level: level as u32,
        tolerance: tolerance as u64,
    };
    is_name(name).then_some((Command::Project(name, projection), is_within))
}

fn command_of<'a>(depth: u32, words: &[&'a [u8]], before: &Accepted) -> Result<Command<'a>, Fault> {
    if !matches!(words[0], b"project" | b"print" | b"fence") {
        return Err(UNKNOWN_COMMAND);
    }
    let (command, is_within) = form_of(depth, words).ok_or(WORDS)?;
    let has_room = match &command {
        Command::Project(name, _) => before.names.contains(name) || before.names.len() < MAX_TREES,
        Command::Print(_) => before.prints < MAX_PRINTS,
        Command::Fence => true,
    };
    if !is_within || !has_room || before.commands.len() >= MAX_COMMANDS {
        return Err(LIMIT);
    }
    match &command {
        Command::Print(name) if !before.names.contains(name) => Err(UNKNOWN_TREE),
        Command::Project(..) | Command::Print(_)
            if before.since_fence >= MAX_COMMANDS_BEFORE_FENCE =>
        {
            Err(FENCE)
        }
        _ => Ok(command),
    }
}

impl<'a> Accepted<'a> {
    fn add(&mut self, command: Command<'a>) {
        self.since_fence += 1;
        match &command {
            Command::Project(name, _) => {
                self.names.insert(name);
            }
            Command::Print(_) => self.prints += 1,
            Command::Fence => self.since_fence = 0,
        }
        self.commands.push(command);
    }
}

fn parse(text: &[u8]) -> Result<(u32, Vec<Command<'_>>), Refusal> {
    let (mut depth, mut accepted) = (None, Accepted::default());
    let mut count = 0;
    for (index, line) in lines(text).enumerate() {
        count = index + 1;
        let refusal = |(kind, name): Fault| format!("fault line {count} F{kind} {name}");
        let words = words(line);
        if words.first().is_none_or(|word| word[0] == b'#') {
            continue;
        }
        if !line.iter().all(|byte| matches!(byte, b'\t' | 32..=126)) {
            return Err(refusal(ASCII));
        }
        let Some(depth) = depth else {
            depth = Some(depth_of(&words).ok_or_else(|| refusal(HEADER))?);
            continue;
        };
        let command = command_of(depth, &words, &accepted).map_err(refusal)?;
        accepted.add(command);
    }
    let depth = depth.ok_or_else(|| format!("fault line {} F2 header", count + 1))?;
    Ok((depth, accepted.commands))
}

/// Adds the leaves at or below a key, whose box has the cells from `at << (depth - level)` on.
fn project(depth: u32, p: &Projection, level: u32, at: u32, leaves: &mut Leaves) {
    let value = |level: u32, at: u32| p.function.value(at << (depth - level));
    let differs = || value(level + 1, 2 * at).abs_diff(value(level + 1, 2 * at + 1)) > p.tolerance;
    if level < depth && (level < p.level || differs()) {
        project(depth, p, level + 1, 2 * at, leaves);
        project(depth, p, level + 1, 2 * at + 1, leaves);
    } else {
        leaves.insert((level, at), value(level, at) << (depth - level));
    }
}

fn job_text(depth: u32, commands: &[Command]) -> io::Result<Vec<u8>> {
    let mut trees: BTreeMap<&[u8], Leaves> = BTreeMap::new();
    let mut text = Vec::new();
    for command in commands {
        match command {
            Command::Project(name, projection) => {
                let mut leaves = Leaves::new();
                project(depth, projection, 0, 0, &mut leaves);
                trees.insert(name, leaves);
            }
            Command::Print(name) => {
                text.extend_from_slice(b"tree ");
                text.extend_from_slice(name);
                text.extend_from_slice(b" reconstructed\n");
                for ((level, at), sum) in &trees[name] {
                    writeln!(text, "{level} {at} {sum}")?;
                }
            }
            Command::Fence => {}
        }
    }
    Ok(text)
}

fn run() -> io::Result<u8> {
    let mut input = Vec::new();
    io::stdin()
        .take(MAX_INPUT as u64 + 1)
        .read_to_end(&mut input)?;
    let answer = if input.len() > MAX_INPUT {
        Err(Refusal::from("fault too long"))
    } else {
        parse(&input)
    };
    let (status, text) = match answer {
        Ok((depth, commands)) => (0, job_text(depth, &commands)?),
        Err(refusal) => (2, format!("{refusal}\n").into_bytes()),
    };
    io::stdout().write_all(&text)?;
    Ok(status)
}

fn main() -> ExitCode {
    match run() {
        Ok(status) => ExitCode::from(status),
        Err(_) => ExitCode::from(5),
    }
}
