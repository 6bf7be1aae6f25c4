//! The two programs, run on inputs, and a small input on which one differs.

use crate::inputs::talk::Talk;
use crate::rules::program;
use crate::rules::survey::MOST_BYTES;
use std::fs::{self, File};
use std::io::{self, Seek};
use std::path::{Path, PathBuf};
use std::process::{Command, Stdio};

pub struct Programs {
    pub console: PathBuf,
    pub plan: PathBuf,
    /// The folder in which inputs are kept.
    pub kept: PathBuf,
}

/// What a program wrote, and its status if it ended by itself.
type Run = (Vec<u8>, Option<i32>);

impl Programs {
    fn run(&self, program: &Path, input: &[u8]) -> Result<Run, String> {
        let run = || {
            let stdin = self.keep("input", input)?;
            Command::new(program).stdin(File::open(stdin)?).stderr(Stdio::inherit()).output()
        };
        let output = run().map_err(|error| format!("{}: {error}", program.display()))?;
        Ok((output.stdout, output.status.code()))
    }

    fn keep(&self, name: &str, input: &[u8]) -> io::Result<PathBuf> {
        let path = self.kept.join(name);
        fs::write(&path, input)?;
        Ok(path)
    }

    /// What is told of an input on which a program differs. It is kept.
    pub fn differing(&self, name: &str, input: &[u8], told: String) -> String {
        match self.keep(name, input) {
            Ok(path) => format!("{told}\nthe input is kept in {}", path.display()),
            Err(error) => format!("{told}\nthe input cannot be kept: {error}"),
        }
    }

    /// Runs `console` on a talk. On a difference few lines that show one are kept, and told.
    pub fn compare_talk(&self, talk: &Talk, last_lf: bool) -> Result<(), String> {
        let found = |lines: &[Vec<u8>]| Ok(difference(&Talk::of(lines), &self.run(&self.console, &input_of(lines, last_lf))?));
        if difference(talk, &self.run(&self.console, &input_of(&talk.lines, last_lf))?).is_none() {
            return Ok(());
        }
        let lines = smallest(&talk.lines, |lines| found(lines).map(|found| found.is_some()))?;
        let told = found(&lines)?.unwrap_or_else(|| "no difference when run again".to_string());
        Err(self.differing("console.differs", &input_of(&lines, last_lf), told))
    }

    /// Runs `plan` on a text, likewise, and answers what it wrote.
    pub fn compare_text(&self, text: &[u8]) -> Result<Vec<u8>, String> {
        let both = |text: &[u8]| Ok((self.run(&self.plan, text)?, program::plan(text)));
        let differ = |((theirs, their_status), (ours, status)): &(Run, (Vec<u8>, i32))| theirs != ours || *their_status != Some(*status);
        let found = both(text)?;
        if !differ(&found) {
            return Ok(found.1 .0);
        }
        let differs = |text: &[u8]| both(text).map(|found| differ(&found));
        let lines: Vec<&[u8]> = text.split(|&byte| byte == b'\n').collect();
        let few_lines = smallest(&lines, |lines| differs(&lines.join(&b'\n')))?.join(&b'\n');
        let text = smallest(&few_lines, differs)?;
        let ((theirs, their_status), (ours, status)) = both(&text)?;
        let statuses = format!("the status is {their_status:?}, by the rules {status}");
        Err(self.differing("plan.differs", &text, format!("survey: {}\n{}\n{statuses}", shown(&text), answers(&theirs, &ours))))
    }
}

impl Programs {
    /// Where reading or writing fails both programs end with status 1; and `plan` reads no more than it may.
    pub fn compare_files(&self) -> Result<(), String> {
        self.end_on_failures().map_err(|error| error.to_string())?
    }

    fn end_on_failures(&self) -> io::Result<Result<(), String>> {
        let text = self.keep("input", &[b"S 1\n".to_vec(), vec![b' '; 2 * MOST_BYTES]].concat())?;
        for program in [&self.console, &self.plan] {
            let name = program.display();
            let unread = Command::new(program).stdin(File::open(&self.kept)?).output()?;
            if unread.status.code() != Some(1) {
                return Ok(Err(format!("{name}: the input cannot be read, and the status is not 1")));
            }
            let full = File::options().write(true).open("/dev/full")?;
            let unwritten = Command::new(program).stdin(File::open(&text)?).stdout(full).output()?;
            if unwritten.status.code() != Some(1) {
                return Ok(Err(format!("{name}: nothing can be written, and the status is not 1")));
            }
        }
        let mut input = File::open(&text)?;
        Command::new(&self.plan).stdin(input.try_clone()?).output()?;
        let read = input.stream_position()?;
        Ok(if read <= MOST_BYTES as u64 + 1 { Ok(()) } else { Err(format!("plan has read {read} bytes")) })
    }
}

/// Lines as an input. The last one needs no LF, unless it is empty; where there is no line, there is none.
fn input_of(lines: &[Vec<u8>], last_lf: bool) -> Vec<u8> {
    let mut input = lines.join(&b'\n');
    if lines.last().is_some_and(|last| last_lf || last.is_empty()) {
        input.push(b'\n');
    }
    input
}

/// The first line for which `console` printed something else, if it did or ended with another status than 0.
fn difference(talk: &Talk, (printed, status): &Run) -> Option<String> {
    let mut rest = printed.as_slice();
    for (line, ours) in talk.lines.iter().zip(&talk.printed) {
        let Some(behind) = rest.strip_prefix(ours.as_slice()) else {
            let theirs = &rest[..rest.len().min(ours.len() + 200)];
            return Some(format!("line: {}\n{}", shown(line), answers(theirs, ours)));
        };
        rest = behind;
    }
    if !rest.is_empty() {
        return Some(format!("console prints more than the rules say: {}", shown(rest)));
    }
    (*status != Some(0)).then(|| format!("console ends with status {status:?} and not 0"))
}

fn answers(theirs: &[u8], ours: &[u8]) -> String {
    let same = theirs.iter().zip(ours).take_while(|(a, b)| a == b).count();
    format!("the program writes: {}\nby the rules: {}\nthey differ after {same} bytes", shown(theirs), shown(ours))
}

/// Bytes as a line of text, cut off where they are many.
fn shown(bytes: &[u8]) -> String {
    let text = bytes.escape_ascii().to_string();
    match text.get(..1000) {
        Some(begin) => format!("{begin} ..."),
        None => text,
    }
}

/// How often an input is cut down at most.
const CUTS: usize = 400;

/// A part of the input on which the programs still differ: runs of lines or bytes are left out, long ones first.
pub fn smallest<T: Clone>(input: &[T], mut differs: impl FnMut(&[T]) -> Result<bool, String>) -> Result<Vec<T>, String> {
    let mut input = input.to_vec();
    let mut length = input.len();
    let mut cuts = 0;
    while length > 1 && cuts < CUTS {
        length = length.div_ceil(2);
        let mut end = input.len();
        while end > 0 && cuts < CUTS {
            let start = end.saturating_sub(length);
            let shorter = [&input[..start], &input[end..]].concat();
            if differs(&shorter)? {
                input = shorter;
            }
            end = start;
            cuts += 1;
        }
    }
    Ok(input)
}

#[test]
fn an_input_is_cut_down() {
    let input: Vec<usize> = (0..100).collect();
    let differs = |part: &[usize]| Ok(part.contains(&17) && part.contains(&71));
    assert_eq!(smallest(&input, differs), Ok(vec![17, 71]));
}
