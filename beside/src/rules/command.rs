//! The commands of `console`, read from lines.

use super::levels::Rule;
use super::sheet::Tables;

#[derive(Clone, Debug, PartialEq, Eq)]
pub enum Command {
    LayOut(usize),
    Link(usize, usize),
    Unlink(usize, usize),
    Survey(Vec<u8>),
    Numbers,
    WriteOut,
    DrawStruck(Vec<usize>),
    Inspect(Vec<u8>),
    Cards(Vec<u8>),
    Read(Vec<u8>),
    Put(Tables),
    Tally,
    CheckListed(Vec<usize>, Vec<usize>),
    CheckSquare(usize, Vec<u8>),
    Choose(Rule),
    Agree(Vec<u8>, Rule),
}

/// The greatest station or size, start, and entry of a table.
const STATION: u64 = u64::MAX;
const START: u64 = u32::MAX as u64;
const ENTRY: u64 = u16::MAX as u64;

impl Command {
    /// The command that a line writes, if it is one.
    pub fn read(line: &[u8]) -> Option<Command> {
        let words: Vec<&[u8]> = line.split(|&byte| byte == b' ').filter(|word| !word.is_empty()).collect();
        Some(match words.as_slice() {
            [b"lay", b"out", n] => Command::LayOut(number(n, STATION)?),
            [b"link", a, b] => Command::Link(number(a, STATION)?, number(b, STATION)?),
            [b"unlink", a, b] => Command::Unlink(number(a, STATION)?, number(b, STATION)?),
            [b"survey", hex] => Command::Survey(bytes(hex)?),
            [b"numbers"] => Command::Numbers,
            [b"write", b"out"] => Command::WriteOut,
            [b"draw", b"struck", stations @ ..] => Command::DrawStruck(numbers(stations, STATION)?),
            [b"inspect", hex] => Command::Inspect(bytes(hex)?),
            [b"cards", hex] => Command::Cards(bytes(hex)?),
            [b"read", hex] => Command::Read(bytes(hex)?),
            [b"put", tables @ ..] => {
                let tables = parts(tables, |_| ENTRY)?;
                Command::Put(tables.try_into().ok()?)
            }
            [b"tally"] => Command::Tally,
            [b"check", b"listed", lists @ ..] => {
                let lists = parts(lists, |part| if part == 0 { START } else { ENTRY })?;
                let [starts, ends] = <[Vec<usize>; 2]>::try_from(lists).ok()?;
                Command::CheckListed(starts, ends)
            }
            [b"check", b"square", n, hex] => Command::CheckSquare(number(n, STATION)?, bytes(hex)?),
            [b"choose", words @ ..] => Command::Choose(rule(words)?),
            [b"agree", hex, words @ ..] => Command::Agree(bytes(hex)?, rule(words)?),
            _ => return None,
        })
    }

    /// The words that the command begins with.
    pub fn name(&self) -> &'static str {
        match self {
            Command::LayOut(..) => "lay out",
            Command::Link(..) => "link",
            Command::Unlink(..) => "unlink",
            Command::Survey(..) => "survey",
            Command::Numbers => "numbers",
            Command::WriteOut => "write out",
            Command::DrawStruck(..) => "draw struck",
            Command::Inspect(..) => "inspect",
            Command::Cards(..) => "cards",
            Command::Read(..) => "read",
            Command::Put(..) => "put",
            Command::Tally => "tally",
            Command::CheckListed(..) => "check listed",
            Command::CheckSquare(..) => "check square",
            Command::Choose(..) => "choose",
            Command::Agree(..) => "agree",
        }
    }
}

/// Decimal digits, with any count of leading zeros, of a value up to the greatest.
fn number(word: &[u8], greatest: u64) -> Option<usize> {
    let digit = |byte: &u8| byte.is_ascii_digit().then(|| u64::from(byte - b'0'));
    let value = word.iter().try_fold(0u64, |value, byte| value.checked_mul(10)?.checked_add(digit(byte)?))?;
    (!word.is_empty() && value <= greatest).then_some(value as usize)
}

fn numbers(words: &[&[u8]], greatest: u64) -> Option<Vec<usize>> {
    words.iter().map(|word| number(word, greatest)).collect()
}

/// Lists of numbers, parted by `/`; `greatest` says of each list the greatest number in it.
fn parts(words: &[&[u8]], greatest: impl Fn(usize) -> u64) -> Option<Vec<Vec<usize>>> {
    let lists = words.split(|word| *word == b"/").enumerate();
    lists.map(|(part, words)| numbers(words, greatest(part))).collect()
}

/// Two hexadecimal digits in lower case for each byte, or `-` for no bytes.
fn bytes(word: &[u8]) -> Option<Vec<u8>> {
    if word == b"-" {
        return Some(vec![]);
    }
    let digit = |byte: u8| match byte {
        b'0'..=b'9' => Some(byte - b'0'),
        b'a'..=b'f' => Some(byte - b'a' + 10),
        _ => None,
    };
    let pairs = word.chunks(2);
    pairs.map(|pair| Some(16 * digit(pair[0])? + digit(*pair.get(1)?)?)).collect()
}

fn rule(words: &[&[u8]]) -> Option<Rule> {
    let weights = |p: &[u8], q: &[u8], r: &[u8]| {
        let weight = |word| number(word, ENTRY).map(|value| value as u16);
        Some([weight(p)?, weight(q)?, weight(r)?])
    };
    match words {
        [b"average"] => Some(Rule::Average),
        [b"net", p, q, r] => Some(Rule::Net(weights(p, q, r)?)),
        [b"average", b"then", b"net", p, q, r] => Some(Rule::AverageThenNet(weights(p, q, r)?)),
        [b"net", p, q, r, b"then", b"average"] => Some(Rule::NetThenAverage(weights(p, q, r)?)),
        _ => None,
    }
}

/// Bytes as a line writes them.
pub fn hex(bytes: &[u8]) -> String {
    if bytes.is_empty() {
        return "-".to_string();
    }
    bytes.iter().map(|byte| format!("{byte:02x}")).collect()
}
