//! Surveys: a fitter's text, read into a book.

use super::book::Book;
use super::refusal::{Refusal, SurveyRefusal};

/// How many bytes a survey has at most.
pub const MOST_BYTES: usize = 60_000;

/// A word and its first byte in the line, counted from 1.
struct Word<'a> {
    byte: usize,
    text: &'a [u8],
}

fn words(line: &[u8]) -> Vec<Word<'_>> {
    let mut words = Vec::new();
    let mut at = 0;
    for text in line.split(|&byte| byte == b' ') {
        if !text.is_empty() {
            words.push(Word { byte: at + 1, text });
        }
        at += text.len() + 1;
    }
    words
}

/// The value of a word of 1, 2 or 3 digits and nothing else.
fn short_number(text: &[u8]) -> Option<usize> {
    let is_one = (1..=3).contains(&text.len()) && text.iter().all(u8::is_ascii_digit);
    is_one.then(|| text.iter().fold(0, |value, digit| value * 10 + usize::from(digit - b'0')))
}

/// Lines end with LF, which the last may lack.
fn lines(text: &[u8]) -> impl Iterator<Item = &[u8]> {
    let ended = text.strip_suffix(b"\n").unwrap_or(text);
    let none = text.is_empty();
    ended.split(|&byte| byte == b'\n').filter(move |_| !none)
}

/// The book that a survey says.
pub fn read_survey(text: &[u8]) -> Result<Book, SurveyRefusal> {
    let of_the_text = |number| SurveyRefusal { refusal: Refusal { number, place: 0 }, layer: 2, line: 0, byte: 0 };
    if text.len() > MOST_BYTES {
        return Err(of_the_text(14));
    }
    let mut book = None;
    for (above, line) in lines(text).enumerate() {
        read_line(&mut book, line).map_err(|fault| fault.at_line(above + 1))?;
    }
    book.ok_or(of_the_text(9))
}

/// What is wrong with a line: layer, byte and refusal.
struct Fault {
    layer: u8,
    byte: usize,
    refusal: Refusal,
}

impl Fault {
    fn of_word(word: &Word) -> Fault {
        Fault { layer: 1, byte: word.byte, refusal: Refusal { number: 8, place: 0 } }
    }

    fn of_line(number: u8) -> Fault {
        Fault { layer: 2, byte: 1, refusal: Refusal { number, place: 0 } }
    }

    fn at_line(self, line: usize) -> SurveyRefusal {
        SurveyRefusal { refusal: self.refusal, layer: self.layer, line, byte: self.byte }
    }
}

/// Carries out one line. There is a book as soon as there was an `S`.
fn read_line(book: &mut Option<Book>, line: &[u8]) -> Result<(), Fault> {
    let words = words(line);
    let Some((letter, rest)) = words.split_first() else {
        return Ok(());
    };
    if letter.text.starts_with(b"#") {
        return Ok(());
    }
    let is_size = match letter.text {
        b"S" => true,
        b"L" => false,
        _ => return Err(Fault::of_word(letter)),
    };
    let number = |word: &Word| short_number(word.text).ok_or_else(|| Fault::of_word(word));
    let numbers: Vec<usize> = rest.iter().map(number).collect::<Result<_, _>>()?;
    let right_count = if is_size { numbers.len() == 1 } else { numbers.len() >= 2 };
    if !right_count {
        return Err(Fault::of_line(8));
    }
    if is_size != book.is_none() {
        return Err(Fault::of_line(9));
    }
    let of_book = |word: &Word, refusal| Fault { layer: 3, byte: word.byte, refusal };
    if is_size {
        let mut fresh = Book::default();
        fresh.lay_out(numbers[0]).map_err(|refusal| of_book(&rest[0], refusal))?;
        *book = Some(fresh);
        return Ok(());
    }
    let book = book.as_mut().expect("an L has an S above it");
    for (word, &neighbour) in rest.iter().zip(&numbers).skip(1) {
        book.link(numbers[0], neighbour).map_err(|refusal| of_book(word, refusal))?;
    }
    Ok(())
}
