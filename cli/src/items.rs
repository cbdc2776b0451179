//! The items of a plain text that a person writes, one on each line, and what is to
//! be said of them. `#` begins a comment.

use crate::explain::counted;
use crate::files::visible;
use std::str;

/// Something about a line of the text, counted from 1.
#[derive(Debug, PartialEq, Eq)]
pub struct Remark {
    pub line: usize,
    pub words: String,
}

impl Remark {
    /// The same with a further sentence.
    pub fn and(self, sentence: &str) -> Remark {
        let words = format!("{}; {sentence}", self.words);
        Remark { words, ..self }
    }
}

/// Where an item stands: the number of its line, and the words there.
#[derive(Clone, Debug, PartialEq, Eq)]
pub struct Place {
    pub line: usize,
    pub written: String,
}

/// A line of the text that is not blank: its number, and its words.
pub struct Item<'a> {
    pub line: usize,
    pub words: Vec<&'a str>,
}

/// The items that are still to be taken.
pub struct Items<'a> {
    pub rest: std::vec::IntoIter<Item<'a>>,
    /// The line of the last item.
    end: usize,
    /// Values that are probably in the wrong unit.
    pub doubts: Vec<Remark>,
}

impl<'a> Items<'a> {
    pub fn of(text: &'a [u8]) -> Result<Items<'a>, Remark> {
        if text.starts_with(b"\xFF\xFE") || text.starts_with(b"\xFE\xFF") {
            return remark(1, "the text is UTF-16: save it as UTF-8".into());
        }
        let text = text.strip_prefix(b"\xEF\xBB\xBF").unwrap_or(text);
        let mut items = Vec::new();
        for (i, line) in lines(text).enumerate() {
            let words = words(line).map_err(|fault| Remark {
                line: i + 1,
                words: fault,
            })?;
            if !words.is_empty() {
                items.push(Item { line: i + 1, words });
            }
        }
        let end = items.last().map_or(1, |item: &Item| item.line);
        Ok(Items {
            rest: items.into_iter(),
            end,
            doubts: Vec::new(),
        })
    }

    /// Takes the next item, which has the form of this example: the word that it
    /// begins with, and as many values.
    pub fn take(&mut self, example: &str) -> Result<Item<'a>, Remark> {
        let name = name_in(example);
        match self.rest.next() {
            Some(item) if item.is(name) => item.like(example),
            other => self.wanted(name, other.as_ref(), example),
        }
    }

    /// Takes the item of this example out of those before the first that ends them,
    /// where it is there.
    pub fn take_before(
        &mut self,
        example: &str,
        ends: impl Fn(&Item) -> bool,
    ) -> Result<Option<Item<'a>>, Remark> {
        let mut items: Vec<Item> = self.rest.by_ref().collect();
        let end = items.iter().position(ends).unwrap_or(items.len());
        let is_it = |item: &Item| item.is(name_in(example));
        let found = items[..end].iter().position(is_it);
        let item = found.map(|index| items.remove(index));
        self.rest = items.into_iter();
        item.map(|item| item.like(example)).transpose()
    }

    /// That something is wanted where another item stands, or none.
    pub fn wanted<T>(&self, name: &str, found: Option<&Item>, example: &str) -> Result<T, Remark> {
        let (line, found) = match found {
            Some(item) => (item.line, format!("\"{}\" stands", visible(item.words[0]))),
            None => (self.end, "the text ends".into()),
        };
        remark(
            line,
            format!("{found} where {name} is wanted, as in: {example}"),
        )
    }
}

/// The word that the items of an example begin with.
fn name_in(example: &str) -> &str {
    example.split(' ').next().unwrap_or(example)
}

impl<'a> Item<'a> {
    /// The item, which must have as many values as this example.
    fn like(self, example: &str) -> Result<Item<'a>, Remark> {
        let [read, wanted] = [self.words.len(), example.split(' ').count()];
        if read == wanted {
            return Ok(self);
        }
        let words = format!(
            "{} has {}, not {}; a value has no spaces, as in: {example}",
            name_in(example),
            counted(read - 1, "value"),
            wanted - 1
        );
        remark(self.line, words)
    }

    /// Whether it begins with this word.
    pub fn is(&self, word: &str) -> bool {
        self.words[0].eq_ignore_ascii_case(word)
    }

    pub fn place(&self) -> Place {
        Place {
            line: self.line,
            written: self.words.join(" "),
        }
    }
}

const NOT_TEXT: &str = "this is no text; if it is a sheet, pokyandi show prints its text";
const NOT_UTF8: &str =
    "a letter is not UTF-8: save the text as UTF-8, or write angles as 49d22m44s";
const MOST_LETTERS: usize = 60;

/// The lines of a text, each ended by LF, CRLF or CR.
fn lines(text: &[u8]) -> impl Iterator<Item = &[u8]> {
    let lines = text.split(|byte| *byte == b'\n');
    let lines = lines.map(|line| line.strip_suffix(b"\r").unwrap_or(line));
    lines.flat_map(|line| line.split(|byte| *byte == b'\r'))
}

/// The words of a line before its comment.
fn words(line: &[u8]) -> Result<Vec<&str>, String> {
    let before = line.split(|byte| *byte == b'#').next().unwrap_or_default();
    let is_no_text = |byte: &u8| byte.is_ascii_control() && !byte.is_ascii_whitespace();
    if before.iter().any(is_no_text) {
        return Err(NOT_TEXT.into());
    }
    let before = str::from_utf8(before).map_err(|_| NOT_UTF8)?;
    let words: Vec<&str> = before.split_whitespace().collect();
    match words.iter().any(|word| word.chars().count() > MOST_LETTERS) {
        true => Err(format!("a word has more than {MOST_LETTERS} letters")),
        false => Ok(words),
    }
}

pub fn remark<T>(line: usize, words: String) -> Result<T, Remark> {
    Err(Remark { line, words })
}
