//! The text of stored cases: blocks of lines, each line a key and its values.
//!
//! A block is read line by line in the order of its kind. A key that is not
//! the next one, a value that is no number and a line left over are errors.

use std::str::FromStr;

/// What was read, or why not.
pub type Reading<T> = Result<T, String>;

pub struct Block<'a> {
    pub kind: &'a str,
    pub number: usize,
    lines: std::str::Lines<'a>,
    /// The line in the file that was read last.
    at: usize,
}

/// The blocks of a file, numbered from 1, behind the lines that say what the
/// file is; a blank line stands between blocks.
pub fn blocks(text: &str) -> Reading<Vec<Block<'_>>> {
    let text = text.strip_suffix('\n').ok_or("the last line has no end")?;
    let mut parts = text.split("\n\n");
    let head = parts.next().unwrap_or("");
    if !head.lines().all(|line| line.starts_with('#')) {
        return Err("the file does not say first what it is".to_string());
    }
    let mut at = head.lines().count() + 2;
    let mut found = Vec::new();
    for part in parts {
        let block = Block::of(part, at)?;
        if block.number != found.len() + 1 {
            return Err(block.wrong("the number is not the block's place"));
        }
        at += part.lines().count() + 1;
        found.push(block);
    }
    Ok(found)
}

impl<'a> Block<'a> {
    /// The block of these lines, the first of which is line `at` of the file.
    pub fn of(text: &'a str, at: usize) -> Reading<Block<'a>> {
        let mut lines = text.lines();
        let first = lines.next().unwrap_or("");
        let mut block = Block {
            kind: "",
            number: 0,
            lines,
            at,
        };
        let (kind, number) = first
            .split_once(' ')
            .ok_or_else(|| block.wrong("no kind and number"))?;
        block.kind = kind;
        block.number = block.value(number)?;
        Ok(block)
    }

    pub fn wrong(&self, why: &str) -> String {
        format!("line {}: {why}", self.at)
    }

    /// The next line, which must be of this key, without it.
    pub fn text(&mut self, key: &str) -> Reading<&'a str> {
        self.at += 1;
        let line = self.lines.next().unwrap_or("");
        match line.split_once(' ').unwrap_or((line, "")) {
            (own, rest) if own == key => Ok(rest),
            _ => Err(self.wrong(&format!("wanted {key}, found \"{line}\""))),
        }
    }

    /// Is the next line of this key?
    pub fn is_next(&self, key: &str) -> bool {
        let next = self.lines.clone().next();
        next.is_some_and(|line| line.split(' ').next() == Some(key))
    }

    pub fn words(&mut self, key: &str) -> Reading<Vec<&'a str>> {
        Ok(match self.text(key)? {
            "" => Vec::new(),
            text => text.split(' ').collect(),
        })
    }

    pub fn value<T: FromStr>(&self, word: &str) -> Reading<T> {
        let read = word.parse();
        read.map_err(|_| self.wrong(&format!("not the number wanted: \"{word}\"")))
    }

    pub fn numbers<T: FromStr, const N: usize>(&mut self, key: &str) -> Reading<[T; N]> {
        let words = self.words(key)?;
        let values: Vec<T> = words
            .into_iter()
            .map(|word| self.value(word))
            .collect::<Reading<_>>()?;
        let many = |_| self.wrong(&format!("{key} has not {N} values"));
        values.try_into().map_err(many)
    }

    pub fn number<T: FromStr>(&mut self, key: &str) -> Reading<T> {
        self.numbers(key).map(|[number]| number)
    }

    /// "bytes in hex, two digits a byte in the order of the bytes; `-` is an
    /// empty byte string".
    pub fn bytes(&mut self, key: &str) -> Reading<Vec<u8>> {
        let digits = match self.text(key)? {
            "-" => return Ok(Vec::new()),
            digits => digits,
        };
        let hex = !digits.is_empty() && digits.bytes().all(|d| d.is_ascii_hexdigit());
        if !hex || digits.len() % 2 != 0 {
            return Err(self.wrong("not bytes in hex"));
        }
        let byte = |at: usize| u8::from_str_radix(&digits[at..at + 2], 16);
        let bytes: Result<Vec<u8>, _> = (0..digits.len()).step_by(2).map(byte).collect();
        bytes.map_err(|error| self.wrong(&error.to_string()))
    }

    /// Two numbers a word, with a sign between them.
    pub fn pairs<T: FromStr>(&self, words: &[&str], sign: char) -> Reading<Vec<(T, T)>> {
        let pair = |word: &&str| match word.split_once(sign) {
            Some((one, two)) => Ok((self.value(one)?, self.value(two)?)),
            None => Err(self.wrong(&format!("no {sign} in \"{word}\""))),
        };
        words.iter().map(pair).collect()
    }

    /// The pairs of row j.
    pub fn row<T: FromStr>(&mut self, key: &str, j: usize, sign: char) -> Reading<Vec<(T, T)>> {
        let words = self.row_words(key, j)?;
        self.pairs(&words, sign)
    }

    /// The words of row j, whose number stands before them.
    pub fn row_words(&mut self, key: &str, j: usize) -> Reading<Vec<&'a str>> {
        let words = self.words(key)?;
        match words.split_first() {
            Some((number, words)) if self.value::<usize>(number)? == j => Ok(words.to_vec()),
            _ => Err(self.wrong(&format!("not row {j}"))),
        }
    }

    /// "Words of the lit map [..] are 16 hex digits, the most significant first."
    pub fn lit_words<T: FromIterator<u64>>(&self, words: &[&str]) -> Reading<T> {
        let is_digit = |digit: u8| matches!(digit, b'0'..=b'9' | b'a'..=b'f');
        let word = |text: &&str| {
            let is_word = text.len() == 16 && text.bytes().all(is_digit);
            let read = u64::from_str_radix(text, 16).ok();
            let read = read.filter(|_| is_word);
            read.ok_or_else(|| self.wrong(&format!("not a word of a map: \"{text}\"")))
        };
        words.iter().map(word).collect()
    }

    /// Nothing may be left.
    pub fn end(mut self) -> Reading<()> {
        self.at += 1;
        match self.lines.next() {
            None => Ok(()),
            Some(line) => Err(self.wrong(&format!("not wanted: \"{line}\""))),
        }
    }
}
