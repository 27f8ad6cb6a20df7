//! The lines and words of texts.

/// A part of a text, or what is wrong with it.
pub type Checked<T> = Result<T, String>;

/// The lines of a text with their numbers, from 1, without comments.
pub fn lines(text: &str) -> impl Iterator<Item = (usize, &str)> {
    (1..).zip(text.lines().map(stated))
}

fn stated(line: &str) -> &str {
    line.split('#').next().unwrap_or("").trim()
}

pub fn once(first: bool, what: &str) -> Checked<()> {
    if first {
        Ok(())
    } else {
        Err(format!("{what} was given before"))
    }
}

pub fn number(word: &str, least: usize, most: usize) -> Checked<usize> {
    match word.parse() {
        Ok(value) if (least..=most).contains(&value) => Ok(value),
        _ => Err(format!("'{word}' is not a number from {least} to {most}")),
    }
}

/// The two parts, both trimmed.
pub fn split<'a>(text: &'a str, mark: char, example: &str) -> Checked<(&'a str, &'a str)> {
    match text.trim().split_once(mark) {
        Some((first, second)) => Ok((first.trim(), second.trim())),
        None => Err(format!("'{}' should look like: {example}", text.trim())),
    }
}
