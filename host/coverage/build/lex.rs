//! The tokens of a function body: words, lifetimes, numbers and marks.

/// A token's text, place and line.
#[derive(Clone, Copy, Debug)]
pub struct Token<'a> {
    pub text: &'a str,
    pub at: usize,
    pub line: usize,
}

/// The tokens of `text` from `start` on, comments left out.
pub fn tokens(text: &str, start: usize) -> Vec<Token<'_>> {
    let mut tokens = Vec::new();
    let mut at = start;
    let mut line = 1 + text[..start].matches('\n').count();
    while at < text.len() {
        let rest = &text[at..];
        let length = length(rest);
        let skipped = rest.starts_with("//") || rest.starts_with(char::is_whitespace);
        if !skipped {
            let text = &rest[..length];
            tokens.push(Token { text, at, line });
        }
        line += rest[..length].matches('\n').count();
        at += length;
    }
    tokens
}

/// The length of the token, comment or blank at the front.
fn length(rest: &str) -> usize {
    let word = |c: char| c.is_alphanumeric() || c == '_';
    let first = rest.chars().next().expect("not at the end");
    let run = |from: usize| {
        let end = rest[from..].find(|c| !word(c));
        end.map_or(rest.len(), |end| from + end)
    };
    match first {
        _ if rest.starts_with("//") => rest.find('\n').unwrap_or(rest.len()),
        _ if rest.starts_with("=>") || rest.starts_with("..") => 2,
        '"' => 2 + rest[1..].find('"').expect("the string's end"),
        // A lifetime; the functions in question have no character literals.
        '\'' => run(1),
        c if word(c) => run(0),
        c => c.len_utf8(),
    }
}
