//! Puts a counting call before every statement and match arm.
//!
//! This is no Rust parser. It knows the forms that the reference files use,
//! as `rustfmt` sets them; the compiler checks the result.

use std::collections::BTreeMap;

use crate::lex::{Token, tokens};

/// A place that counts.
pub struct Point {
    pub file: String,
    pub function: String,
    pub line: usize,
}

/// A way out of `from` that is taken when `from` was counted more often
/// than `to`: a `?` that returns, or an `if` without `else` that is not
/// entered.
pub struct Branch {
    pub kind: &'static str,
    pub from: usize,
    pub to: usize,
}

/// All that is counted, over all files.
#[derive(Default)]
pub struct Instrumented {
    pub points: Vec<Point>,
    /// The points of each line that holds code.
    pub lines: BTreeMap<(String, usize), Vec<usize>>,
    pub branches: Vec<Branch>,
}

impl Instrumented {
    /// The file's text with counting calls in these functions.
    pub fn add(&mut self, file: &str, text: &str, functions: &[&str]) -> String {
        let mut insertions = Vec::new();
        for (name, start) in found(text, functions) {
            let mut body = Body {
                tokens: tokens(text, start),
                next: 0,
                file,
                function: name,
                insertions: &mut insertions,
                all: self,
            };
            while body.text() != "{" {
                body.next += 1;
            }
            body.block();
        }
        insertions.sort_by_key(|(at, _)| *at);
        let mut counted = String::new();
        let mut from = 0;
        for (at, call) in insertions {
            counted += &text[from..at];
            counted += &call;
            from = at;
        }
        counted + &text[from..]
    }
}

/// The named functions of a file, or those after the field tables, each with
/// the place of its `fn`.
fn found<'a>(text: &'a str, functions: &[&str]) -> Vec<(&'a str, usize)> {
    let tables = text.find("\n// Decoding\n").unwrap_or(0);
    let starts = text.match_indices("fn ").map(|(at, _)| at);
    let named = starts.filter_map(|at| {
        let name = text[at + 3..].split(['<', '(']).next()?;
        let line = text[..at].rfind('\n').map_or(0, |end| end + 1);
        let item = matches!(&text[line..at], "" | "pub " | "pub(crate) ");
        let wanted = match functions {
            [] => at > tables,
            names => names.contains(&name),
        };
        (item && wanted).then_some((name, at))
    });
    named.collect()
}

/// A function body on its way through.
struct Body<'a> {
    tokens: Vec<Token<'a>>,
    next: usize,
    file: &'a str,
    function: &'a str,
    insertions: &'a mut Vec<(usize, String)>,
    all: &'a mut Instrumented,
}

impl Body<'_> {
    fn text(&self) -> &str {
        self.tokens[self.next].text
    }

    /// A block, from `{` to past its `}`. Returns its first point.
    fn block(&mut self) -> usize {
        self.next += 1;
        let first = self.all.points.len();
        if self.text() == "}" {
            self.point("");
        }
        let mut early = None;
        while self.text() != "}" {
            let point = self.all.points.len();
            if let Some(from) = early {
                self.branch("?", from, point);
            }
            early = self.statement(point);
        }
        self.next += 1;
        first
    }

    fn branch(&mut self, kind: &'static str, from: usize, to: usize) {
        self.all.branches.push(Branch { kind, from, to });
    }

    /// A point before the next token, with an opening before its call.
    fn point(&mut self, opening: &str) -> usize {
        let Token { at, line, .. } = self.tokens[self.next];
        let number = self.all.points.len();
        self.all.points.push(Point {
            file: self.file.to_string(),
            function: self.function.to_string(),
            line,
        });
        let call = format!("{opening}crate::count({number}); ");
        self.insertions.push((at, call));
        number
    }

    /// A statement, to past its end. Returns its point if a `?` may leave it.
    fn statement(&mut self, point: usize) -> Option<usize> {
        self.point("");
        let blocks = ["if", "match", "for", "while", "loop"];
        let ends_with_block = blocks.contains(&self.text());
        let mut early = None;
        loop {
            match self.text() {
                ";" => {
                    self.next += 1;
                    return early;
                }
                "}" => return early,
                "?" => early = Some(point),
                _ => {}
            }
            let block = self.part(point);
            if block && ends_with_block && self.text() != "else" {
                return early;
            }
        }
    }

    /// One token of a statement, or the block that a keyword announces. Says
    /// whether it was a block.
    fn part(&mut self, point: usize) -> bool {
        let line = self.tokens[self.next].line;
        let key = (self.file.to_string(), line);
        let points = self.all.lines.entry(key).or_default();
        if !points.contains(&point) {
            points.push(point);
        }
        let keyword = self.text().to_string();
        match keyword.as_str() {
            "(" | "[" | "{" => self.group(point),
            "if" | "for" | "while" | "loop" | "match" | "else" => {
                self.next += 1;
                if keyword == "else" && self.text() == "if" {
                    return false;
                }
                while self.text() != "{" {
                    self.part(point);
                }
                self.announced(&keyword, point);
                return true;
            }
            _ => self.next += 1,
        }
        false
    }

    fn announced(&mut self, keyword: &str, point: usize) {
        if keyword == "match" {
            return self.arms();
        }
        let first = self.block();
        if keyword == "if" && self.text() != "else" {
            self.branch("if", point, first);
        }
    }

    /// A group in brackets, or a struct literal.
    fn group(&mut self, point: usize) {
        self.next += 1;
        while !matches!(self.text(), ")" | "]" | "}") {
            self.part(point);
        }
        self.next += 1;
    }

    /// The arms of a match, from `{` to past its `}`.
    fn arms(&mut self) {
        self.next += 1;
        while self.text() != "}" {
            while self.text() != "=>" {
                self.next += 1;
            }
            self.next += 1;
            if self.text() == "{" {
                self.block();
            } else {
                let arm = self.point("{ ");
                while !matches!(self.text(), "," | "}") {
                    self.part(arm);
                }
                let end = self.tokens[self.next].at;
                self.insertions.push((end, " }".to_string()));
            }
            if self.text() == "," {
                self.next += 1;
            }
        }
        self.next += 1;
    }
}
