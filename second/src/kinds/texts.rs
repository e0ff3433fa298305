//! What made-up texts have met: the kinds of lines of those that were written,
//! and of the line that was told.

use crate::compare::texts::Written;
use crate::make::texts::said::can_join;
use crate::make::texts::{all, Line, Text};
use crate::tally::{names, Tally};

/// Beside the kinds of lines.
const KINDS: &str = "\
a tab|a carriage return|a comment behind|no blank between letters and digits|\
no newline at the end|a newline at the end|over 65,536 bytes|told behind 65,536 bytes|\
the serial wraps|no such text|no FROM|FROM -|FROM not sound|FROM of version 1|FROM no book";

/// All that a round of texts meets.
pub fn all_kinds() -> impl Iterator<Item = &'static str> {
    let lines = all().into_iter().map(|case| case.kind);
    lines.chain(names(KINDS))
}

/// How much has been compared.
#[derive(Default)]
pub struct Met {
    texts: u64,
    bytes: u64,
    pub kinds: Tally<&'static str>,
}

impl Met {
    pub fn line(&self) -> String {
        let (texts, bytes, kinds) = (self.texts, self.bytes, self.kinds.line(all_kinds()));
        format!("same: {texts} texts, {bytes} bytes written; {kinds}")
    }

    /// This program's own answer must be the one that the lines were made for;
    /// None where a file can't be read.
    pub fn count(&mut self, made: &Text, own: Option<&Written>) -> Result<(), String> {
        self.texts += 1;
        let kinds = &mut self.kinds;
        match own {
            None if made.is_there => kinds.count("FROM no book"),
            None => kinds.count("no such text"),
            Some(Ok(bytes)) => {
                self.bytes += bytes.len() as u64;
                for line in &made.lines {
                    fits(line, 0)?;
                    count_line(line, kinds);
                }
                count_whole(made, kinds);
            }
            Some(Err(bad)) => {
                let line = made.lines.get(bad.line - 1);
                let line = line.ok_or("own text: a line told that isn't there")?;
                fits(line, bad.fault as u8)?;
                kinds.count(line.kind);
                let before = made.lines[..bad.line - 1].iter();
                let before: usize = before.map(|line| line.bytes.len() + 1).sum();
                kinds.count_if("told behind 65,536 bytes", before > 65_536);
            }
        }
        Ok(())
    }
}

fn fits(line: &Line, fault: u8) -> Result<(), String> {
    if line.fault == fault {
        return Ok(());
    }
    let said = String::from_utf8_lossy(&line.bytes);
    let Line {
        kind, fault: made, ..
    } = line;
    Err(format!(
        "own text: {said:?}, {kind}, made for {made}, is {fault}"
    ))
}

fn count_line(line: &Line, kinds: &mut Tally<&'static str>) {
    kinds.count(line.kind);
    let end = line.bytes.iter().position(|&byte| byte == b'#');
    let said = &line.bytes[..end.unwrap_or(line.bytes.len())];
    kinds.count_if("a tab", said.contains(&b'\t'));
    kinds.count_if("a carriage return", said.contains(&b'\r'));
    let says_something = said.iter().any(u8::is_ascii_alphanumeric);
    kinds.count_if("a comment behind", end.is_some() && says_something);
    let is_joined = said.windows(2).any(|two| can_join(two[0], two[1]));
    let is_joined = is_joined && !line.kind.starts_with("raw");
    kinds.count_if("no blank between letters and digits", is_joined);
}

fn count_whole(made: &Text, kinds: &mut Tally<&'static str>) {
    kinds.count_if("a newline at the end", made.ends_with_newline);
    let last = made.lines.last().map_or(0, |line| line.bytes.len());
    let is_open = !made.ends_with_newline && last > 0;
    kinds.count_if("no newline at the end", is_open);
    kinds.count_if("over 65,536 bytes", made.bytes().len() > 65_536);
    kinds.count_if("the serial wraps", made.wraps);
}
