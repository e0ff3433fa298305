//! A readable form of calls, so that a case reads like a story.
//!
//! A story has one book, fresh at first. Some lines change it; a call is
//! handed the book as it is then and leaves it. `#` begins a comment.
//! `second --help` has its lines.

mod book;
mod desk;
mod read;

use crate::model::bookfile::Version;
use crate::model::calls::Call;
use crate::model::table::{MODE, NEED, NUMBER, WORDS};
use crate::model::text::{any_bytes, hex_bytes, moved_on, parsed};
use crate::model::*;
use book::Written;
pub use read::{read, short};

struct Story {
    book: Written,
    out: Vec<u8>,
}

type Done = Result<(), String>;

/// Text to the bytes of calls; an error names its line.
pub fn write(text: &[u8]) -> Result<Vec<u8>, String> {
    let mut story = Story {
        book: Written::fresh(),
        out: Vec::new(),
    };
    for (place, line) in text.split(|&byte| byte == b'\n').enumerate() {
        std::str::from_utf8(line)
            .map_err(|_| "not plain text".to_string())
            .and_then(|line| story.line(line))
            .map_err(|error| format!("line {}: {error}", place + 1))?;
    }
    Ok(story.out)
}

impl Story {
    fn line(&mut self, line: &str) -> Done {
        let said = line.split('#').next().unwrap_or("").trim();
        let (word, rest) = said.split_once(char::is_whitespace).unwrap_or((said, ""));
        let words: Vec<&str> = rest.split_whitespace().collect();
        match (word, words.as_slice()) {
            ("", _) => Ok(()),
            ("bytes", hex) => {
                self.out.extend(hex_bytes(&hex.concat())?);
                Ok(())
            }
            ("cut", [many]) => self.cut(parsed(many, "number of bytes")?),
            ("fresh" | "set" | "count" | "serial" | "next" | "version" | "byte", words) => {
                self.book.change(word, words)
            }
            ("do", ["archive"]) => self.archive(),
            ("do", _) => self.carry_out(rest),
            ("settle", []) => self.settle(Rule::New),
            ("settle", ["old"]) => self.settle(Rule::Old),
            (_, words) => {
                let call = self.call(word, rest, words)?;
                let book = call.book().map_or(&[][..], |_| &self.book.bytes);
                call.lay_over(&mut self.out, book);
                Ok(())
            }
        }
    }

    fn cut(&mut self, many: usize) -> Done {
        let left = self.out.len().checked_sub(many);
        let left = left.ok_or("there are not so many bytes to cut")?;
        self.out.truncate(left);
        Ok(())
    }

    /// "The book isn't sound" is no part of a story that goes on.
    fn carry_out(&mut self, said: &str) -> Done {
        let record = self.record(said)?;
        let book = self.book.table()?.book();
        let mut book = book.ok_or("the book isn't sound")?;
        match carry_values(&mut book, &record).refusal() {
            0 => {
                self.book.keep(&Table::of(&book));
                Ok(())
            }
            refusal => Err(format!("`{said}` is refused with {refusal}")),
        }
    }

    /// With an archive that is long enough.
    fn archive(&mut self) -> Done {
        let archived = self.book.table()?.archived();
        let archived = archived.ok_or("the book isn't sound")?;
        self.book.turn(Version::Two)?;
        self.book.keep(&archived.book);
        Ok(())
    }

    fn settle(&mut self, rule: Rule) -> Done {
        let mut table = self.book.table()?;
        for (place, need) in table.needs_afresh(rule).into_iter().enumerate() {
            let need = u64::try_from(need);
            table.places[place][NEED] = need.map_err(|_| "a need is past its word")?;
        }
        self.book.keep(&table);
        Ok(())
    }

    fn record(&self, said: &str) -> Result<Values, String> {
        let words: Vec<&str> = said.split_whitespace().collect();
        if let ["values", numbers @ ..] = words.as_slice() {
            return values(numbers);
        }
        let bytes = line_of(said, self.book.serial())?;
        let mut reader = Reader::new(&bytes);
        match (reader.next(), reader.left()) {
            (Next::Record(record), []) => Ok(record.values()),
            _ => Err("one whole record is expected".to_string()),
        }
    }

    fn piece(&self, said: &str) -> Result<Vec<u8>, String> {
        let (mut piece, mut running) = (Vec::new(), self.book.serial());
        for part in said.split(';') {
            let words: Vec<&str> = part.split_whitespace().collect();
            let bytes = match words.as_slice() {
                ["zeros", many] => vec![0; parsed(many, "number of bytes")?],
                ["values", numbers @ ..] => {
                    let mut bytes = Vec::new();
                    values(numbers)?.lay(&mut bytes);
                    bytes
                }
                _ => line_of(part, running)?,
            };
            running = moved_on(running, &bytes);
            piece.extend(bytes);
        }
        Ok(piece)
    }

    /// The book of the call is put in its place afterwards.
    fn call(&self, word: &str, rest: &str, words: &[&str]) -> Result<Call, String> {
        let book = Table::fresh();
        let call = match (word, words) {
            ("is_sound", []) => Call::IsSound(book),
            ("standing", [account]) => Call::Standing(book, parsed(account, "account")?),
            ("carry_out", _) => Call::CarryOut(book, self.record(rest)?),
            ("most", _) => Call::Most(book, self.record(rest)?),
            ("carry_out_next", [place, ..]) => {
                Call::CarryOutNext(book, self.piece(after(rest))?, parsed(place, "place")?)
            }
            ("day", [number, ..]) => {
                Call::Day(book, self.piece(after(rest))?, parsed(number, "number")?)
            }
            ("read_at", [place, ..]) => {
                Call::ReadAt(self.piece(after(rest))?, parsed(place, "place")?)
            }
            ("write", [record @ .., "room", room]) => {
                Call::Write(self.record(&record.join(" "))?, parsed(room, "room")?)
            }
            ("close_out", ["room", room, "losses", losses @ ..]) => {
                Call::CloseOut(book, numbers(losses)?, parsed(room, "room")?)
            }
            ("needs", ["room", room]) => Call::Needs(book, parsed(room, "room")?),
            ("take_over", []) => Call::TakeOver(book),
            ("archive", ["room", room]) => Call::Archive(book, parsed(room, "room")?),
            ("statement", [tm, ..]) => {
                Call::Statement(book, parsed(tm, "account")?, statement_of(after(rest))?)
            }
            _ => {
                let call = desk::call(word, words)?;
                let unknown = || format!("unknown word `{word}`, or it is said otherwise");
                return call.ok_or_else(unknown);
            }
        };
        Ok(call)
    }
}

fn line_of(said: &str, running: u16) -> Result<Vec<u8>, String> {
    let bytes = any_bytes(said.as_bytes(), running);
    bytes.map_err(|fault| format!("`{}`: {}", said.trim(), fault.words()))
}

/// What stands behind the first word.
fn after(rest: &str) -> &str {
    rest.trim_start()
        .split_once(char::is_whitespace)
        .map_or("", |(_, after)| after)
}

/// Its records with `;` between them.
fn statement_of(said: &str) -> Result<Vec<u8>, String> {
    let records = said.split(';').map(statement::text::line_bytes);
    Ok(records.collect::<Result<Vec<_>, _>>()?.concat())
}

fn numbers(words: &[&str]) -> Result<Vec<u64>, String> {
    words.iter().map(|word| parsed(word, "number")).collect()
}

/// Serial, code, second mark byte, account, six amounts.
fn values(words: &[&str]) -> Result<Values, String> {
    let (serial, code, mark, account, amounts) = match words {
        [serial, code, mark, account, amounts @ ..] => (serial, code, mark, account, amounts),
        _ => return Err("values need ten numbers".to_string()),
    };
    let amounts = numbers(amounts)?.try_into();
    Ok(Values {
        serial: parsed(serial, "serial")?,
        code: parsed(code, "code")?,
        mark: parsed(mark, "second mark byte")?,
        account: parsed(account, "account")?,
        amounts: amounts.map_err(|_| "values need ten numbers")?,
    })
}
