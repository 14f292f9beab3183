//! A line of a journal: the call that it is, and the line as `desk say` keeps it;
//! or the first word that does not fit.

use super::number::Decimal;
use crate::model::desks::fields::{Inputs, CCIR, URSI};
use crate::model::desks::{Call, Edit};
use crate::reference::sheets::FIGURES;
use std::fmt;

const FIRST: &str = "open, show, take back or a desk's number";
const AFTER_A_DESK: &str =
    "begin, sunspot, hour, month, model, path, factors, pole, show, commit or cancel";
const NUMBER: &str = "a number: digits with sign and point, at most 18 of them";
const WHOLE: &str = "a whole number below 4294967296";
const MODEL: &str = "ccir or ursi";

/// What an open has if it does not say it.
const FACTORS: [&str; 4] = ["1", "1", "1", "1"];
const POLE: [&str; 2] = ["78.5", "-69"];

#[derive(Debug, Clone, Copy, PartialEq, Eq)]
pub enum Said {
    Open(Inputs),
    Call(Call),
}

#[derive(Debug, Clone, PartialEq, Eq)]
pub struct Line {
    pub said: Said,
    /// As `desk say` keeps it.
    pub kept: String,
}

/// Words count from 1.
#[derive(Debug, Clone, Copy, PartialEq, Eq)]
pub enum Fault {
    ShouldBe(usize, &'static str),
    OneTooMany(usize),
}

impl fmt::Display for Fault {
    fn fmt(&self, f: &mut fmt::Formatter) -> fmt::Result {
        match self {
            Fault::ShouldBe(word, what) => write!(f, "word {word} should be {what}"),
            Fault::OneTooMany(word) => write!(f, "word {word} is one too many"),
        }
    }
}

/// The words of a line, without what follows a `#`.
pub fn words(line: &[u8]) -> Vec<&[u8]> {
    let comment = line.iter().position(|byte| *byte == b'#');
    let said = &line[..comment.unwrap_or(line.len())];
    let words = said.split(|byte| b" \t\r".contains(byte));
    words.filter(|word| !word.is_empty()).collect()
}

/// What a line says; nothing if it has no word.
pub fn read(line: &[u8]) -> Result<Option<Line>, Fault> {
    let words = words(line);
    let Some(first) = words.first() else {
        return Ok(None);
    };
    let mut reader = Reader {
        words: &words,
        next: 0,
        kept: Vec::new(),
    };
    let said = match *first {
        b"open" => Said::Open(reader.open()?),
        b"show" => Said::Call(reader.show_worksheet()?),
        b"take" => Said::Call(reader.take_back()?),
        _ => Said::Call(reader.of_a_desk()?),
    };
    reader.end()?;
    let kept = reader.kept.join(" ");
    Ok(Some(Line { said, kept }))
}

/// Takes words one after the other, and keeps each as `desk` writes it.
struct Reader<'a> {
    words: &'a [&'a [u8]],
    next: usize,
    kept: Vec<String>,
}

impl Reader<'_> {
    fn open(&mut self) -> Result<Inputs, Fault> {
        self.word("open")?;
        self.word("month")?;
        let month = self.whole(WHOLE)?;
        self.word("sunspot")?;
        let sunspot = self.number()?;
        self.word("hour")?;
        let hour = self.number()?;
        let ([tlat, tlon, rlat, rlon], flag) = self.path()?;
        let [e, f1, f2, es] = self.numbers_or("factors", FACTORS)?;
        let [lat, lon] = self.numbers_or("pole", POLE)?;
        let model = self.model_or_ccir()?;
        Ok([
            month, sunspot, hour, tlat, tlon, rlat, rlon, flag, e, f1, f2, es, lat, lon, model,
        ])
    }

    fn show_worksheet(&mut self) -> Result<Call, Fault> {
        self.word("show")?;
        Ok(Call::Show(0, FIGURES))
    }

    fn take_back(&mut self) -> Result<Call, Fault> {
        self.word("take")?;
        self.word("back")?;
        Ok(Call::TakeBack)
    }

    fn of_a_desk(&mut self) -> Result<Call, Fault> {
        let desk = self.whole(FIRST)?;
        let Some(what) = self.words.get(self.next) else {
            return Err(self.should_be(AFTER_A_DESK));
        };
        let call = match *what {
            b"begin" => self.plain("begin", Call::Begin(desk)),
            b"commit" => self.plain("commit", Call::Commit(desk)),
            b"cancel" => self.plain("cancel", Call::Cancel(desk)),
            b"show" => self.show(desk),
            _ => Call::Change(desk, self.edit(what)?),
        };
        Ok(call)
    }

    /// The word that is next, which is all that the call has.
    fn plain(&mut self, word: &str, call: Call) -> Call {
        self.keep(word);
        call
    }

    /// The worksheet's is kept without a desk's number.
    fn show(&mut self, desk: u32) -> Call {
        if desk == 0 {
            self.kept.clear();
        }
        self.plain("show", Call::Show(desk, FIGURES))
    }

    fn edit(&mut self, what: &[u8]) -> Result<Edit, Fault> {
        let edit = match what {
            b"sunspot" => Edit::Sunspots(self.named_number("sunspot")?),
            b"hour" => Edit::Hour(self.named_number("hour")?),
            b"month" => {
                self.word("month")?;
                Edit::Month(self.whole(WHOLE)?)
            }
            b"model" => {
                self.word("model")?;
                Edit::Model(self.model()?)
            }
            b"path" => {
                self.word("path")?;
                let (ends, flag) = self.path()?;
                Edit::Path { ends, flag }
            }
            b"factors" => Edit::Factors(self.named_numbers("factors")?),
            b"pole" => Edit::Pole(self.named_numbers("pole")?),
            _ => return Err(self.should_be(AFTER_A_DESK)),
        };
        Ok(edit)
    }

    /// Both ends, and whether the path goes the long way round.
    fn path(&mut self) -> Result<([u32; 4], u32), Fault> {
        let [tlat, tlon] = self.named_numbers("from")?;
        let [rlat, rlon] = self.named_numbers("to")?;
        let flag = self.is_next("long");
        if flag {
            self.keep("long");
        }
        Ok(([tlat, tlon, rlat, rlon], flag.into()))
    }

    /// A word that may be left out, with its numbers; these are kept all the same.
    fn numbers_or<const N: usize>(
        &mut self,
        word: &'static str,
        usual: [&str; N],
    ) -> Result<[u32; N], Fault> {
        if self.is_next(word) {
            return self.named_numbers(word);
        }
        self.kept.push(String::from(word));
        Ok(usual.map(|text| {
            let number = Decimal::read(text.as_bytes()).expect("a number");
            self.kept.push(number.text());
            number.bits()
        }))
    }

    fn model_or_ccir(&mut self) -> Result<u32, Fault> {
        if self.is_next("model") {
            self.word("model")?;
            return self.model();
        }
        self.kept.extend(["model", "ccir"].map(String::from));
        Ok(CCIR)
    }

    fn model(&mut self) -> Result<u32, Fault> {
        for (name, model) in [("ccir", CCIR), ("ursi", URSI)] {
            if self.is_next(name) {
                self.keep(name);
                return Ok(model);
            }
        }
        Err(self.should_be(MODEL))
    }

    fn named_number(&mut self, word: &'static str) -> Result<u32, Fault> {
        let [number] = self.named_numbers(word)?;
        Ok(number)
    }

    fn named_numbers<const N: usize>(&mut self, word: &'static str) -> Result<[u32; N], Fault> {
        self.word(word)?;
        let mut numbers = [0; N];
        for number in &mut numbers {
            *number = self.number()?;
        }
        Ok(numbers)
    }

    /// The bits of an f32.
    fn number(&mut self) -> Result<u32, Fault> {
        let decimal = self.decimal().ok_or(self.should_be(NUMBER))?;
        self.keep(&decimal.text());
        Ok(decimal.bits())
    }

    fn whole(&mut self, should_be: &'static str) -> Result<u32, Fault> {
        let number = self.decimal().and_then(Decimal::whole);
        let number = number.ok_or(self.should_be(should_be))?;
        self.keep(&number.to_string());
        Ok(number)
    }

    fn decimal(&self) -> Option<Decimal> {
        self.words
            .get(self.next)
            .and_then(|word| Decimal::read(word))
    }

    fn word(&mut self, word: &'static str) -> Result<(), Fault> {
        if !self.is_next(word) {
            return Err(self.should_be(word));
        }
        self.keep(word);
        Ok(())
    }

    fn is_next(&self, word: &str) -> bool {
        self.words.get(self.next) == Some(&word.as_bytes())
    }

    fn keep(&mut self, word: &str) {
        self.kept.push(String::from(word));
        self.next += 1;
    }

    /// Of the word that is next, there or not.
    fn should_be(&self, what: &'static str) -> Fault {
        Fault::ShouldBe(self.next + 1, what)
    }

    fn end(&self) -> Result<(), Fault> {
        match self.words.get(self.next) {
            Some(_) => Err(Fault::OneTooMany(self.next + 1)),
            None => Ok(()),
        }
    }
}

#[cfg(test)]
mod tests;
