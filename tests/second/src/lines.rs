//! The lines of sheets, rules texts and question texts, from paper 01's section on the sheet program, issue 18's points
//! 1 and 2, request R-2, and request R-7 as issue 25 settles it, alone. A sheet is rules followed by a question, so all three have the same lines.

use std::collections::HashMap;

use crate::book;
use crate::formula::{self, Table};
use crate::question::Question;
use crate::refusal::{refusal, Refusal};
use crate::tables::rights;

/// Whose lines they are.
#[derive(Clone, Copy, PartialEq, Eq)]
pub enum Text {
    Sheet,
    Rules,
    /// Put to a book of n settings and m posts.
    Question {
        n: usize,
        m: usize,
    },
}

/// Line by line, and the first line with a fault decides. A last line without byte 10 is malformed, and a text that
/// ends early gets 22 one past its last line. In rules and questions, lines that begin with `#` and empty lines are
/// passed over; the numbers of lines count them.
pub fn read(text: Text, bytes: &[u8]) -> Result<Desk, Refusal> {
    let mut lines: Vec<&[u8]> = bytes.split(|&byte| byte == b'\n').collect();
    let rest = lines.pop().unwrap_or_default();
    let mut desk = Desk::new(text);
    for (i, line) in lines.iter().enumerate() {
        let passed_over = text != Text::Sheet && (line.is_empty() || line.starts_with(b"#"));
        if !passed_over {
            desk.take(line).map_err(|number| Refusal::at(number, i as u32 + 1))?;
        }
    }
    let end = if text == Text::Rules { Due::RightOrTeam } else { Due::Ask };
    if desk.due != end || !rest.is_empty() {
        return refusal(22, lines.len() + 1);
    }
    Ok(desk)
}

/// What the next line may be.
#[derive(Clone, Copy, PartialEq, Eq)]
enum Due {
    Size,
    RightOrTeam,
    Known,
    HeldOrMake,
    Make,
    Ask,
}

/// What the lines so far have said.
pub struct Desk {
    text: Text,
    due: Due,
    n: usize,
    m: usize,
    rules: HashMap<(bool, usize, usize), Table>,
    team: u8,
    known: u8,
    values: u8,
    held: u8,
    /// The make table, then the learn tables.
    goal: Vec<Table>,
}

const MALFORMED: u32 = 22;
const TWICE: u32 = 23;
const TOO_MANY_SETTINGS: u32 = 25;

impl Desk {
    fn new(text: Text) -> Desk {
        let (due, n, m) = match text {
            Text::Sheet | Text::Rules => (Due::Size, 0, 0),
            Text::Question { n, m } => (Due::RightOrTeam, n, m),
        };
        Desk { text, due, n, m, rules: HashMap::new(), team: 0, known: 0, values: 0, held: 0, goal: vec![] }
    }

    /// Takes a line, or refuses it with a number: 22, then 23, then the formula's. A question states no right, and
    /// rules name no team.
    fn take(&mut self, line: &[u8]) -> Result<(), u32> {
        let (states_rights, asks) = (!matches!(self.text, Text::Question { .. }), self.text != Text::Rules);
        let words: Vec<&[u8]> = line.split(|&byte| byte == b' ').collect();
        match (self.due, words[0], &words[1..]) {
            (Due::Size, b"size", [n, m]) => self.size(n, m),
            (Due::RightOrTeam, b"read" | b"write", [setting, post, _, ..]) if states_rights => {
                let before_formula = words[0].len() + 1 + setting.len() + 1 + post.len() + 1;
                self.right(words[0] == b"read", setting, post, &line[before_formula..])
            }
            (Due::RightOrTeam, b"team", posts @ [_, ..]) if asks => self.team(posts),
            (Due::Known, b"known", settings) => self.known(settings),
            (Due::HeldOrMake, b"held", settings) => self.held(settings),
            (Due::HeldOrMake | Due::Make, b"make", [_, ..]) => self.goal(&line[b"make ".len()..]),
            (Due::Ask, b"ask", [_, ..]) if self.goal.len() < 5 => self.goal(&line[b"ask ".len()..]),
            _ => Err(MALFORMED),
        }
    }

    fn size(&mut self, n: &[u8], m: &[u8]) -> Result<(), u32> {
        self.n = digit(n, 7).ok_or(MALFORMED)?;
        self.m = digit(m, 8).ok_or(MALFORMED)?;
        if self.n > 5 && self.text == Text::Sheet {
            return Err(TOO_MANY_SETTINGS);
        }
        self.due = Due::RightOrTeam;
        Ok(())
    }

    fn right(&mut self, look: bool, setting: &[u8], post: &[u8], formula: &[u8]) -> Result<(), u32> {
        let right = (look, self.setting(setting)?, self.post(post)?);
        if self.rules.contains_key(&right) {
            return Err(TWICE);
        }
        let rule = self.formula(formula)?;
        self.rules.insert(right, rule);
        Ok(())
    }

    fn team(&mut self, posts: &[&[u8]]) -> Result<(), u32> {
        let posts: Vec<usize> = posts.iter().map(|post| self.post(post)).collect::<Result<_, _>>()?;
        for post in posts {
            if self.team >> post & 1 == 1 {
                return Err(TWICE);
            }
            self.team |= 1 << post;
        }
        self.due = Due::Known;
        Ok(())
    }

    fn known(&mut self, settings: &[&[u8]]) -> Result<(), u32> {
        let mut named = Vec::new();
        for word in settings {
            let (value, letter) = match word {
                [b'~', letter @ ..] => (0, letter),
                letter => (1, *letter),
            };
            named.push((self.setting(letter)?, value));
        }
        for (setting, value) in named {
            if self.known >> setting & 1 == 1 {
                return Err(TWICE);
            }
            self.known |= 1 << setting;
            self.values |= value << setting;
        }
        self.due = Due::HeldOrMake;
        Ok(())
    }

    /// A line like `known`, without `~`; alone it holds nothing. What is known may be held too.
    fn held(&mut self, settings: &[&[u8]]) -> Result<(), u32> {
        let settings: Vec<usize> = settings.iter().map(|letter| self.setting(letter)).collect::<Result<_, _>>()?;
        for setting in settings {
            if self.held >> setting & 1 == 1 {
                return Err(TWICE);
            }
            self.held |= 1 << setting;
        }
        self.due = Due::Make;
        Ok(())
    }

    fn goal(&mut self, formula: &[u8]) -> Result<(), u32> {
        let table = self.formula(formula)?;
        self.goal.push(table);
        self.due = Due::Ask;
        Ok(())
    }

    fn formula(&self, text: &[u8]) -> Result<Table, u32> {
        formula::read(self.n as u64, text).map_err(|refusal| refusal.number)
    }

    fn setting(&self, word: &[u8]) -> Result<usize, u32> {
        match word {
            [letter @ b'a'..=b'g'] if usize::from(letter - b'a') < self.n => Ok(usize::from(letter - b'a')),
            _ => Err(MALFORMED),
        }
    }

    fn post(&self, word: &[u8]) -> Result<usize, u32> {
        digit(word, self.m).map(|digit| digit - 1).ok_or(MALFORMED)
    }

    /// The book of the rights that were stated, and of what those are that were not.
    pub fn book(&self) -> Vec<u8> {
        let rule = |setting, post, look| match self.rules.get(&(look, setting, post)) {
            Some(stated) => *stated,
            None => self.unstated(look),
        };
        let rights = rights(self.n, self.m, rule);
        let book = book::write(self.n as u64, self.m as u64, &rights, usize::MAX);
        book.unwrap_or_else(|refusal| panic!("a text's book was {refusal}"))
    }

    /// Request R-2: "Sheets must read an unstated `read` as `1` and an unstated `write` as `0`."
    fn unstated(&self, look: bool) -> Table {
        self.formula(if look { b"1" } else { b"0" }).unwrap_or_else(|number| panic!("a digit was refused {number}"))
    }

    /// What a sheet asks.
    pub fn question(&self) -> Question {
        self.question_to(self.book())
    }

    /// What is asked, put to a book.
    pub fn question_to(&self, book: Vec<u8>) -> Question {
        Question {
            book,
            team: self.team,
            known: self.known,
            values: self.values,
            held: self.held,
            make: self.goal[0].to_vec(),
            learn: self.goal[1..].concat(),
        }
    }
}

/// A number of one digit, from 1 to this.
fn digit(word: &[u8], most: usize) -> Option<usize> {
    match word {
        [digit @ b'1'..=b'9'] => Some(usize::from(digit - b'0')).filter(|&number| number <= most),
        _ => None,
    }
}
