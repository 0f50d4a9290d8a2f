//! Plays a script (docs/FORMATS.md, play) by two engines of the crate `tcap`, and prints its text.
//!
//!     play SCRIPT [SEEN]     status 1 where a line is bad; SEEN: a file into which it is written how often each status
//!                            was answered and each kind of output told, by a line `status NUMBER NAME COUNT` or
//!                            `kind NUMBER NAME COUNT`; NUMBER is that of tcap.h, NAME the variant that told it, or Ok
//!
//! The three lines more that bindings/play.c names are played here too.

#![forbid(unsafe_code)]

mod text;
mod words;

use std::collections::BTreeMap;
use std::fmt::Debug;
use std::process::ExitCode;
use tcap::{refusing, AbortReason, Class, Code, Engine, Error, Invoke, Limits, Output, Portion, Termination, Waiting};
use text::{hexed, kind_of, text_of, PROBLEMS};
use words::{absent, address, held, idle_limit, number, octets, some};

#[derive(Clone, Copy, PartialEq)]
enum Fate {
    Waits,
    Received,
    Lost,
}

struct Message {
    octets: Vec<u8>,
    address: Vec<u8>,
    fate: Fate,
}

struct Side {
    letter: char,
    address: [u8; 1],
    engine: Engine,
    sent: Vec<Message>,
}

struct Play {
    sides: [Side; 2],
    now: u64,
    idle_ms: u64,
    seen: BTreeMap<(&'static str, i32, String), u64>,
}

/// The name of a variant.
fn name_of(value: &impl Debug) -> String {
    format!("{:?}", value).chars().take_while(|letter| letter.is_alphanumeric()).collect()
}

/// Which side a word names.
fn side(word: &str) -> Option<usize> {
    ["A", "B"].iter().position(|letter| *letter == word)
}

impl Play {
    fn new(idle_ms: u64) -> Result<Play, Error> {
        let limits = Limits { max_dialogues: 16, idle_ms, ..Limits::default() };
        let of =
            |letter, address| Ok(Side { letter, address: [address], engine: Engine::open(&limits)?, sent: Vec::new() });
        Ok(Play { sides: [of('A', 0x41)?, of('B', 0x42)?], now: 0, idle_ms, seen: BTreeMap::new() })
    }

    fn count(&mut self, what: &'static str, number: i32, name: String) {
        *self.seen.entry((what, number, name)).or_insert(0) += 1;
    }

    /// Prints what a call of a side answered, by this name, and what was told.
    fn answered<T: ToString>(&mut self, at: usize, answer: Result<T, Error>, name: &str) {
        let letter = self.sides[at].letter;
        match answer {
            Err(error) => {
                self.count("status", error.status(), name_of(&error));
                println!("{} refused {}", letter, error.status());
            }
            Ok(value) => {
                self.count("status", 0, "Ok".to_string());
                if !name.is_empty() {
                    println!("{}", format!("{} {} {}", letter, name, value.to_string()).trim_end());
                }
            }
        }
        for (kind, name) in self.told(at) {
            self.count("kind", kind, name);
        }
    }

    /// Prints what was told, and answers what it was.
    fn told(&mut self, at: usize) -> Vec<(i32, String)> {
        let beyond = self.sides[1 - at].address;
        let side = &mut self.sides[at];
        let mut told = Vec::new();
        while let Some(Waiting { output, .. }) = side.engine.next_output() {
            told.push((kind_of(&output), name_of(&output)));
            let mut text = text_of(output);
            if let Output::Send { address, message } = output {
                side.sent.push(Message { octets: message.to_vec(), address: address.to_vec(), fate: Fate::Waits });
                text = format!("send {}{} {}", side.letter, side.sent.len(), hexed(message));
                if address != beyond {
                    text += &format!(" to {}", hexed(address));
                }
            }
            println!("{} {}", side.letter, text);
        }
        told
    }

    /// The same of a call that answers nothing, which prints `name`.
    fn done(&mut self, at: usize, answer: Result<(), Error>, name: &str) -> Option<()> {
        self.answered(at, answer.map(|()| ""), name);
        Some(())
    }

    fn receive(&mut self, at: usize, from: &[u8], message: &[u8]) -> Option<()> {
        let answer = self.sides[at].engine.receive(self.now, from, message);
        self.done(at, answer, "")
    }

    /// `deliver M`, `again M`, `lose M`.
    fn carry(&mut self, verb: &str, name: &str) -> Option<()> {
        let from = side(name.get(..1)?)?;
        let count = self.sides[from].sent.len();
        let index = number(&name[1..], 1..=count as i128)? as usize - 1;
        let (address, beyond) = (self.sides[from].address, self.sides[1 - from].address);
        let message = &mut self.sides[from].sent[index];
        let is_due = message.fate == if verb == "again" { Fate::Received } else { Fate::Waits };
        if !is_due || (verb != "lose" && message.address != beyond) {
            return None;
        }
        message.fate = if verb == "lose" { Fate::Lost } else { Fate::Received };
        let octets = message.octets.clone();
        match verb {
            "lose" => Some(()),
            _ => self.receive(1 - from, &address, &octets),
        }
    }

    fn advance(&mut self, moment: u64) -> Option<()> {
        if moment <= 1 << 62 {
            self.now = self.now.max(moment);
        }
        for at in 0..2 {
            let answer = self.sides[at].engine.advance(moment);
            self.done(at, answer, "")?;
        }
        Some(())
    }

    /// `S open DIALOGUES MESSAGE DIALOGUE NUMBER`.
    fn open(&mut self, at: usize, [dialogues, message, dialogue, number]: [&str; 4]) -> Option<()> {
        let limits = Limits {
            max_dialogues: held(dialogues)?,
            max_message: held(message)?,
            idle_ms: self.idle_ms,
            first_dialogue: held(dialogue)?,
            first_number: held(number)?,
            ..Limits::default()
        };
        self.sides[at].engine = Engine::open(&limits).ok()?;
        Some(())
    }

    /// Does what a line asks for.
    fn line(&mut self, words: &[&str]) -> Option<()> {
        match *words {
            [verb @ ("deliver" | "again" | "lose"), name] => self.carry(verb, name),
            ["advance", moment] => self.advance(held(moment)?),
            ["memory", "refused"] => {
                refusing::refuse(0..u64::MAX);
                Some(())
            }
            ["memory", "given"] => {
                refusing::refuse(0..0);
                Some(())
            }
            [letter, "new"] => {
                let at = side(letter)?;
                let answer = self.sides[at].engine.new_dialogue();
                self.answered(at, answer, "new");
                Some(())
            }
            [letter, "raw", message] => {
                let at = side(letter)?;
                let from = self.sides[1 - at].address;
                self.receive(at, &from, &octets(message)?)
            }
            [letter, "rawfrom", from, message] => self.receive(side(letter)?, &address(from)?, &octets(message)?),
            [letter, "open", dialogues, message, dialogue, first] => {
                self.open(side(letter)?, [dialogues, message, dialogue, first])
            }
            [letter, verb, dialogue, ref rest @ ..] => self.request(side(letter)?, verb, held(dialogue)?, rest),
            _ => None,
        }
    }

    /// A request on a dialogue of a side.
    fn request(&mut self, at: usize, verb: &str, d: u32, words: &[&str]) -> Option<()> {
        let (now, to, engine) = (self.now, self.sides[1 - at].address, &self.sides[at].engine);
        let answer = match (verb, words) {
            ("uni" | "begin" | "continue" | "end" | "abort", &[first, info]) => {
                let info = octets(info)?;
                let reason = match first {
                    "user" => AbortReason::UserSpecific,
                    _ => AbortReason::ContextNotSupported,
                };
                let context = if verb == "abort" { Vec::new() } else { octets(first)? };
                let with = Portion { context: some(&context), info: &info };
                match verb {
                    "uni" => engine.uni(now, d, &to, with),
                    "begin" => engine.begin(now, d, &to, with),
                    "continue" => engine.go_on(now, d, with),
                    "end" => engine.end(now, d, with),
                    _ if first == "user" || first == "unsupported" => engine.u_abort(now, d, reason, &info),
                    _ => return None,
                }
            }
            ("beginto", &[to, context, info]) => {
                let (to, context, info) = (address(to)?, octets(context)?, octets(info)?);
                engine.begin(now, d, &to, Portion { context: some(&context), info: &info })
            }
            ("prearranged", []) => engine.finish(now, d, Termination::Prearranged, Portion::default()),
            _ => return self.component(at, verb, d, words),
        };
        self.done(at, answer, "")
    }

    /// A request of component handling.
    fn component(&mut self, at: usize, verb: &str, d: u32, words: &[&str]) -> Option<()> {
        let engine = &self.sides[at].engine;
        let answer = match (verb, words) {
            ("cancel", &[id]) => {
                let answer = engine.u_cancel(d, held(id)?);
                self.answered(at, answer, "givenup");
                return Some(());
            }
            ("invoke", &[id, class, code, timeout, linked, parameter]) => {
                let class = [Class::One, Class::Two, Class::Three, Class::Four][number(class, 1..=4)? as usize - 1];
                let (linked_id, parameter) = (absent(linked, held)?, octets(parameter)?);
                let invoke = Invoke::new(held(id)?, Code::Local(held(code)?), held(timeout)?);
                let answer = engine.invoke(d, &Invoke { class, linked_id, parameter: some(&parameter), ..invoke });
                self.answered(at, answer, "number");
                return Some(());
            }
            ("reject", &[id, kind, code]) => {
                let kind = PROBLEMS.iter().position(|name| *name == kind)?;
                let code = number(code, 0..=255)?;
                engine.u_reject(d, absent(id, held)?, (256 * kind) as u16 + code as u16)
            }
            ("error", &[id, code, parameter]) => {
                engine.u_error(d, held(id)?, Code::Local(held(code)?), some(&octets(parameter)?))
            }
            ("last" | "more", &[id, code, parameter]) => {
                let (id, code, parameter) = (held(id)?, absent(code, held)?.map(Code::Local), octets(parameter)?);
                match verb {
                    _ if code.is_none() && !parameter.is_empty() => return None,
                    "last" => engine.result_l(d, id, code, some(&parameter)),
                    _ => engine.result_nl(d, id, code, some(&parameter)),
                }
            }
            _ => return None,
        };
        self.done(at, answer, "done")
    }

    fn seen(&self) -> String {
        let line = |((what, number, name), count): (&(_, _, String), &u64)| {
            format!("{} {} {} {}\n", what, number, name, count)
        };
        self.seen.iter().map(line).collect()
    }
}

fn main() -> ExitCode {
    let names: Vec<String> = std::env::args().skip(1).collect();
    let script = std::fs::read_to_string(&names[0]).expect("the script");
    let lines = script.lines().zip(1..).filter(|(line, _)| !line.is_empty() && !line.starts_with('#'));
    let mut lines: Vec<(&str, u32)> = lines.collect();
    let idle = lines.first().and_then(|(line, _)| line.strip_prefix("idle ")).and_then(idle_limit);
    if idle.is_some() {
        lines.remove(0);
    }
    let mut play = Play::new(idle.unwrap_or(0)).expect("two engines");
    for (line, number) in lines {
        if play.line(&line.split(' ').collect::<Vec<_>>()).is_none() {
            println!("line {} bad", number);
            return ExitCode::FAILURE;
        }
    }
    if let Some(name) = names.get(1) {
        std::fs::write(name, play.seen()).expect("what was seen");
    }
    ExitCode::SUCCESS
}
