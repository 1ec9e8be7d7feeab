//! Plays a script on two stores: on one each call by its method, on the other by its number. The two have to agree.
//!
//! `play SCRIPT [--load FILE] [--place N] [--save FILE]`
//!
//! Prints a line for each call, as `drive` does: its place, the refusal, four values.

use region_store::Store;
use std::io::{self, BufWriter, Write};
use std::process::ExitCode;
use std::{env, fs};

#[path = "../tests/by_name/mod.rs"]
mod by_name;

/// How many calls there are between two comparisons of all memory.
const OFTEN: u64 = 20;

#[derive(Default)]
struct Options {
    script: Option<String>,
    load: Option<String>,
    place: u64,
    save: Option<String>,
}

/// A line of a script.
enum Line {
    Pages(u32),
    Call(u32, [u32; 4], Vec<u32>),
}

/// Two stores that should be one another's copy.
struct Pair {
    named: Store,
    numbered: Store,
}

struct Player<W: Write> {
    pair: Option<Pair>,
    place: u64,
    out: W,
}

impl Pair {
    fn new(store: Store) -> Pair {
        Pair {
            numbered: store.clone(),
            named: store,
        }
    }

    /// Makes a call on both.
    fn call(&mut self, number: u32, n: [u32; 4], list: &[u32]) -> Result<[u32; 5], String> {
        let by_name = by_name::by_name(&mut self.named, number, n, list);
        let [a, b, c, d] = n;
        let mut by_number = self.numbered.call(number, a, b, c, d, list);
        if by_name::CALLS[number as usize - 1].0 == "view" {
            // A call by number gives no part, so its length is had from the method.
            by_number[1] = self.numbered.view(a).map_or(0, |part| part.len() as u32);
        }
        if by_name != by_number {
            return Err(format!("by name {by_name:?}, by number {by_number:?}"));
        }
        Ok(by_name)
    }

    fn compare(&self) -> Result<(), String> {
        if self.named.state_bytes() != self.numbered.state_bytes() {
            return Err("the states differ".into());
        }
        if self.named.heap() != self.numbered.heap() {
            return Err("the heaps differ".into());
        }
        Ok(())
    }

    /// Compares once more, audits, and saves.
    fn end(&self, save: Option<&str>) -> Result<(), String> {
        self.compare()?;
        if !self.named.audit() || !self.numbered.audit() {
            return Err("the audit does not give 1".into());
        }
        match save {
            Some(path) => self.named.save(path).map_err(|e| format!("{path}: {e}")),
            None => Ok(()),
        }
    }
}

impl<W: Write> Player<W> {
    fn print(&mut self, reply: [u32; 5]) -> Result<(), String> {
        self.place += 1;
        let [refusal, a, b, c, d] = reply;
        writeln!(self.out, "{} {refusal} {a} {b} {c} {d}", self.place).map_err(|e| e.to_string())
    }

    fn make(&mut self, pages: u32) -> Result<(), String> {
        if self.pair.is_some() {
            return Err("there is a store".into());
        }
        match Store::new(pages) {
            Ok(store) => {
                self.pair = Some(Pair::new(store));
                self.print([0; 5])
            }
            Err(refusal) => self.print([refusal.number(), 0, 0, 0, 0]),
        }
    }

    fn play(&mut self, line: Line) -> Result<(), String> {
        let (number, n, list) = match line {
            Line::Pages(pages) => return self.make(pages),
            Line::Call(number, n, list) => (number, n, list),
        };
        let pair = self.pair.as_mut().ok_or("there is no store")?;
        let reply = pair.call(number, n, &list)?;
        self.print(reply)?;
        match &self.pair {
            Some(pair) if self.place % OFTEN == 0 => pair.compare(),
            _ => Ok(()),
        }
    }
}

fn number_of(word: &str) -> Result<u32, String> {
    word.parse().map_err(|_| format!("{word} is no number"))
}

/// The number of a call, and its arguments.
fn call_of(word: &str) -> Result<(u32, &'static str), String> {
    let number = word.parse().unwrap_or(0);
    for (i, (name, arguments)) in (1..).zip(by_name::CALLS) {
        if i > 1 && (name == word || number == i) {
            return Ok((i, arguments));
        }
    }
    Err(format!("{word} is no call"))
}

/// What stands on a line, if anything.
fn line_of(line: &str) -> Result<Option<Line>, String> {
    let line = line.split('#').next().unwrap_or("");
    let mut words = line.split_ascii_whitespace();
    let Some(mut word) = words.next() else {
        return Ok(None);
    };
    let mut filler = None;
    if word == "as" {
        filler = Some(number_of(words.next().unwrap_or(""))?);
        word = words.next().unwrap_or("");
    }
    let given = words.map(number_of).collect::<Result<Vec<u32>, String>>()?;
    if word == "pages" {
        return match given[..] {
            [pages] if filler.is_none() => Ok(Some(Line::Pages(pages))),
            _ => Err("pages takes one number".into()),
        };
    }
    let (number, arguments) = call_of(word)?;
    let (n, list) = placed(arguments, filler, given)?;
    Ok(Some(Line::Call(number, n, list)))
}

/// The numbers and the list of a call with these arguments.
fn placed(
    arguments: &str,
    filler: Option<u32>,
    given: Vec<u32>,
) -> Result<([u32; 4], Vec<u32>), String> {
    let takes_list = arguments.split(' ').any(|word| word.ends_with(".."));
    let takes_filler = arguments.split(' ').any(|word| word == "filler");
    let others = arguments.split_ascii_whitespace().count() - usize::from(takes_filler);
    if filler.is_some() && !takes_filler {
        return Err("the call names no filler".into());
    }
    let filler = filler.unwrap_or(0);
    if takes_list {
        return Ok(([filler, 0, 0, 0], given));
    }
    if given.len() != others {
        return Err(format!("the call takes {others} numbers"));
    }
    let mut n = [0; 4];
    n[..others].copy_from_slice(&given);
    if takes_filler {
        n[others] = filler;
    }
    Ok((n, Vec::new()))
}

fn options() -> Result<Options, String> {
    let mut options = Options::default();
    let mut words = env::args().skip(1);
    while let Some(word) = words.next() {
        let mut next = || words.next().ok_or(format!("{word} wants a word after it"));
        match word.as_str() {
            "--load" => options.load = Some(next()?),
            "--save" => options.save = Some(next()?),
            "--place" => options.place = u64::from(number_of(&next()?)?),
            _ if options.script.is_none() => options.script = Some(word),
            _ => return Err(format!("{word} is one word too many")),
        }
    }
    Ok(options)
}

fn run() -> Result<(), String> {
    let options = options()?;
    let path = options
        .script
        .ok_or("play SCRIPT [--load FILE] [--place N] [--save FILE]")?;
    let script = fs::read(&path).map_err(|e| format!("{path}: {e}"))?;
    let loaded = match &options.load {
        Some(file) => Some(Store::from_file(file).map_err(|e| format!("{file}: {e}"))?),
        None => None,
    };
    let mut player = Player {
        pair: loaded.map(Pair::new),
        place: options.place,
        out: BufWriter::with_capacity(1 << 16, io::stdout().lock()),
    };
    for (i, line) in (1..).zip(String::from_utf8_lossy(&script).lines()) {
        let played = match line_of(line) {
            Ok(Some(line)) => player.play(line),
            Ok(None) => Ok(()),
            Err(why) => Err(why),
        };
        played.map_err(|why| format!("{path}, line {i}: {why}"))?;
    }
    player.out.flush().map_err(|e| e.to_string())?;
    let pair = player.pair.as_ref().ok_or("no store was made")?;
    pair.end(options.save.as_deref())
}

fn main() -> ExitCode {
    match run() {
        Ok(()) => ExitCode::SUCCESS,
        Err(why) => {
            eprintln!("play: {why}");
            ExitCode::FAILURE
        }
    }
}
