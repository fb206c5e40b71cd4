//! The plain Rust beside which `edits.sh` measures: a design of operators and channels that is edited by the statements of a
//! session's text, with maps of std, and a reply for each statement. It reads what `edits.sh` writes: `op` with a text of which it
//! counts the ports alone, `input`, `output`, `connect`, `disconnect`, `pin`, `pages` and `clear`.

use std::collections::HashMap;
use std::io::{self, Read, Write};

#[derive(Clone, Copy, PartialEq, Eq, Hash)]
struct Port<'a> {
    op: &'a str,
    out: bool,
    number: u8,
}

#[derive(Clone, Copy, PartialEq, Eq, Hash)]
enum Place<'a> {
    Port(Port<'a>),
    Host(&'a str),
}

struct Operator {
    ins: u8,
    outs: u8,
    pin: Option<u16>,
}

struct Design<'a> {
    operators: HashMap<&'a str, Operator>,
    /// Each end of a channel, with its other end.
    ends: HashMap<Place<'a>, Place<'a>>,
    channels: usize,
    inputs: HashMap<&'a str, Vec<u32>>,
    outputs: usize,
    pinned: u64,
    depth: u32,
}

type Answer = Result<(), &'static str>;

fn refuse(holds: bool, why: &'static str) -> Answer {
    if holds { Err(why) } else { Ok(()) }
}

fn port(word: &str) -> Option<Port<'_>> {
    let (op, tail) = word.split_at_checked(word.len().checked_sub(3)?)?;
    let tail = tail.as_bytes();
    if tail[0] != b'.' || (tail[1] != b'i' && tail[1] != b'o') || !(b'0'..=b'7').contains(&tail[2]) {
        return None;
    }
    Some(Port { op, out: tail[1] == b'o', number: tail[2] - b'0' })
}

impl<'a> Design<'a> {
    fn free(&self, name: &str) -> Answer {
        refuse(self.operators.contains_key(name) || self.ends.contains_key(&Place::Host(name)), "NameTaken")
    }

    fn known(&self, end: &Port) -> Answer {
        refuse(!self.operators.contains_key(end.op), "UnknownOperator")
    }

    fn has(&self, end: &Port) -> Answer {
        let there = self.operators.get(end.op).is_some_and(|o| end.number < if end.out { o.outs } else { o.ins });
        refuse(!there, "UnknownPort")
    }

    fn untaken(&self, end: &Port<'a>) -> Answer {
        refuse(self.ends.contains_key(&Place::Port(*end)), "PortTaken")
    }

    fn join(&mut self, from: Place<'a>, to: Place<'a>) {
        self.ends.insert(from, to);
        self.ends.insert(to, from);
        self.channels += 1;
    }

    fn connect(&mut self, from: Port<'a>, to: Port<'a>) -> Answer {
        self.known(&from)?;
        self.known(&to)?;
        refuse(!from.out, "WrongDirection")?;
        refuse(to.out, "WrongDirection")?;
        self.has(&from)?;
        self.has(&to)?;
        self.untaken(&from)?;
        self.untaken(&to)?;
        refuse(self.channels >= 256, "TooMany")?;
        self.join(Place::Port(from), Place::Port(to));
        Ok(())
    }

    fn host(&mut self, name: &'a str, end: Port<'a>, out: bool) -> Answer {
        self.free(name)?;
        self.known(&end)?;
        refuse(end.out != out, "WrongDirection")?;
        self.has(&end)?;
        self.untaken(&end)?;
        let count = if out { self.outputs } else { self.inputs.len() };
        refuse(count >= 8 || self.channels >= 256, "TooMany")?;
        if out {
            self.outputs += 1;
            self.join(Place::Port(end), Place::Host(name));
        } else {
            self.inputs.insert(name, Vec::new());
            self.join(Place::Host(name), Place::Port(end));
        }
        Ok(())
    }

    fn disconnect(&mut self, what: Place<'a>) -> Answer {
        if let Place::Port(end) = what {
            self.known(&end)?;
            refuse(!end.out, "WrongDirection")?;
            self.has(&end)?;
        }
        let Some(other) = self.ends.remove(&what) else { return Err("NotLinked") };
        self.ends.remove(&other);
        self.channels -= 1;
        for end in [what, other] {
            if let Place::Host(name) = end {
                if self.inputs.remove(name).is_none() {
                    self.outputs -= 1;
                }
            }
        }
        Ok(())
    }

    fn pin(&mut self, name: &str, leaf: u16) -> Answer {
        let (depth, pinned) = (self.depth, self.pinned);
        let Some(o) = self.operators.get_mut(name) else { return Err("UnknownOperator") };
        refuse(leaf == 0 || leaf >= 1 << depth, "LeafRange")?;
        refuse(o.pin != Some(leaf) && pinned >> leaf & 1 == 1, "LeafTaken")?;
        if let Some(old) = o.pin {
            self.pinned &= !(1 << old);
        }
        self.pinned |= 1 << leaf;
        o.pin = Some(leaf);
        Ok(())
    }

    fn pages(&mut self, depth: u32) -> Answer {
        refuse(depth < 6 && self.pinned >> (1 << depth) != 0, "LeafRange")?;
        self.depth = depth;
        Ok(())
    }

    fn clear(&mut self, name: &str) -> Answer {
        let Some(words) = self.inputs.get_mut(name) else { return Err("NotLinked") };
        words.clear();
        Ok(())
    }

    fn edit(&mut self, line: &'a str) -> Option<Answer> {
        let mut words = line.split(' ').filter(|w| !w.is_empty());
        let verb = words.next()?;
        let (a, b) = (words.next()?, words.next());
        if words.next().is_some() {
            return None;
        }
        Some(match (verb, b) {
            ("connect", Some(b)) => self.connect(port(a)?, port(b)?),
            ("disconnect", None) if a.contains('.') => self.disconnect(Place::Port(port(a)?)),
            ("disconnect", None) => self.disconnect(Place::Host(a)),
            ("input", Some(b)) => self.host(a, port(b)?, false),
            ("output", Some(b)) => self.host(b, port(a)?, true),
            ("pin", Some(b)) => self.pin(a, b.parse().ok()?),
            ("pages", None) => self.pages(a.parse().ok().filter(|d| (1..=6).contains(d))?),
            ("clear", None) => self.clear(a),
            _ => return None,
        })
    }
}

fn main() -> io::Result<()> {
    let mut text = String::new();
    io::stdin().read_to_string(&mut text)?;
    let mut out = io::BufWriter::new(io::stdout());
    let mut design = Design {
        operators: HashMap::new(),
        ends: HashMap::new(),
        channels: 0,
        inputs: HashMap::new(),
        outputs: 0,
        pinned: 0,
        depth: 4,
    };
    let mut lines = text.lines().enumerate();
    while let Some((number, line)) = lines.next() {
        let answer = match line.strip_prefix("op ").and_then(|rest| rest.split(' ').next()) {
            Some(name) => {
                let (mut ins, mut outs) = (0, 0);
                for (_, line) in lines.by_ref().take_while(|(_, line)| *line != "end") {
                    ins += line.matches("in ").count() as u8;
                    outs += line.matches("out ").count() as u8;
                }
                let tests = design.free(name).and_then(|()| refuse(design.operators.len() >= 63, "TooMany"));
                if tests.is_ok() {
                    design.operators.insert(name, Operator { ins, outs, pin: None });
                }
                Some(tests)
            }
            None => design.edit(line),
        };
        match answer {
            Some(Ok(())) => out.write_all(b"ok\n")?,
            Some(Err(why)) => writeln!(out, "refused {} {}", number + 1, why)?,
            None => writeln!(out, "refused {} BadLine", number + 1)?,
        }
    }
    out.flush()
}
