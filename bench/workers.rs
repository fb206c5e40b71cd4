// The runs that `workers.sh` measures, in plain Rust: the words of the command line are the allowed rounds and how many threads make the run
// (0 is one worker without a lock). On standard input stand the session's text and, behind it, what `pld` answers to the same design's
// `dump image` (in the order of declaration) and `dump tables`. What is written are the replies to `run` and `stats`.
#[allow(dead_code)]
#[path = "run_rules.rs"]
mod run_rules;

use run_rules::page_rules::{TurnEnd, load};
use run_rules::{Outcome, Plan, Run};
use std::io::Read;
use std::sync::Mutex;
use std::thread;

// What a worker found to do.
enum Begun<P> {
    Over,
    Taken(usize, P),
    Round,
    Nothing,
}

// One worker, until the run is over. It holds the lock once to take a page or to make a round, and once to bring a page back.
fn work(run: &Mutex<Run>, seat: u8) {
    let begin = |run: &mut Run| {
        if run.outcome().is_some() {
            Begun::Over
        } else if let Some((k, page)) = run.take(seat) {
            Begun::Taken(k, page)
        } else if run.round(seat) {
            Begun::Round
        } else {
            Begun::Nothing
        }
    };
    loop {
        let begun = begin(&mut run.lock().unwrap());
        match begun {
            Begun::Over => return,
            Begun::Taken(k, mut page) => {
                let end = page.turn();
                run.lock().unwrap().give(seat, k, page, end);
            }
            Begun::Round => {}
            Begun::Nothing => (0..4).for_each(|_| thread::yield_now()),
        }
    }
}

fn by_threads(run: Run, threads: u8) -> Run {
    let shared = Mutex::new(run);
    thread::scope(|scope| {
        for seat in 0..threads {
            let shared = &shared;
            scope.spawn(move || work(shared, seat));
        }
    });
    shared.into_inner().unwrap()
}

// A design as its session and its dumps tell it.
#[derive(Default)]
struct Design {
    depth: Option<usize>,
    inputs: Vec<(String, Vec<u32>)>,
    outputs: Vec<String>,
    images: Vec<(String, Vec<u8>)>,
    leaves: Vec<(u8, String)>,
    rows: Vec<(u8, u8, (u8, u8))>,
}

// The slot of a port: `o` and a digit, or `i` and a digit, which stand behind those.
fn slot(port: &str) -> u8 {
    let number: u8 = port[1..].parse().unwrap();
    if port.starts_with('i') { 8 + number } else { number }
}

fn bytes(hex: &str) -> Vec<u8> {
    (0..hex.len() / 2).map(|k| u8::from_str_radix(&hex[2 * k..2 * k + 2], 16).unwrap()).collect()
}

impl Design {
    fn line(&mut self, words: &[&str]) {
        match *words {
            ["pages", depth] => self.depth = depth.parse().ok(),
            ["input", name, _] => self.inputs.push((name.into(), Vec::new())),
            ["output", _, name] => self.outputs.push(name.into()),
            ["feed", name, ref more @ ..] => {
                let input = self.inputs.iter_mut().find(|input| input.0 == name).unwrap();
                input.1.extend(more.iter().map(|word| word.parse::<u32>().unwrap()));
            }
            ["image", name, _, hex] => self.images.push((name.into(), bytes(hex))),
            ["page", leaf, name, _] => self.leaves.push((leaf.parse().unwrap(), name.into())),
            ["row", leaf, port, other, there] => {
                self.rows.push((leaf.parse().unwrap(), slot(port), (other.parse().unwrap(), slot(there) & 7)));
            }
            _ => {}
        }
    }

    fn image(&self, name: &str) -> &[u8] {
        &self.images.iter().find(|image| image.0 == name).unwrap().1
    }

    fn plan(&self, rounds: u64) -> Plan {
        Plan {
            depth: self.depth.unwrap_or(4),
            pages: self.leaves.iter().map(|(leaf, name)| (*leaf, load(self.image(name)))).collect(),
            rows: self.rows.clone(),
            feeds: self.inputs.iter().map(|input| input.1.clone()).collect(),
            outs: self.outputs.len(),
            allowed: rounds.min(40_000_000 / (8 * self.leaves.len() as u64 + 1)),
        }
    }

    fn stands(&self, run: &Run) {
        for (name, _) in &self.images {
            let leaf = self.leaves.iter().find(|page| page.1 == *name).unwrap().0;
            match run.end(leaf) {
                Some(TurnEnd::Read(port)) => println!("at {name}.i{port} empty"),
                Some(TurnEnd::Write(port, _)) => println!("at {name}.o{port} full"),
                _ => {}
            }
        }
    }
}

fn main() {
    let arguments: Vec<u64> = std::env::args().skip(1).map(|word| word.parse().unwrap()).collect();
    let mut text = String::new();
    std::io::stdin().read_to_string(&mut text).unwrap();
    let mut design = Design::default();
    text.lines().for_each(|line| design.line(&line.split_whitespace().collect::<Vec<_>>()));
    let mut run = Run::new(design.plan(arguments[0]));
    let configs = run.configs();
    match arguments[1] as u8 {
        0 => run.plain(),
        threads => run = by_threads(run, threads),
    }
    match run.outcome().unwrap() {
        Outcome::Done => println!("done"),
        Outcome::Stalled => {
            println!("stalled");
            design.stands(&run);
        }
        Outcome::Spent => println!("spent {}", run.rounds),
    }
    for (name, out) in design.outputs.iter().zip(&run.outs) {
        let words: String = out.iter().map(|word| format!(" {word}")).collect();
        println!("out {name} {}{words}", out.len());
    }
    println!("stats rounds {} packets {} deflected {} configs {configs}", run.rounds, run.packets, run.deflected());
}
