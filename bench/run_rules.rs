// A run over a tree of switches in plain Rust, by the same rules as crates/fabric_core: each page is taken out of the run, turned, and
// given back, and where each had its turn a round is made. The window of channels is 16.
#[path = "page_rules.rs"]
pub mod page_rules;
#[path = "tree_rules.rs"]
mod tree_rules;

use self::page_rules::{Core, TurnEnd};
use std::collections::VecDeque;
use self::tree_rules::{Body, Link, Packet, Tree};

const WINDOW: usize = 16;

// The other end of a channel: its leaf, and its port there.
pub type Row = Option<(u8, u8)>;

struct Leaf {
    own: u8,
    rows: [Row; 16],
    credits: [u8; 8],
    next_out: [u8; 8],
    slots: [[Option<u32>; WINDOW]; 8],
    next_in: [u8; 8],
    freed: [u8; 8],
    outbox: VecDeque<(u8, u8, u32)>,
    back: Link,
}

impl Leaf {
    fn new(own: u8) -> Leaf {
        Leaf {
            own,
            rows: [None; 16],
            credits: [WINDOW as u8; 8],
            next_out: [0; 8],
            slots: [[None; WINDOW]; 8],
            next_in: [0; 8],
            freed: [0; 8],
            outbox: VecDeque::with_capacity(8 * WINDOW),
            back: None,
        }
    }

    fn can_write(&self, port: usize) -> bool {
        self.credits[port] > 0
    }

    fn write(&mut self, port: usize, word: u32) -> bool {
        if self.credits[port] == 0 {
            return false;
        }
        self.credits[port] -= 1;
        self.outbox.push_back((port as u8, self.next_out[port], word));
        self.next_out[port] = (self.next_out[port] + 1) % WINDOW as u8;
        true
    }

    fn can_read(&self, port: usize) -> bool {
        self.slots[port][self.next_in[port] as usize].is_some()
    }

    fn read(&mut self, port: usize) -> Option<u32> {
        let word = self.slots[port][self.next_in[port] as usize].take()?;
        self.next_in[port] = (self.next_in[port] + 1) % WINDOW as u8;
        self.freed[port] += 1;
        Some(word)
    }

    fn is_idle(&self) -> bool {
        self.back.is_none() && self.outbox.is_empty() && self.freed == [0; 8]
    }

    fn accept(&mut self, p: Packet) {
        if p.to != self.own {
            self.back = Some(p);
            return;
        }
        match p.body {
            Body::Data(port, number, word) => self.slots[port as usize][number as usize] = Some(word),
            Body::Credit(port, count) => self.credits[port as usize] += count,
            Body::Config(slot, row) => self.rows[slot as usize] = row,
        }
    }

    fn packet(&self, round: u64, to: u8, body: Body) -> Link {
        Some(Packet { stamp: (round, self.own), to, body })
    }

    // What came for another leaf goes first, then a configuration entry, then credits, then a word.
    fn offer(&mut self, round: u64, entry: Option<(u8, u8, Row)>) -> Link {
        if let Some(p) = self.back.take() {
            return Some(p);
        }
        if let Some((leaf, slot, row)) = entry {
            return self.packet(round, leaf, Body::Config(slot, row));
        }
        for port in 0..8 {
            if self.freed[port] > 0 {
                let count = std::mem::take(&mut self.freed[port]);
                let (leaf, other) = self.rows[8 + port].unwrap();
                return self.packet(round, leaf, Body::Credit(other, count));
            }
        }
        let (port, number, word) = self.outbox.pop_front()?;
        let (leaf, other) = self.rows[port as usize].unwrap();
        self.packet(round, leaf, Body::Data(other, number, word))
    }
}

#[allow(dead_code)]
#[derive(Clone, Copy)]
enum Entry {
    Take(u8, u8),
    Give(u8, u8),
    Net(u8),
}

#[derive(Clone, Copy, Debug, PartialEq)]
pub enum Outcome {
    Done,
    Stalled,
    Spent,
}

type Page = Box<dyn Core>;

// The place of a page on its leaf: the page if it is home, and how its last turn ended where no operation was done.
struct Slot {
    leaf: u8,
    page: Option<Page>,
    end: Option<TurnEnd>,
    gives: u8,
}

// What a run is given: the depth of its tree; its pages in the order of their leaves; for each slot of a leaf that has one its row, by leaf
// and slot; the words of each input; how many outputs it has; and the allowed rounds.
pub struct Plan {
    pub depth: usize,
    pub pages: Vec<(u8, Page)>,
    pub rows: Vec<(u8, u8, (u8, u8))>,
    pub feeds: Vec<Vec<u32>>,
    pub outs: usize,
    pub allowed: u64,
}

pub struct Run {
    leaves: Vec<Leaf>,
    slots: Vec<Slot>,
    tree: Tree,
    entries: VecDeque<(u8, u8, Row)>,
    feeds: Vec<Vec<u32>>,
    sent: Vec<usize>,
    pub outs: Vec<Vec<u32>>,
    allowed: u64,
    pub rounds: u64,
    pub packets: u64,
    under: u64,
    configs_under: u64,
    busy: u64,
    // how many pages are out, how many haven't ended, and how many of these had no turn since the last round
    out: usize,
    running: usize,
    due: usize,
    // the pages before this one were taken since the last round
    next: usize,
    journal: Vec<Entry>,
}

impl Run {
    pub fn new(plan: Plan) -> Run {
        let mut leaves: Vec<Leaf> = (0..1 << plan.depth).map(Leaf::new).collect();
        let mut entries = VecDeque::new();
        for (leaf, slot, row) in plan.rows {
            if leaf == 0 {
                leaves[0].rows[slot as usize] = Some(row);
            } else {
                entries.push_back((leaf, slot, Some(row)));
            }
        }
        let count = plan.pages.len();
        let slots = plan.pages.into_iter().map(|(leaf, page)| Slot { leaf, page: Some(page), end: None, gives: 0 });
        Run {
            leaves,
            slots: slots.collect(),
            tree: Tree::new(plan.depth),
            entries,
            sent: vec![0; plan.feeds.len()],
            feeds: plan.feeds,
            outs: vec![Vec::new(); plan.outs],
            allowed: plan.allowed,
            rounds: 0,
            packets: 0,
            under: 0,
            configs_under: 0,
            busy: 0,
            out: 0,
            running: count,
            due: count,
            next: 0,
            journal: Vec::with_capacity((plan.allowed * (8 * count as u64 + 1)) as usize),
        }
    }

    pub fn configs(&self) -> usize {
        self.entries.len()
    }

    pub fn entries(&self) -> usize {
        self.journal.len()
    }

    pub fn deflected(&self) -> u64 {
        self.tree.deflected
    }

    // How the last turn of the page on a leaf ended, where no operation was done.
    pub fn end(&self, leaf: u8) -> Option<TurnEnd> {
        self.slots.iter().find(|slot| slot.leaf == leaf).and_then(|slot| slot.end)
    }

    fn is_configured(&self) -> bool {
        self.entries.is_empty() && self.configs_under == 0
    }

    // Whether no entry is left, nothing is under way, and each leaf is idle.
    fn is_quiet(&self) -> bool {
        self.entries.is_empty() && self.under == 0 && self.busy == 0
    }

    fn is_still(&self) -> bool {
        self.is_quiet()
            && (0..self.feeds.len()).all(|k| self.sent[k] == self.feeds[k].len() || !self.leaves[0].can_write(k))
            && (0..self.outs.len()).all(|j| !self.leaves[0].can_read(j))
            && self.slots.iter().all(|slot| match slot.end {
                None | Some(TurnEnd::Limit) => false,
                Some(TurnEnd::Read(port)) => !self.leaves[slot.leaf as usize].can_read(port),
                Some(TurnEnd::Write(port, _)) => !self.leaves[slot.leaf as usize].can_write(port),
                Some(TurnEnd::Ended) => true,
            })
    }

    // How the run is over, if it is.
    pub fn outcome(&self) -> Option<Outcome> {
        if self.out > 0 {
            None
        } else if self.is_still() {
            Some(if self.running == 0 { Outcome::Done } else { Outcome::Stalled })
        } else if self.rounds >= self.allowed {
            Some(Outcome::Spent)
        } else {
            None
        }
    }

    fn mark(&mut self, leaf: usize) {
        self.busy = self.busy & !(1 << leaf) | (!self.leaves[leaf].is_idle() as u64) << leaf;
    }

    // A seat takes the next page that had no turn since the last round, in a run that isn't over.
    pub fn take(&mut self, seat: u8) -> Option<(usize, Page)> {
        if !self.is_configured() || self.rounds >= self.allowed {
            return None;
        }
        while self.next < self.slots.len() {
            let k = self.next;
            self.next += 1;
            let slot = &mut self.slots[k];
            if slot.end == Some(TurnEnd::Ended) {
                continue;
            }
            if let Some(page) = slot.page.take() {
                self.out += 1;
                self.journal.push(Entry::Take(seat, slot.leaf));
                return Some((k, page));
            }
        }
        None
    }

    // A seat gives back the page that it took, after a turn that ended so.
    pub fn give(&mut self, seat: u8, k: usize, mut page: Page, end: TurnEnd) {
        let slot = &mut self.slots[k];
        let leaf = &mut self.leaves[slot.leaf as usize];
        slot.end = None;
        match end {
            TurnEnd::Read(port) => match leaf.read(port) {
                Some(word) => page.resume_read(word),
                None => slot.end = Some(end),
            },
            TurnEnd::Write(port, word) => match leaf.write(port, word) {
                true => page.resume_write(),
                false => slot.end = Some(end),
            },
            TurnEnd::Ended => {
                slot.end = Some(end);
                self.running -= 1;
            }
            TurnEnd::Limit => {}
        }
        slot.page = Some(page);
        self.due -= (slot.gives == 0) as usize;
        slot.gives += 1;
        self.out -= 1;
        let leaf = slot.leaf;
        self.mark(leaf as usize);
        self.journal.push(Entry::Give(seat, leaf));
    }

    // The host's part of a round: each input writes a word, and then each output reads one, where they can.
    fn host(&mut self) {
        let leaf = &mut self.leaves[0];
        for (k, (feed, sent)) in self.feeds.iter().zip(&mut self.sent).enumerate() {
            if *sent < feed.len() && leaf.write(k, feed[*sent]) {
                *sent += 1;
            }
        }
        for (j, out) in self.outs.iter_mut().enumerate() {
            out.extend(leaf.read(j));
        }
    }

    // Each leaf takes what came to it and offers a packet, and the switches route.
    fn pass(&mut self) {
        let mut offers = [None; 64];
        for leaf in 0..self.leaves.len() {
            if let Some(p) = self.tree.arrival(leaf) {
                self.under -= 1;
                self.configs_under -= matches!(p.body, Body::Config(..)) as u64;
                self.leaves[leaf].accept(p);
            }
            let back = self.leaves[leaf].back.is_some();
            let entry = if leaf == 0 && !back { self.entries.pop_front() } else { None };
            let offer = self.leaves[leaf].offer(self.rounds, entry);
            if let Some(p) = &offer {
                self.under += 1;
                self.configs_under += matches!(p.body, Body::Config(..)) as u64;
                self.packets += !back as u64;
            }
            offers[leaf] = offer;
            self.mark(leaf);
        }
        self.tree.round(&offers);
    }

    // A seat makes a round of a run that isn't over, if each page had its turn. Tells whether it did.
    pub fn round(&mut self, seat: u8) -> bool {
        if self.rounds >= self.allowed || self.is_configured() && self.due > 0 {
            return false;
        }
        if self.is_configured() {
            self.host();
            self.mark(0);
        }
        if !self.is_quiet() {
            self.pass();
        }
        self.rounds += 1;
        self.slots.iter_mut().for_each(|slot| slot.gives = 0);
        self.due = self.running;
        self.next = 0;
        self.journal.push(Entry::Net(seat));
        true
    }

    // The run of one worker, who takes the pages in turn.
    pub fn plain(&mut self) {
        while self.outcome().is_none() {
            match self.take(0) {
                Some((k, mut page)) => {
                    let end = page.turn();
                    self.give(0, k, page, end);
                }
                None => {
                    self.round(0);
                }
            }
        }
    }
}
