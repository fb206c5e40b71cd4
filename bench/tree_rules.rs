// A tree of switches that deflect, in plain Rust, by the same rules as crates/net_tree: at most 64 leaves, one upward link for each switch
// below the top. Each switch takes the packets that stand on its links from the oldest on; each gets the output that it wants, else the first
// free one of up, left, right.

// The depth of the widest tree.
const DEPTH: usize = 6;

#[allow(dead_code)]
#[derive(Clone, Copy)]
pub enum Body {
    Data(u8, u8, u32),
    Credit(u8, u8),
    Config(u8, Option<(u8, u8)>),
}

#[allow(dead_code)]
#[derive(Clone, Copy)]
pub struct Packet {
    pub stamp: (u64, u8),
    pub to: u8,
    pub body: Body,
}

pub type Link = Option<Packet>;

// The packets on the links of each level, and which links hold one.
struct Links {
    up: [[Link; 64]; DEPTH],
    down: [[Link; 64]; DEPTH],
    ups: [u64; DEPTH],
    downs: [u64; DEPTH],
}

impl Links {
    fn new() -> Box<Links> {
        Box::new(Links { up: [[None; 64]; DEPTH], down: [[None; 64]; DEPTH], ups: [0; DEPTH], downs: [0; DEPTH] })
    }

    fn clear(&mut self) {
        for level in 0..DEPTH {
            while self.ups[level] != 0 {
                self.up[level][self.ups[level].trailing_zeros() as usize] = None;
                self.ups[level] &= self.ups[level] - 1;
            }
            while self.downs[level] != 0 {
                self.down[level][self.downs[level].trailing_zeros() as usize] = None;
                self.downs[level] &= self.downs[level] - 1;
            }
        }
    }
}

pub struct Tree {
    depth: usize,
    links: Box<Links>,
    spare: Box<Links>,
    pub deflected: u64,
}

// The switches into which a packet comes by a link of these: two links from below lead into each.
fn pairs(mut links: u64) -> u64 {
    let mut switches = 0;
    while links != 0 {
        switches |= 1 << (links.trailing_zeros() / 2);
        links &= links - 1;
    }
    switches
}

impl Tree {
    pub fn new(depth: usize) -> Tree {
        Tree { depth, links: Links::new(), spare: Links::new(), deflected: 0 }
    }

    pub fn arrival(&mut self, leaf: usize) -> Link {
        if self.links.downs[0] >> leaf & 1 == 0 {
            return None;
        }
        self.links.downs[0] &= !(1 << leaf);
        self.links.down[0][leaf].take()
    }

    // The switch over the links 2 * index and 2 * index + 1 of a level routes.
    fn route(&mut self, level: usize, index: usize) {
        let top = level + 1 == self.depth;
        let (links, next) = (&*self.links, &mut *self.spare);
        let none = None;
        let ins = [&links.up[level][2 * index], &links.up[level][2 * index + 1], if top { &none } else { &links.down[level + 1][index] }];
        let mut order: [Option<&Packet>; 3] = [None; 3];
        let mut count = 0;
        for p in ins.iter().filter_map(|link| link.as_ref()) {
            let mut k = count;
            while k > 0 && order[k - 1].is_some_and(|q| p.stamp < q.stamp) {
                order[k] = order[k - 1];
                k -= 1;
            }
            order[k] = Some(p);
            count += 1;
        }
        let mut free = [true, true, !top];
        for p in order.iter().copied().flatten() {
            let below = p.to as usize >> level;
            let wanted = if below >> 1 != index { 2 } else { below & 1 };
            let output = if free[wanted] {
                wanted
            } else if free[2] {
                2
            } else if free[0] {
                0
            } else {
                1
            };
            free[output] = false;
            self.deflected += (output != wanted) as u64;
            if output == 2 {
                next.up[level + 1][index] = Some(*p);
                next.ups[level + 1] |= 1 << index;
            } else {
                next.down[level][2 * index + output] = Some(*p);
                next.downs[level] |= 1 << (2 * index + output);
            }
        }
    }

    pub fn round(&mut self, offers: &[Link; 64]) {
        for level in 0..self.depth {
            let mut busy = pairs(self.links.ups[level]);
            if level + 1 < self.depth {
                busy |= self.links.downs[level + 1];
            }
            while busy != 0 {
                self.route(level, busy.trailing_zeros() as usize);
                busy &= busy - 1;
            }
        }
        for (leaf, offer) in offers.iter().enumerate() {
            if offer.is_some() {
                self.spare.up[0][leaf] = *offer;
                self.spare.ups[0] |= 1 << leaf;
            }
        }
        std::mem::swap(&mut self.links, &mut self.spare);
        self.spare.clear();
    }
}
