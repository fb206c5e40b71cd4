//! Pages of either kind in plain Rust, which run the bytes of an image in turns of at most 256 steps. They are what one writes who
//! proves nothing: vectors, indices that are checked, no unsafe code.

const STEPS: u32 = 256;

// Where a softcore's ports begin: a word of four bytes for each in-port, and from 256 bytes on one for each out-port.
const PORTS: u32 = 0x8000_0000;

#[derive(Clone, Copy)]
pub enum Instr {
    Lui(usize, u32),
    Jal(usize, i32),
    Branch(u32, usize, usize, i32),
    Load(usize, usize, i32),
    Store(usize, usize, i32),
    Immediate(u32, usize, usize, i32),
    Register(u32, usize, usize, usize),
    End,
    Bad,
}

#[inline]
pub fn decode(w: u32) -> Instr {
    let (rd, rs1, rs2) = ((w >> 7 & 31) as usize, (w >> 15 & 31) as usize, (w >> 20 & 31) as usize);
    let (funct3, funct7) = (w >> 12 & 7, w >> 25);
    let imm = w as i32 >> 20;
    match w & 127 {
        0x37 => Instr::Lui(rd, w & 0xffff_f000),
        0x6f => {
            let high = (w as i32 >> 31) << 20;
            Instr::Jal(rd, high | (w & 0xf_f000) as i32 | (w >> 9 & 0x800) as i32 | (w >> 20 & 0x7fe) as i32)
        }
        0x63 => {
            let high = (w as i32 >> 31) << 12;
            Instr::Branch(funct3, rs1, rs2, high | (w << 4 & 0x800) as i32 | (w >> 20 & 0x7e0) as i32 | (w >> 7 & 0x1e) as i32)
        }
        0x03 if funct3 == 2 => Instr::Load(rd, rs1, imm),
        0x23 if funct3 == 2 => Instr::Store(rs1, rs2, (w as i32 >> 25) << 5 | (w >> 7 & 31) as i32),
        0x13 if funct3 == 1 || funct3 == 5 => Instr::Immediate(funct3 | (funct7 & 32) << 1, rd, rs1, rs2 as i32),
        0x13 => Instr::Immediate(funct3, rd, rs1, imm),
        0x33 => Instr::Register(funct3 | funct7 << 3, rd, rs1, rs2),
        _ if w == 0x0010_0073 => Instr::End,
        _ => Instr::Bad,
    }
}

#[inline]
pub fn immediate(op: u32, a: u32, b: i32) -> u32 {
    match op {
        0 => a.wrapping_add(b as u32),
        1 => a << (b & 31),
        2 => ((a as i32) < b) as u32,
        3 => (a < b as u32) as u32,
        4 => a ^ b as u32,
        5 => a >> (b & 31),
        6 => a | b as u32,
        7 => a & b as u32,
        _ => (a as i32 >> (b & 31)) as u32,
    }
}

#[inline]
pub fn register(op: u32, a: u32, b: u32) -> u32 {
    match op {
        0 => a.wrapping_add(b),
        1 => a << (b & 31),
        2 => ((a as i32) < (b as i32)) as u32,
        3 => (a < b) as u32,
        4 => a ^ b,
        5 => a >> (b & 31),
        6 => a | b,
        7 => a & b,
        8 => a.wrapping_mul(b),
        13 => a.checked_div(b).unwrap_or(u32::MAX),
        15 => a.checked_rem(b).unwrap_or(a),
        256 => a.wrapping_sub(b),
        261 => (a as i32 >> (b & 31)) as u32,
        _ => panic!("no instruction of the templates"),
    }
}

#[inline]
pub fn holds(funct3: u32, a: u32, b: u32) -> bool {
    match funct3 {
        0 => a == b,
        1 => a != b,
        4 => (a as i32) < (b as i32),
        5 => (a as i32) >= (b as i32),
        6 => a < b,
        _ => a >= b,
    }
}

/// How a turn ends: at a port, with the word that is to be written there; at the program's end; or after all steps.
#[derive(Clone, Copy, PartialEq)]
pub enum TurnEnd {
    Read(usize),
    Write(usize, u32),
    Ended,
    Limit,
}

pub trait Core: Send {
    fn turn(&mut self) -> TurnEnd;
    fn resume_read(&mut self, word: u32);
    fn resume_write(&mut self);
}

struct Soft {
    code: Vec<Instr>,
    regs: [u32; 32],
    ram: Vec<u32>,
    pc: u32,
}

impl Core for Soft {
    fn turn(&mut self) -> TurnEnd {
        let (code, regs, ram) = (&self.code[..], &mut self.regs, &mut self.ram[..]);
        let mut pc = self.pc;
        for _ in 0..STEPS {
            let mut next = pc.wrapping_add(4);
            let (rd, value) = match code[(pc / 4) as usize] {
                Instr::Lui(rd, v) => (rd, v),
                Instr::Jal(rd, imm) => {
                    let link = next;
                    next = pc.wrapping_add(imm as u32);
                    (rd, link)
                }
                Instr::Branch(funct3, a, b, imm) => {
                    if holds(funct3, regs[a], regs[b]) {
                        next = pc.wrapping_add(imm as u32);
                    }
                    (0, 0)
                }
                Instr::Load(rd, a, imm) => {
                    let at = regs[a].wrapping_add(imm as u32);
                    if at >= PORTS {
                        self.pc = pc;
                        return TurnEnd::Read(((at - PORTS) / 4) as usize);
                    }
                    (rd, ram[(at.wrapping_sub(0x20000) / 4) as usize])
                }
                Instr::Store(a, b, imm) => {
                    let at = regs[a].wrapping_add(imm as u32);
                    if at >= PORTS {
                        self.pc = pc;
                        return TurnEnd::Write(((at - PORTS - 256) / 4) as usize, regs[b]);
                    }
                    ram[(at.wrapping_sub(0x20000) / 4) as usize] = regs[b];
                    (0, 0)
                }
                Instr::Immediate(op, rd, a, b) => (rd, immediate(op, regs[a], b)),
                Instr::Register(op, rd, a, b) => (rd, register(op, regs[a], regs[b])),
                Instr::End => {
                    self.pc = pc;
                    return TurnEnd::Ended;
                }
                Instr::Bad => panic!("no instruction"),
            };
            if rd != 0 {
                regs[rd] = value;
            }
            pc = next;
        }
        self.pc = pc;
        TurnEnd::Limit
    }

    fn resume_read(&mut self, word: u32) {
        match self.code[(self.pc / 4) as usize] {
            Instr::Load(rd, _, _) if rd != 0 => self.regs[rd] = word,
            _ => {}
        }
        self.pc = self.pc.wrapping_add(4);
    }

    fn resume_write(&mut self) {
        self.pc = self.pc.wrapping_add(4);
    }
}

#[derive(Clone, Copy)]
struct Micro {
    op: u8,
    unit: u8,
    t: u16,
    a: u16,
    b: u16,
    value: u32,
}

#[derive(Clone, Copy)]
enum Next {
    Goto(u32),
    Branch(u16, u32, u32),
    End,
}

// A state, and what it reads or writes (by the register), if it does.
struct State {
    micros: Vec<Micro>,
    next: Next,
    stream: Option<Stream>,
    ends: bool,
}

#[derive(Clone, Copy)]
enum Stream {
    Read(usize),
    Write(usize, u16),
}

struct Hard {
    states: Vec<State>,
    regs: Vec<u32>,
    arrays: Vec<Vec<u32>>,
    drafts: Vec<(usize, u32)>,
    at: Option<u32>,
}

/// The word that a micro writes, where `came` is the one that its state reads.
fn value(m: &Micro, regs: &[u32], arrays: &[Vec<u32>], came: u32) -> u32 {
    let (a, b) = (regs[m.a as usize], regs[m.b as usize]);
    match m.op {
        0 => m.value,
        1 => a,
        2 => a.wrapping_add(b),
        3 => a.wrapping_sub(b),
        4 => a & b,
        5 => a | b,
        6 => a ^ b,
        7 => a << (b & 31),
        8 => a >> (b & 31),
        9 => (a as i32 >> (b & 31)) as u32,
        10 => ((a as i32) < (b as i32)) as u32,
        11 => (a < b) as u32,
        12 => ((a as i32) <= (b as i32)) as u32,
        13 => (a <= b) as u32,
        14 => (a == b) as u32,
        15 => (a != b) as u32,
        16 => (a != 0 && b != 0) as u32,
        17 => (a != 0 || b != 0) as u32,
        18 => a.wrapping_neg(),
        19 => !a,
        20 => (a == 0) as u32,
        21 => a.wrapping_mul(b),
        22 if b != 0 => (a as i32).wrapping_div(b as i32) as u32,
        23 if b != 0 => a / b,
        22 | 23 => u32::MAX,
        24 if b != 0 => (a as i32).wrapping_rem(b as i32) as u32,
        25 if b != 0 => a % b,
        24 | 25 => a,
        26 => {
            let array = &arrays[m.unit as usize];
            array[a as usize % array.len()]
        }
        28 => came,
        _ => b,
    }
}

impl Hard {
    /// All sources are read, and then all targets are written.
    fn make(&mut self, at: u32, came: u32) {
        let state = &self.states[at as usize];
        for (m, draft) in state.micros.iter().zip(&mut self.drafts) {
            *draft = (self.regs[m.a as usize] as usize, value(m, &self.regs, &self.arrays, came));
        }
        for (m, (index, word)) in state.micros.iter().zip(&self.drafts) {
            match m.op {
                27 => {
                    let array = &mut self.arrays[m.unit as usize];
                    let length = array.len();
                    array[index % length] = *word;
                }
                29 => {}
                _ => self.regs[m.t as usize] = *word,
            }
        }
        self.at = match state.next {
            Next::Goto(i) => Some(i),
            Next::Branch(r, i, j) => Some(if self.regs[r as usize] != 0 { i } else { j }),
            Next::End => None,
        };
    }
}

impl Core for Hard {
    fn turn(&mut self) -> TurnEnd {
        for _ in 0..STEPS {
            let Some(at) = self.at else { return TurnEnd::Ended };
            let state = &self.states[at as usize];
            if state.ends {
                return TurnEnd::Ended;
            }
            match state.stream {
                Some(Stream::Read(port)) => return TurnEnd::Read(port),
                Some(Stream::Write(port, a)) => return TurnEnd::Write(port, self.regs[a as usize]),
                None => self.make(at, 0),
            }
        }
        TurnEnd::Limit
    }

    fn resume_read(&mut self, word: u32) {
        if let Some(at) = self.at {
            self.make(at, word);
        }
    }

    fn resume_write(&mut self) {
        self.resume_read(0);
    }
}

/// The bytes of an image, from some place on.
struct Bytes<'a>(&'a [u8]);

impl Bytes<'_> {
    fn number(&mut self, bytes: usize) -> u32 {
        let (head, rest) = self.0.split_at(bytes);
        self.0 = rest;
        head.iter().rev().fold(0, |n, b| n << 8 | *b as u32)
    }
}

fn state(bytes: &mut Bytes) -> State {
    let count = bytes.number(1);
    let micros: Vec<Micro> = (0..count)
        .map(|_| Micro {
            op: bytes.number(1) as u8,
            unit: bytes.number(1) as u8,
            t: bytes.number(2) as u16,
            a: bytes.number(2) as u16,
            b: bytes.number(2) as u16,
            value: bytes.number(4),
        })
        .collect();
    let (kind, r, i, j) = (bytes.number(1), bytes.number(2) as u16, bytes.number(4), bytes.number(4));
    let next = match kind {
        0 => Next::Goto(i),
        1 => Next::Branch(r, i, j),
        _ => Next::End,
    };
    State {
        stream: micros.iter().find_map(|m| match m.op {
            28 => Some(Stream::Read(m.unit as usize)),
            29 => Some(Stream::Write(m.unit as usize, m.a)),
            _ => None,
        }),
        ends: micros.is_empty() && matches!(next, Next::End),
        micros,
        next,
    }
}

/// The page that runs an image, at its start.
pub fn load(image: &[u8]) -> Box<dyn Core> {
    let mut bytes = Bytes(&image[8..]);
    if image[4] == b'S' {
        let count = bytes.number(4);
        let code = (0..count).map(|_| decode(bytes.number(4))).collect();
        return Box::new(Soft { code, regs: [0; 32], ram: vec![0; 16384], pc: 0 });
    }
    let count = bytes.number(4);
    let arrays = (0..count).map(|_| vec![0; bytes.number(4) as usize]).collect();
    let registers = bytes.number(4) as usize;
    let count = bytes.number(4);
    let states: Vec<State> = (0..count).map(|_| state(&mut bytes)).collect();
    let most = states.iter().map(|s| s.micros.len()).max().unwrap_or(0);
    Box::new(Hard { states, regs: vec![0; registers], arrays, drafts: vec![(0, 0); most], at: Some(0) })
}
