//! The plain Rust beside which `speed.sh` measures. With the word `run` it reads lines `image NAME COUNT HEX` and runs the
//! code of each on a softcore of its own until it ends. With the word `feed` it reads a session's text of `feed` and `clear`
//! lines, keeps the words, and writes `ok` for each line.

#[allow(dead_code)]
#[path = "page_rules.rs"]
mod page_rules;

use page_rules::{Instr, decode, holds, immediate, register};
use std::io::{self, Read, Write};

fn run(words: &[u32]) -> (u64, u32) {
    let code: Vec<Instr> = words.iter().map(|w| decode(*w)).collect();
    let (mut regs, mut ram, mut pc) = ([0u32; 32], vec![0u32; 16384], 0u32);
    let (mut steps, mut last) = (0u64, 0u32);
    loop {
        steps += 1;
        let mut next = pc.wrapping_add(4);
        let (rd, value) = match code[(pc / 4) as usize] {
            Instr::Lui(rd, v) => (rd, v),
            Instr::Jal(rd, imm) => {
                let link = next;
                next = pc.wrapping_add(imm as u32);
                (rd, link)
            }
            Instr::Branch(funct3, a, b, imm) => {
                if holds(funct3, regs[a], regs[b]) {
                    next = pc.wrapping_add(imm as u32);
                }
                (0, 0)
            }
            Instr::Load(rd, a, imm) => {
                let at = regs[a].wrapping_add(imm as u32).wrapping_sub(0x20000);
                (rd, ram[(at / 4) as usize])
            }
            Instr::Store(a, b, imm) => {
                let at = regs[a].wrapping_add(imm as u32);
                if at >= 0x8000_0000 {
                    last = regs[b];
                } else {
                    ram[(at.wrapping_sub(0x20000) / 4) as usize] = regs[b];
                }
                (0, 0)
            }
            Instr::Immediate(op, rd, a, b) => (rd, immediate(op, regs[a], b)),
            Instr::Register(op, rd, a, b) => (rd, register(op, regs[a], regs[b])),
            Instr::End => return (steps, last),
            Instr::Bad => panic!("no instruction"),
        };
        if rd != 0 {
            regs[rd] = value;
        }
        pc = next;
    }
}

fn images(text: &str) {
    for line in text.lines().filter(|line| line.starts_with("image ")) {
        let hex = line.rsplit(' ').next().expect("no bytes");
        let bytes: Vec<u8> = (0..hex.len() / 2).map(|k| u8::from_str_radix(&hex[2 * k..2 * k + 2], 16).expect("no digits")).collect();
        let words: Vec<u32> = bytes[12..].chunks(4).map(|c| u32::from_le_bytes([c[0], c[1], c[2], c[3]])).collect();
        let (steps, last) = run(&words);
        println!("{steps} steps, {last}");
    }
}

fn word(text: &str) -> Option<u32> {
    if let Some(digits) = text.strip_prefix("0x") {
        u32::from_str_radix(digits, 16).ok()
    } else if let Some(digits) = text.strip_prefix('-') {
        Some(digits.parse::<u32>().ok()?.wrapping_neg())
    } else {
        text.parse().ok()
    }
}

fn feeds(text: &str) {
    let mut output = io::stdout().lock();
    let mut kept: Vec<u32> = Vec::new();
    for line in text.lines() {
        let mut words = line.split([' ', '\t']).filter(|w| !w.is_empty());
        match words.next() {
            Some("feed") => kept.extend(words.skip(1).map(|w| word(w).expect("no word"))),
            Some("clear") => kept.clear(),
            _ => continue,
        }
        output.write_all(b"ok\n").expect("standard output fails");
        output.flush().expect("standard output fails");
    }
}

fn main() {
    let mut text = String::new();
    io::stdin().read_to_string(&mut text).expect("standard input fails");
    match std::env::args().nth(1).as_deref() {
        Some("run") => images(&text),
        _ => feeds(&text),
    }
}
