// A chain of pages over a tree of switches, in plain Rust, by the same rules as crates/fabric_chain: the input has three numbers (pages,
// words, allowed rounds), and what is written is the same.
#[allow(dead_code)]
#[path = "run_rules.rs"]
mod run_rules;

use run_rules::page_rules::load;
use run_rules::{Plan, Run};
use std::io::Read;

// lui x9, 0x80000; lw x5, 0(x9); addi x5, x5, 1; sw x5, 256(x9); jal x0, -12
const CODE: [u32; 5] = [0x8000_04b7, 0x0004_a283, 0x0012_8293, 0x1054_a023, 0xff5f_f06f];

fn image() -> Vec<u8> {
    let mut bytes = b"PLDIS\0\x01\x01".to_vec();
    bytes.extend((CODE.len() as u32).to_le_bytes());
    bytes.extend(CODE.iter().flat_map(|word| word.to_le_bytes()));
    bytes
}

// The pages stand on the leaves from 1 up; the host, on leaf 0, is before the first and behind the last.
fn plan(pages: u8, words: u32, allowed: u64) -> Plan {
    let row = |leaf: u8| {
        let behind = if leaf == pages { 0 } else { leaf + 1 };
        let before = if leaf == 0 { pages } else { leaf - 1 };
        [(leaf, 0, (behind, 0)), (leaf, 8, (before, 0))]
    };
    Plan {
        depth: 6,
        pages: (1..=pages).map(|leaf| (leaf, load(&image()))).collect(),
        rows: (0..=pages).flat_map(row).collect(),
        feeds: vec![(0..words).collect()],
        outs: 1,
        allowed,
    }
}

fn main() {
    let mut text = String::new();
    std::io::stdin().read_to_string(&mut text).unwrap();
    let numbers: Vec<u64> = text.split_whitespace().map(|word| word.parse().unwrap()).collect();
    let mut run = Run::new(plan(numbers[0] as u8, numbers[1] as u32, numbers[2]));
    let configs = run.configs();
    run.plain();
    println!("{:?}", run.outcome());
    println!("rounds {}\npackets {}\ndeflected {}\nconfigs {configs}", run.rounds, run.packets, run.deflected());
    println!("entries {}\nwords {} last {}", run.entries(), run.outs[0].len(), run.outs[0].last().copied().unwrap_or(0));
}
