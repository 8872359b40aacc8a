//! Decodes standard input many times: a number of rounds, then 16-bit code, then as much 32-bit code.
//! `tools/bench-decode` puts the decoder's own text, without its contracts, in front of this.

use insn_decode::{blank, decode_into};
use mdl_insn::{Fetch, Operand};
use mdl_state::Fault;
use std::io::Read;

struct Bytes<'a> {
    rest: &'a [u8],
}

impl Fetch for Bytes<'_> {
    fn next(&mut self) -> Result<u8, Fault> {
        match self.rest {
            [first, rest @ ..] => {
                self.rest = rest;
                Ok(*first)
            }
            [] => Err(Fault { vector: 0, code: 0, addr: 0 }),
        }
    }
}

fn number(a: &Operand) -> u32 {
    match a {
        Operand::Imm(v, _) => *v,
        Operand::At(m, _) => m.disp,
        Operand::Gpr(r, _) => u32::from(*r),
        Operand::Rel(v) => *v,
        _ => 0,
    }
}

fn sweep(bytes: &[u8], big: bool, seed: u32) -> (u32, u32) {
    let mut fetch = Bytes { rest: bytes };
    let mut count = 0u32;
    let mut sum = seed;
    let mut insn = blank();
    for _ in 0..bytes.len() {
        if decode_into(&mut fetch, big, &mut insn).is_err() {
            break;
        }
        sum = sum.wrapping_mul(31) ^ number(&insn.a) ^ number(&insn.b);
        count = count.wrapping_add(1);
    }
    (count, sum)
}

fn main() {
    let mut input = Vec::new();
    std::io::stdin().read_to_end(&mut input).unwrap();
    let (rounds, code) = input.split_first().unwrap();
    let (small, big) = code.split_at(code.len() / 2);
    let mut all = (0u32, 0u32);
    for _ in 0..*rounds {
        let (n, first) = sweep(small, false, all.1);
        let (m, second) = sweep(big, true, first);
        all = (all.0.wrapping_add(n).wrapping_add(m), second);
    }
    println!("{} {}", all.0, all.1);
}
