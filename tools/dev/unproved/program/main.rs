//! The search without its proofs: the crates of the planner, as rustc builds them. It reads a cave's regions and writes
//! how many torches they need, and the certificate.

#![feature(portable_simd)]
mod memory;
// The translation declares the crates at the end of this file.

use cave_base::VOID;
use cave_model::{Rule, World};
use certificate_text::write_certificate;
use instance_regions::Region;
use memory::{Arc, Global};
use search_core::plan_by_one;
use search_moves::Moves;
use search_traits::{RegionFault, Unobserved};
use set_cover::{Instance, BitRow};
use std::io::Read;

const MEMORY: &str = "memory is never refused here";

/// Usage: unproved TURNS CERTIFICATE, with the regions on standard input as `run` writes them. TURNS is a number, or
/// `all`.
fn main() {
    let words: Vec<String> = std::env::args().collect();
    let limit = (words[1] != "all").then(|| words[1].parse().expect("a number of turns"));
    let mut text = String::new();
    std::io::stdin()
        .read_to_string(&mut text)
        .expect("regions on standard input");
    let mut lines = text.lines();
    let mut next = || numbers(lines.next().expect("one more line"));
    let [x, y, z, headroom, need, count] = next()[..] else {
        panic!("the first line has six numbers");
    };
    let (mut least, mut most, mut turns) = (0, 0, 0);
    let mut parts = vec![];
    for _ in 0..count {
        let region = Arc::new(Global, region_of(&mut next)).expect(MEMORY);
        match plan_by_one::<Moves, Unobserved>(Global, &region, limit, &Unobserved) {
            Ok(plan) => {
                least += plan.cover.size();
                most += plan.cover.size();
                turns += plan.turns;
                parts.push((region, plan.cover, plan.proof));
            }
            Err(RegionFault::Stopped(found)) => {
                least += found.floor;
                most += found.cover.size();
                turns += found.granted;
            }
            Err(_) => panic!("{MEMORY}"),
        }
    }
    let classes = memory::Vec(vec![VOID; (x * y * z) as usize]);
    let world = World::new([x, y, z], classes, Rule::new(headroom as u8, need as u8));
    let mut whole = vec![];
    write_certificate(Global, &mut whole, &world, &parts).expect(MEMORY);
    println!(
        "{least} to {most} torches, {turns} turns, {} bytes",
        whole.len()
    );
    if least == most {
        std::fs::write(&words[2], whole).expect("a file for the certificate");
    }
}

fn numbers(line: &str) -> Vec<u32> {
    line.split_whitespace()
        .map(|word| word.parse().expect("a number"))
        .collect()
}

/// A row of these ascending bits.
fn row_of(width: usize, bits: &[u32]) -> BitRow {
    let [first, last] = [bits.first(), bits.last()].map(|bit| bit.map_or(0, |bit| *bit as usize / 64));
    let mut row = BitRow::spanning(Global, width, first, last + 1).expect(MEMORY);
    bits.iter().for_each(|bit| row.add(Global, *bit as usize).expect(MEMORY));
    row
}

/// The region of the next lines: its cells, its places, and for each of these the indices of the cells that it lights.
fn region_of(next: &mut impl FnMut() -> Vec<u32>) -> Region {
    let (cells, places) = (next(), next());
    let width = cells.len().div_ceil(64);
    let rows = places.iter().map(|_| row_of(width, &next())).collect();
    let [cells, places] = [cells, places].map(memory::Vec);
    let instance = Instance::new(cells, places, width, memory::Vec(rows));
    Region::new(Global, instance).expect(MEMORY)
}
