//! The rounds of bench/time_pages.rattle in plain Rust, to compare with: the addresses of the pages in a sorted list,
//! their bytes in boxes in the same order.
//!
//! Usage: plain_pages map|byte|store ROUNDS

use std::time::Instant;

const PAGES: u64 = 256;
const PAGE_SIZE: u64 = 4096;

#[derive(Default)]
struct Memory {
    addresses: Vec<u64>,
    pages: Vec<Box<[u8; PAGE_SIZE as usize]>>,
}

impl Memory {
    fn map(&mut self, page: u64) -> bool {
        match self.addresses.binary_search(&page) {
            Err(place) if self.addresses.len() < PAGES as usize => {
                self.addresses.insert(place, page);
                self.pages.insert(place, Box::new([0; PAGE_SIZE as usize]));
                true
            }
            _ => false,
        }
    }

    fn place(&self, addr: u64) -> Option<usize> {
        self.addresses.binary_search(&(addr & !(PAGE_SIZE - 1))).ok()
    }

    fn byte(&self, addr: u64) -> Option<u8> {
        Some(self.pages[self.place(addr)?][(addr % PAGE_SIZE) as usize])
    }

    /// Stores bytes that lie in one page at once, and others page by page once all their pages are found.
    fn store(&mut self, addr: u64, bytes: &[u8]) -> bool {
        let from = (addr % PAGE_SIZE) as usize;
        if from + bytes.len() <= PAGE_SIZE as usize {
            let Some(place) = self.place(addr) else { return false };
            self.pages[place][from..from + bytes.len()].copy_from_slice(bytes);
            return true;
        }
        let last = addr + bytes.len() as u64 - 1;
        if (addr / PAGE_SIZE..=last / PAGE_SIZE).any(|page| self.place(page * PAGE_SIZE).is_none()) {
            return false;
        }
        let mut done = 0;
        while done < bytes.len() {
            let at = addr + done as u64;
            let from = (at % PAGE_SIZE) as usize;
            let step = (PAGE_SIZE as usize - from).min(bytes.len() - done);
            let Some(place) = self.place(at) else { return false };
            self.pages[place][from..from + step].copy_from_slice(&bytes[done..done + step]);
            done += step;
        }
        true
    }
}

fn page_at(index: u8) -> u64 {
    (u64::from(index) + 8) * 8192
}

fn next(number: u64) -> u64 {
    number.wrapping_mul(6364136223846793005).wrapping_add(1442695040888963407)
}

fn address_of(number: u64) -> u64 {
    page_at((number >> 56) as u8) + ((number >> 32) & 0xff8)
}

fn mapped() -> (Memory, u64) {
    let mut memory = Memory::default();
    for index in (0..=255).rev() {
        memory.map(page_at(index));
    }
    let sum = match (memory.byte(page_at(0)), memory.byte(page_at(255))) {
        (Some(first), Some(last)) => u64::from(first) + u64::from(last) + 1,
        _ => 0,
    };
    (memory, sum)
}

fn read_bytes(memory: &Memory, rounds: u64) -> u64 {
    let mut sum = 0u64;
    let mut number = 1;
    for _ in 0..rounds {
        number = next(number);
        if let Some(byte) = memory.byte(address_of(number)) {
            sum += u64::from(byte) + 1;
        }
    }
    sum
}

fn store_words(memory: &mut Memory, rounds: u64) -> u64 {
    let mut stored = 0;
    let mut number = 1;
    for _ in 0..rounds {
        number = next(number);
        if memory.store(address_of(number), &number.to_le_bytes()) {
            stored += 1;
        }
    }
    stored + read_bytes(memory, 1000)
}

fn main() {
    let words: Vec<String> = std::env::args().collect();
    let rounds: u64 = words[2].parse().expect("a number of rounds");
    let (mut memory, _) = mapped();
    let start = Instant::now();
    let sum = match words[1].as_str() {
        "map" => (0..rounds / PAGES).map(|_| std::hint::black_box(mapped()).1).sum(),
        "byte" => read_bytes(&memory, rounds),
        _ => store_words(&mut memory, rounds),
    };
    let nanoseconds = start.elapsed().as_nanos() as f64 / rounds as f64;
    println!("{rounds} rounds, {nanoseconds:.1} ns a round, sum {sum}");
}
