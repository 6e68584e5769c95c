// Machines from a seed, and checksums, as oracle/seeded.py and crates/test_machines make them.
use crate::machine::{Machine, Semaphore, Source, Wait};

struct Draws(u32);

impl Draws {
    fn draw(&mut self) -> u16 {
        self.0 = self.0.wrapping_mul(1664525).wrapping_add(1013904223);
        (self.0 >> 16) as u16
    }

    fn word(&mut self) -> u32 {
        let high = self.draw() as u32;
        high << 16 | self.draw() as u32
    }

    fn small(&mut self, below: u16) -> u8 {
        (self.draw() % below) as u8
    }

    fn wait(&mut self) -> Wait {
        let (kind, block, low) = (self.draw() % 3, self.draw() % 512, self.draw());
        match kind {
            0 => Wait::None,
            1 => Wait::Stall { block, conditions: low % 32768 },
            _ => Wait::Semaphore { block, mask: (low >> 2) as u8, condition: (low & 3) as u8 },
        }
    }
}

fn cells(source: &mut Source) -> impl Iterator<Item = &mut u32> {
    source.as_flattened_mut().as_flattened_mut().iter_mut()
}

// The machine of a seed; of 0 the fresh one.
pub fn machine(seed: u32) -> Box<Machine> {
    let mut m = Machine::fresh();
    if seed == 0 {
        return m;
    }
    let mut d = Draws(seed);
    m.control.mutexes.iter_mut().for_each(|x| *x = d.small(4));
    m.control.semaphores.iter_mut().for_each(|s| *s = Semaphore { value: d.small(16), maximum: d.small(16) });
    m.control.waits.iter_mut().for_each(|w| *w = d.wait());
    m.control.owners.iter_mut().for_each(|x| *x = d.small(2));
    m.control.pointers.iter_mut().for_each(|x| *x = d.small(2));
    m.settings.as_flattened_mut().iter_mut().for_each(|x| *x = d.draw());
    m.gprs.as_flattened_mut().iter_mut().for_each(|x| *x = d.word());
    m.config.as_flattened_mut().iter_mut().for_each(|x| *x = d.word());
    m.dest.as_flattened_mut().iter_mut().for_each(|x| *x = d.draw());
    m.marks.iter_mut().for_each(|x| *x = d.draw() % 2 == 1);
    cells(&mut m.src_a).for_each(|x| *x = d.word() & 0x7FFFF);
    cells(&mut m.src_b).for_each(|x| *x = d.word() & 0x7FFFF);
    m
}

// Adler-32.
pub fn checksum(bytes: &[u8]) -> u32 {
    let (mut a, mut b) = (1u32, 0u32);
    for chunk in bytes.chunks(3800) {
        for &byte in chunk {
            a += byte as u32;
            b += a;
        }
        (a, b) = (a % 65521, b % 65521);
    }
    b << 16 | a
}

pub fn wait_numbers(wait: Wait) -> (u8, u16, u16) {
    match wait {
        Wait::None => (0, 0, 0),
        Wait::Stall { block, conditions } => (1, block, conditions),
        Wait::Semaphore { block, mask, condition } => (2, block, (mask as u16) << 2 | condition as u16),
    }
}

// Of every part of a machine.
pub fn digest(m: &Machine) -> u32 {
    let mut all = Vec::new();
    m.settings.as_flattened().iter().for_each(|x| all.extend(x.to_le_bytes()));
    all.extend(m.control.mutexes);
    m.control.semaphores.iter().for_each(|s| all.extend([s.value, s.maximum]));
    for &wait in &m.control.waits {
        let (kind, block, low) = wait_numbers(wait);
        all.push(kind);
        all.extend(block.to_le_bytes());
        all.extend(low.to_le_bytes());
    }
    all.extend(m.control.owners);
    all.extend(m.control.pointers);
    m.gprs.as_flattened().iter().for_each(|x| all.extend(x.to_le_bytes()));
    m.config.as_flattened().iter().for_each(|x| all.extend(x.to_le_bytes()));
    m.dest.as_flattened().iter().for_each(|x| all.extend(x.to_le_bytes()));
    all.extend(m.marks.iter().map(|&x| x as u8));
    for source in [&m.src_a, &m.src_b] {
        source.as_flattened().as_flattened().iter().for_each(|x| all.extend(x.to_le_bytes()));
    }
    checksum(&all)
}
