// Saved images. Loading looks at every field before anything is written.
use crate::machine::{cells_well_formed, Control, Machine, Semaphore, Source, Wait};
use crate::seeded::wait_numbers;

pub const SIZE: usize = 48473;
// Kind and body length of the records, in order.
const RECORDS: [(u16, usize); 7] = [(1, 431), (2, 768), (3, 2048), (4, 32768), (5, 128), (6, 6144), (7, 6144)];

// Where each record's body starts.
const fn body(record: usize) -> usize {
    let (mut at, mut r) = (6, 0);
    while r < record {
        at += RECORDS[r].1 + 6;
        r += 1;
    }
    at
}

// Within the first body.
const MUTEXES: usize = 384;
const SEMAPHORES: usize = 392;
const WAITS: usize = 408;
const OWNERS: usize = 423;
const POINTERS: usize = 427;

fn put_control(m: &Machine, out: &mut [u8]) {
    let c = &m.control;
    put_halves(m.settings.as_flattened(), &mut out[..MUTEXES]);
    out[MUTEXES..SEMAPHORES].copy_from_slice(&c.mutexes);
    for (s, to) in c.semaphores.iter().zip(out[SEMAPHORES..WAITS].chunks_exact_mut(2)) {
        to.copy_from_slice(&[s.value, s.maximum]);
    }
    for (&wait, to) in c.waits.iter().zip(out[WAITS..OWNERS].chunks_exact_mut(5)) {
        let (kind, block, low) = wait_numbers(wait);
        to[0] = kind;
        to[1..3].copy_from_slice(&block.to_le_bytes());
        to[3..5].copy_from_slice(&low.to_le_bytes());
    }
    out[OWNERS..POINTERS].copy_from_slice(&c.owners);
    out[POINTERS..].copy_from_slice(&c.pointers);
}

fn put_halves(from: &[u16], out: &mut [u8]) {
    for (x, to) in from.iter().zip(out.chunks_exact_mut(2)) {
        to.copy_from_slice(&x.to_le_bytes());
    }
}

fn put_words(from: &[u32], out: &mut [u8]) {
    for (x, to) in from.iter().zip(out.chunks_exact_mut(4)) {
        to.copy_from_slice(&x.to_le_bytes());
    }
}

fn put_marks(marks: &[bool; 1024], out: &mut [u8]) {
    for (eight, to) in marks.chunks_exact(8).zip(out) {
        *to = (0..8).map(|i| (eight[i] as u8) << i).sum();
    }
}

fn put_cells(from: &Source, out: &mut [u8]) {
    for (x, to) in from.as_flattened().as_flattened().iter().zip(out.chunks_exact_mut(3)) {
        to.copy_from_slice(&x.to_le_bytes()[..3]);
    }
}

#[inline(never)]
pub fn save(m: &Machine, out: &mut [u8]) -> Result<(), u32> {
    if !m.well_formed() {
        return Err(10);
    }
    if out.len() < SIZE {
        return Err(8);
    }
    for (r, (kind, len)) in RECORDS.into_iter().enumerate() {
        let (head, rest) = out[body(r) - 6..].split_at_mut(6);
        head[..4].copy_from_slice(&(len as u32).to_le_bytes());
        head[4..].copy_from_slice(&kind.to_le_bytes());
        let to = &mut rest[..len];
        match r {
            0 => put_control(m, to),
            1 => put_words(m.gprs.as_flattened(), to),
            2 => put_words(m.config.as_flattened(), to),
            3 => put_halves(m.dest.as_flattened(), to),
            4 => put_marks(&m.marks, to),
            5 => put_cells(&m.src_a, to),
            _ => put_cells(&m.src_b, to),
        }
    }
    Ok(())
}

fn half(b: &[u8], at: usize) -> u16 {
    u16::from_le_bytes([b[at], b[at + 1]])
}

// The first byte over a limit, from `at` on.
fn bytes_bad(b: &[u8], at: usize, limits: &[u8]) -> Option<usize> {
    let n = b.len().saturating_sub(at).min(limits.len());
    let found = (0..n).find(|&i| b[at + i] > limits[i]);
    found.or((n < limits.len()).then_some(n)).map(|i| at + i)
}

// The first bad field of a wait: kind, block, low field.
fn wait_bad(b: &[u8], at: usize) -> Option<usize> {
    let Some(&kind) = b.get(at) else { return Some(at) };
    let limits = match kind {
        0 => [0, 0],
        1 => [511, 32767],
        2 => [511, 1023],
        _ => return Some(at),
    };
    for (i, limit) in limits.into_iter().enumerate() {
        let place = at + 1 + 2 * i;
        if b.len() < place + 2 || half(b, place) > limit {
            return Some(place);
        }
    }
    None
}

fn control_bad(b: &[u8], at: usize) -> Option<usize> {
    cut(b, at, 192, 2)
        .or_else(|| bytes_bad(b, at + MUTEXES, &[3; 8]))
        .or_else(|| bytes_bad(b, at + SEMAPHORES, &[15; 16]))
        .or_else(|| (0..3).find_map(|t| wait_bad(b, at + WAITS + 5 * t)))
        .or_else(|| bytes_bad(b, at + OWNERS, &[1; 8]))
}

// The first of so many fields of a width that is missing or cut.
fn cut(b: &[u8], at: usize, count: usize, width: usize) -> Option<usize> {
    let there = b.len().saturating_sub(at) / width;
    (there < count).then_some(at + there * width)
}

fn cells_bad(b: &[u8], at: usize) -> Option<usize> {
    let there = &b[at.min(b.len())..b.len().min(at + 6144)];
    let found = there.chunks_exact(3).position(|c| c[2] > 7);
    found.map(|i| at + 3 * i).or_else(|| cut(b, at, 2048, 3))
}

fn record_bad(b: &[u8], r: usize) -> Option<usize> {
    let (kind, len) = RECORDS[r];
    let at = body(r);
    if b.len() < at - 2 || u32::from_le_bytes(b[at - 6..at - 2].try_into().unwrap()) != len as u32 {
        return Some(at - 6);
    }
    if b.len() < at || half(b, at - 2) != kind {
        return Some(at - 2);
    }
    match r {
        0 => control_bad(b, at),
        1 | 2 => cut(b, at, len / 4, 4),
        3 => cut(b, at, len / 2, 2),
        4 => cut(b, at, len, 1),
        _ => cells_bad(b, at),
    }
}

fn get_wait(b: &[u8]) -> Wait {
    let (block, low) = (half(b, 1), half(b, 3));
    match b[0] {
        0 => Wait::None,
        1 => Wait::Stall { block, conditions: low },
        _ => Wait::Semaphore { block, mask: (low >> 2) as u8, condition: (low & 3) as u8 },
    }
}

fn get_control(b: &[u8]) -> Control {
    let mut c = Control::default();
    c.mutexes.copy_from_slice(&b[MUTEXES..SEMAPHORES]);
    for (s, from) in c.semaphores.iter_mut().zip(b[SEMAPHORES..WAITS].chunks_exact(2)) {
        *s = Semaphore { value: from[0], maximum: from[1] };
    }
    for (w, from) in c.waits.iter_mut().zip(b[WAITS..OWNERS].chunks_exact(5)) {
        *w = get_wait(from);
    }
    c.owners.copy_from_slice(&b[OWNERS..POINTERS]);
    c.pointers.copy_from_slice(&b[POINTERS..431]);
    c
}

fn get_halves(to: &mut [u16], b: &[u8]) {
    for (x, from) in to.iter_mut().zip(b.chunks_exact(2)) {
        *x = half(from, 0);
    }
}

fn get_words(to: &mut [u32], b: &[u8]) {
    for (x, from) in to.iter_mut().zip(b.chunks_exact(4)) {
        *x = u32::from_le_bytes([from[0], from[1], from[2], from[3]]);
    }
}

fn get_cells(to: &mut Source, b: &[u8]) {
    for (x, from) in to.as_flattened_mut().as_flattened_mut().iter_mut().zip(b.chunks_exact(3)) {
        *x = u32::from_le_bytes([from[0], from[1], from[2], 0]);
    }
}

// A refused load gives the offset of the first bad field.
#[inline(never)]
pub fn load(b: &[u8], m: &mut Machine) -> Result<(), usize> {
    if let Some(at) = (0..7).find_map(|r| record_bad(b, r)) {
        return Err(at);
    }
    if b.len() != SIZE {
        return Err(SIZE);
    }
    let part = |r: usize| &b[body(r)..][..RECORDS[r].1];
    m.control = get_control(part(0));
    get_halves(m.settings.as_flattened_mut(), part(0));
    get_words(m.gprs.as_flattened_mut(), part(1));
    get_words(m.config.as_flattened_mut(), part(2));
    get_halves(m.dest.as_flattened_mut(), part(3));
    for (eight, byte) in m.marks.chunks_exact_mut(8).zip(part(4)) {
        eight.iter_mut().enumerate().for_each(|(i, mark)| *mark = byte >> i & 1 == 1);
    }
    get_cells(&mut m.src_a, part(5));
    get_cells(&mut m.src_b, part(6));
    debug_assert!(cells_well_formed(&m.src_a));
    Ok(())
}
