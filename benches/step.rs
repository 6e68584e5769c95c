// One word on the machine: decoded, gated and done in one go.
use crate::machine::{Control, Machine, Wait};

#[derive(Clone, Copy, PartialEq)]
pub enum Outcome {
    Idle,
    Passed,
    // The number and the cause.
    Stalled(u32, u32),
    Refused(u32),
}

use Outcome::{Passed, Refused, Stalled};

// Block bits of the units.
const SYNC: u32 = 1;
const SCALAR: u32 = 5;
const MATRIX: u32 = 6;
const CONFIG: u32 = 7;

fn field(word: u32, low: u32, width: u32) -> usize {
    (word >> low & ((1 << width) - 1)) as usize
}

fn bit(word: u32, place: u32) -> bool {
    word >> place & 1 == 1
}

impl Control {
    fn owner_at_pointer(&self, pointer: usize) -> u8 {
        self.owners[(pointer & 1) * 2 + (self.pointers[pointer] & 1) as usize]
    }

    // What the wait is held by.
    fn held_by(&self, wait: Wait) -> Option<u32> {
        match wait {
            Wait::None => None,
            Wait::Stall { conditions, .. } => {
                let named = |place: u32| bit(conditions as u32, place);
                if named(5) && self.owner_at_pointer(2) != 0 {
                    Some(5)
                } else if named(6) && self.owner_at_pointer(3) != 0 {
                    Some(6)
                } else if named(7) && self.owner_at_pointer(0) != 1 {
                    Some(7)
                } else if named(8) && self.owner_at_pointer(1) != 1 {
                    Some(8)
                } else {
                    None
                }
            }
            Wait::Semaphore { mut mask, condition, .. } => {
                while mask != 0 {
                    let n = mask.trailing_zeros();
                    let s = self.semaphores[n as usize & 7];
                    if condition & 1 != 0 && s.value == 0 {
                        return Some(n + 16);
                    }
                    if condition & 2 != 0 && s.value == s.maximum {
                        return Some(n + 24);
                    }
                    mask &= mask - 1;
                }
                None
            }
        }
    }

    // Why a word of the unit may not pass; a lifted wait is dropped once the word passes.
    fn wait_stalls(&self, t: usize, unit: u32) -> Option<u32> {
        let (Wait::Stall { block, .. } | Wait::Semaphore { block, .. }) = self.waits[t] else { return None };
        if bit(block as u32, unit) { self.held_by(self.waits[t]) } else { None }
    }

    fn drop_lifted(&mut self, t: usize) {
        if !matches!(self.waits[t], Wait::None) && self.held_by(self.waits[t]).is_none() {
            self.waits[t] = Wait::None;
        }
    }

    fn give(&mut self, pointer: usize, owner: u8, flip: bool) {
        let p = self.pointers[pointer] & 1;
        self.owners[(pointer & 1) * 2 + p as usize] = owner;
        self.pointers[pointer] = p ^ flip as u8;
    }
}

fn remap(r: usize) -> usize {
    r & !0x38 | (r >> 3 & 1) << 5 | (r >> 5 & 1) << 4 | (r >> 4 & 1) << 3
}

fn swizzle(r: usize) -> usize {
    r & !0xC | (r >> 3 & 1) << 2 | ((r >> 4 ^ r >> 2) & 1) << 3
}

impl Machine {
    fn config_bank(&self, t: usize) -> usize {
        (self.settings[t][0] & 1) as usize
    }

    fn clear_row(&mut self, flags: u32, wide: bool, row: usize) {
        let mut r = if flags & 1 != 0 { remap(row) } else { row };
        if wide {
            r = if flags & 2 != 0 { swizzle(r) } else { r };
            let high = r & 7 | (r >> 3 & 63) << 4;
            self.marks[high] = false;
            self.marks[high + 8] = false;
        } else {
            self.marks[r & 1023] = false;
        }
    }

    // Each half of a view is a half of storage in every setting.
    fn zero_acc(&mut self, t: usize, mode: usize, wide: bool, place: usize) {
        let flags = self.config[self.config_bank(t)][255];
        match mode {
            0 => self.clear_row(flags, wide, place),
            1 => (16 * place..16 * place + 16).for_each(|row| self.clear_row(flags, wide, row)),
            2 => self.marks[512 * (place & 1)..][..512].fill(false),
            _ => self.marks.fill(false),
        }
    }

    fn transpose(&mut self) {
        let bank = &mut self.src_b[(self.control.pointers[1] & 1) as usize];
        let face: &mut [[u32; 16]; 16] = (&mut bank[16..32]).try_into().unwrap();
        for r in 0..16 {
            for c in 0..r {
                let x = face[r][c];
                face[r][c] = face[c][r];
                face[c][r] = x;
            }
        }
    }

    fn mov_b2a(&mut self, a: usize, four: bool, b: usize) {
        let to = &mut self.src_a[(self.control.pointers[0] & 1) as usize];
        let from = &self.src_b[(self.control.pointers[1] & 1) as usize];
        if four {
            to[a & 60..][..4].copy_from_slice(&from[b & 60..][..4]);
        } else {
            to[a] = from[b];
        }
    }

    fn change_semaphores(&mut self, word: u32, change: impl Fn(&mut crate::machine::Semaphore)) {
        let mut mask = field(word, 2, 8);
        while mask != 0 {
            change(&mut self.control.semaphores[mask.trailing_zeros() as usize & 7]);
            mask &= mask - 1;
        }
    }

    fn operand(&self, t: usize, word: u32) -> u32 {
        let b = field(word, 6, 6);
        if bit(word, 23) { b as u32 } else { self.gprs[t][b] }
    }

    // The stall of a word that does not stall by itself.
    fn stall(&mut self, t: usize, unit: u32) -> Option<Outcome> {
        if let Some(cause) = self.control.wait_stalls(t, unit) {
            return Some(Stalled(101, cause));
        }
        self.control.drop_lifted(t);
        None
    }

    pub fn offer(&mut self, t: usize, word: u32) -> Outcome {
        let t = t % 3;
        match word >> 24 {
            0x02 => self.control.drop_lifted(t),
            0x16 | 0x0B => return self.source_word(t, word),
            0x10 => return self.zero_word(t, word),
            0x36 | 0x57 => return self.bank_word(t, word),
            0x45 | 0x58 | 0x5A | 0x60 => return self.scalar_word(t, word),
            0xA0..=0xA6 => return self.sync_word(t, word),
            0xB0..=0xB6 => return self.config_word(t, word),
            _ => return Refused(2),
        }
        Passed
    }

    fn source_word(&mut self, t: usize, word: u32) -> Outcome {
        let moves = word >> 24 == 0x0B;
        if moves && field(word, 14, 3) != 0 {
            return Refused(2);
        }
        if let Some(cause) = self.control.wait_stalls(t, MATRIX) {
            return Stalled(101, cause);
        }
        if self.control.owner_at_pointer(1) != 1 {
            return Stalled(103, self.control.pointers[1] as u32);
        }
        self.control.drop_lifted(t);
        if moves {
            self.mov_b2a(field(word, 17, 6), bit(word, 13), field(word, 0, 6));
        } else {
            self.transpose();
        }
        Passed
    }

    fn zero_word(&mut self, t: usize, word: u32) -> Outcome {
        let (mode, wide, place) = (field(word, 19, 2), bit(word, 18), field(word, 0, 14));
        if field(word, 14, 3) != 0 {
            return Refused(2);
        }
        let rows = if wide { 512 } else { 1024 };
        if place >= [rows, rows / 16, 2, usize::MAX][mode] {
            return Refused(3);
        }
        if let Some(stall) = self.stall(t, MATRIX) {
            return stall;
        }
        self.zero_acc(t, mode, wide, place);
        Passed
    }

    fn bank_word(&mut self, t: usize, word: u32) -> Outcome {
        if let Some(stall) = self.stall(t, MATRIX) {
            return stall;
        }
        let c = &mut self.control;
        if word >> 24 == 0x57 {
            if bit(word, 0) {
                c.give(2, 1, true);
            }
            if bit(word, 1) {
                c.give(3, 1, true);
            }
        } else if bit(word, 0) {
            (c.owners, c.pointers) = ([0; 4], [0; 4]);
        } else {
            if bit(word, 22) {
                c.give(0, 0, !bit(word, 1));
            }
            if bit(word, 23) {
                c.give(1, 0, !bit(word, 1));
            }
        }
        Passed
    }

    fn scalar_word(&mut self, t: usize, word: u32) -> Outcome {
        if word >> 24 == 0x45 && bit(word, 7) {
            return Refused(2);
        }
        if let Some(stall) = self.stall(t, SCALAR) {
            return stall;
        }
        let (result, x) = (field(word, 12, 6), self.gprs[t][field(word, 0, 6)]);
        match word >> 24 {
            0x45 => {
                let g = &mut self.gprs[t][field(word, 1, 6)];
                let value = word >> 8 & 0xFFFF;
                *g = if bit(word, 0) { *g & 0xFFFF | value << 16 } else { *g & 0xFFFF_0000 | value };
            }
            0x58 => self.gprs[t][result] = x.wrapping_add(self.operand(t, word)),
            0x5A => self.gprs[t][result] = (x & 0xFFFF) * (self.operand(t, word) & 0xFFFF),
            _ => {}
        }
        Passed
    }

    fn sync_word(&mut self, t: usize, word: u32) -> Outcome {
        let mutex = field(word, 0, 16);
        if word >> 24 <= 0xA1 && mutex > 7 {
            return Refused(3);
        }
        if let Some(cause) = self.control.wait_stalls(t, SYNC) {
            return Stalled(101, cause);
        }
        if word >> 24 == 0xA0 {
            let holder = self.control.mutexes[mutex & 7];
            if holder != 0 && holder != t as u8 + 1 {
                return Stalled(102, holder as u32 - 1);
            }
        }
        self.control.drop_lifted(t);
        let block = field(word, 15, 9) as u16;
        match word >> 24 {
            0xA0 => self.control.mutexes[mutex & 7] = t as u8 + 1,
            0xA1 => {
                let m = &mut self.control.mutexes[mutex & 7];
                if *m == t as u8 + 1 {
                    *m = 0;
                }
            }
            0xA2 => self.control.waits[t] = Wait::Stall { block, conditions: field(word, 0, 15) as u16 },
            0xA3 => {
                let (value, maximum) = (field(word, 16, 4) as u8, field(word, 20, 4) as u8);
                self.change_semaphores(word, |s| (s.value, s.maximum) = (value, maximum));
            }
            0xA4 => self.change_semaphores(word, |s| s.value += (s.value < 15) as u8),
            0xA5 => self.change_semaphores(word, |s| s.value -= (s.value > 0) as u8),
            _ => {
                let (mask, condition) = (field(word, 2, 8) as u8, field(word, 0, 2) as u8);
                self.control.waits[t] = Wait::Semaphore { block, mask, condition };
            }
        }
        Passed
    }

    fn config_word(&mut self, t: usize, word: u32) -> Outcome {
        let (op, index, gpr) = (word >> 24, field(word, 0, 11), field(word, 16, 6));
        if op <= 0xB1 && index > 255 || op == 0xB1 && field(word, 16, 8) > 63 {
            return Refused(3);
        }
        if let Some(stall) = self.stall(t, CONFIG) {
            return stall;
        }
        let bank = self.config_bank(t);
        match op {
            0xB0 if bit(word, 15) => {
                self.config[bank][index & 252..][..4].copy_from_slice(&self.gprs[t][gpr & 60..][..4]);
            }
            0xB0 => self.config[bank][index & 255] = self.gprs[t][gpr],
            0xB1 => self.gprs[t][gpr] = self.config[bank][index & 255],
            0xB2 => self.settings[t][gpr] = word as u16,
            _ => {
                let shift = 8 * (op - 0xB3);
                let mask = (word >> 16 & 255) << shift;
                let value = (word >> 8 & 255) << shift;
                let x = &mut self.config[bank][index & 255];
                *x = value & mask | *x & !mask;
            }
        }
        Passed
    }
}
