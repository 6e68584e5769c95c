// The expander: looked over first, so that a refused call writes nothing, then written. Words pass the MOP stage and then the replay
// stage.

const SLOTS: usize = 32;

#[derive(Clone, Copy)]
pub struct Carried {
    pub high: u16,
    pub slots: [u32; SLOTS],
    load: Load,
}

impl Carried {
    pub fn with_mask(high: u16) -> Carried {
        Carried { high, slots: [0x0200_0000; SLOTS], load: NO_LOAD }
    }
}

// The words to come that slots take. Where none are to come it is as if there were no load.
#[derive(Clone, Copy)]
struct Load {
    next: usize,
    left: u32,
    shown: bool,
}

const NO_LOAD: Load = Load { next: 0, left: 0, shown: false };

impl Load {
    fn one_taken(&mut self) {
        self.next = (self.next + 1) % SLOTS;
        self.left -= 1;
    }
}

fn is_replay(word: u32) -> bool {
    word >> 24 == 4
}

fn load_of(word: u32) -> Load {
    Load { next: (word >> 14 & 31) as usize, left: word >> 4 & 63, shown: word >> 1 & 1 == 1 }
}

// A word at the replay stage, looked at: how many words it gives; none if it is a REPLAY that is obeyed and has a bad length.
fn look(word: u32, load: &mut Load) -> Option<usize> {
    if load.left > 0 {
        load.one_taken();
        return Some(load.shown as usize);
    }
    if !is_replay(word) {
        return Some(1);
    }
    let by = load_of(word);
    if by.left == 0 || by.left > 32 {
        return None;
    }
    if word & 1 == 1 {
        *load = by;
        return Some(0);
    }
    Some(by.left as usize)
}

// The words of a MOP one by one, until the function says stop.
fn each_word(m: &[u32], high: u16, word: u32, mut f: impl FnMut(u32) -> bool) -> bool {
    if word >> 23 & 1 == 1 {
        for o in 1..=m[0] {
            if !f(m[2]) {
                return false;
            }
            for i in 1..=m[1] {
                let last = if i < m[1] { m[6] } else if o < m[0] { m[8] } else { m[7] };
                if !(f(m[5]) && f(last)) {
                    return false;
                }
            }
            if !(f(m[3]) && f(m[4])) {
                return false;
            }
        }
        return true;
    }
    let mask = (high as u32) << 16 | word & 0xFFFF;
    for i in 0..=(word >> 16 & 127) {
        let set = i < 32 && mask >> i & 1 == 1;
        let (first, more, last) = if set { (m[7], [m[7]; 3], m[8]) } else { (m[3], [m[4], m[5], m[6]], m[2]) };
        if !f(first) || m[1] >> 1 & 1 == 1 && !more.iter().all(|&w| f(w)) || m[1] & 1 == 1 && !f(last) {
            return false;
        }
    }
    true
}

fn count_mop(m: &[u32], word: u32) -> usize {
    if word >> 23 & 1 == 1 {
        return m[0] as usize * (3 + 2 * m[1] as usize);
    }
    let each = 1 + 3 * (m[1] >> 1 & 1) + (m[1] & 1);
    ((word >> 16 & 127) + 1) as usize * each as usize
}

// How many words the stream gives, or the refusal's number.
fn needed(m: &[u32], carried: &Carried, plain: bool, stream: &[u32]) -> Result<usize, u32> {
    let over = m[0] > 127 || m[1] > 127;
    let (mut high, mut load, mut n) = (carried.high, carried.load, 0);
    for &word in stream {
        match word >> 24 {
            1 if over && word >> 23 & 1 == 1 => return Err(7),
            1 if plain && load.left == 0 => n += count_mop(m, word),
            1 => {
                let fine = each_word(m, high, word, |w| match look(w, &mut load) {
                    Some(gives) => {
                        n += gives;
                        true
                    }
                    None => false,
                });
                if !fine {
                    return Err(13);
                }
            }
            3 => high = word as u16,
            _ => n += look(word, &mut load).ok_or(13u32)?,
        }
    }
    Ok(n)
}

// The words are handed out from the front of what is left.
fn put<'a>(out: &mut &'a mut [u32], words: &[u32]) {
    let (now, rest) = std::mem::take(out).split_at_mut(words.len());
    now.copy_from_slice(words);
    *out = rest;
}

fn template_0(m: &[u32], count: u32, mask: u32, out: &mut &mut [u32]) {
    let (halo, last) = (m[1] >> 1 & 1 == 1, m[1] & 1 == 1);
    let clear = [m[3], m[4], m[5], m[6], m[2]];
    let set = [m[7], m[7], m[7], m[7], m[8]];
    for i in 0..=count {
        let words = if i < 32 && mask >> i & 1 == 1 { &set } else { &clear };
        put(out, if halo { &words[..4] } else { &words[..1] });
        if last {
            put(out, &words[4..]);
        }
    }
}

fn template_1(m: &[u32], out: &mut &mut [u32]) {
    for o in 1..=m[0] {
        put(out, &[m[2]]);
        for _ in 1..m[1] {
            put(out, &[m[5], m[6]]);
        }
        if m[1] > 0 {
            put(out, &[m[5], if o < m[0] { m[8] } else { m[7] }]);
        }
        put(out, &[m[3], m[4]]);
    }
}

// A word at the replay stage, done.
fn pass(word: u32, load: &mut Load, slots: &mut [u32; SLOTS], out: &mut &mut [u32]) {
    if load.left > 0 {
        slots[load.next] = word;
        if load.shown {
            put(out, &[word]);
        }
        load.one_taken();
    } else if !is_replay(word) {
        put(out, &[word]);
    } else {
        let by = load_of(word);
        if word & 1 == 1 {
            *load = by;
        } else {
            for i in 0..by.left as usize {
                put(out, &[slots[(by.next + i) % SLOTS]]);
            }
        }
    }
}

// A piece of a stream: the words written and what is carried afterwards, a load that goes on too, or the refusal's number.
#[inline(never)]
pub fn expand(m: &[u32], carried: &Carried, stream: &[u32], out: &mut [u32]) -> Result<(usize, Carried), u32> {
    if m.len() != 9 || stream.len() > 65536 {
        return Err(4);
    }
    if carried.load.next >= SLOTS || carried.load.left > 32 {
        return Err(10);
    }
    let plain = !m.iter().any(|&w| is_replay(w));
    let count = needed(m, carried, plain, stream)?;
    if count > out.len().min(65536) {
        return Err(8);
    }
    let (mut now, mut load, mut left) = (*carried, carried.load, out);
    for &word in stream {
        match word >> 24 {
            1 if plain && load.left == 0 && word >> 23 & 1 == 1 => template_1(m, &mut left),
            1 if plain && load.left == 0 => template_0(m, word >> 16 & 127, (now.high as u32) << 16 | word & 0xFFFF, &mut left),
            1 => {
                each_word(m, now.high, word, |w| {
                    pass(w, &mut load, &mut now.slots, &mut left);
                    true
                });
            }
            3 => now.high = word as u16,
            _ => pass(word, &mut load, &mut now.slots, &mut left),
        }
    }
    now.load = load;
    Ok((count, now))
}
