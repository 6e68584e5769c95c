// The machine's parts and their ranges.

#[derive(Clone, Copy, Default)]
pub enum Wait {
    #[default]
    None,
    Stall { block: u16, conditions: u16 },
    Semaphore { block: u16, mask: u8, condition: u8 },
}

#[derive(Clone, Copy, Default)]
pub struct Semaphore {
    pub value: u8,
    pub maximum: u8,
}

#[derive(Clone, Default)]
pub struct Control {
    pub waits: [Wait; 3],
    pub mutexes: [u8; 8], // 0 free, else the thread + 1
    pub semaphores: [Semaphore; 8],
    pub owners: [u8; 4],   // A0 A1 B0 B1, 1 Matrix
    pub pointers: [u8; 4], // matrix A, matrix B, unpack A, unpack B
}

pub type Source = [[[u32; 16]; 64]; 2];

pub struct Machine {
    pub control: Control,
    pub settings: [[u16; 64]; 3],
    pub gprs: [[u32; 64]; 3],
    pub config: [[u32; 256]; 2],
    pub dest: [[u16; 16]; 1024],
    pub marks: [bool; 1024],
    pub src_a: Source,
    pub src_b: Source,
}

impl Wait {
    fn well_formed(&self) -> bool {
        match *self {
            Wait::None => true,
            Wait::Stall { block, conditions } => block < 512 && conditions < 32768,
            Wait::Semaphore { block, condition, .. } => block < 512 && condition < 4,
        }
    }
}

impl Control {
    fn well_formed(&self) -> bool {
        self.waits.iter().all(Wait::well_formed)
            && self.mutexes.iter().all(|&m| m < 4)
            && self.semaphores.iter().all(|s| s.value < 16 && s.maximum < 16)
            && self.owners.iter().all(|&o| o < 2)
            && self.pointers.iter().all(|&p| p < 2)
    }
}

pub fn cells_well_formed(source: &Source) -> bool {
    // no early end, so that it is done in wide steps
    source.as_flattened().as_flattened().iter().fold(0, |all, &cell| all | cell) >> 19 == 0
}

impl Machine {
    pub fn fresh() -> Box<Machine> {
        Box::new(Machine {
            control: Control::default(),
            settings: [[0; 64]; 3],
            gprs: [[0; 64]; 3],
            config: [[0; 256]; 2],
            dest: [[0; 16]; 1024],
            marks: [false; 1024],
            src_a: [[[0; 16]; 64]; 2],
            src_b: [[[0; 16]; 64]; 2],
        })
    }

    // The sizes are the types'; the numbers that a type does not bound are looked at.
    pub fn well_formed(&self) -> bool {
        self.control.well_formed() && cells_well_formed(&self.src_a) && cells_well_formed(&self.src_b)
    }
}
