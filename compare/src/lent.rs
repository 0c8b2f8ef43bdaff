//! Lent memory in two copies, one for the library and one for the simple implementation, both full of the same
//! noise. After a call the two must be alike, in the lent slice and in the guards on either side of it.

use crate::random::Random;
use crate::simple::Entry;

/// Elements on either side of a lent slice that no call may alter.
const GUARD: usize = 16;

/// Two buffers from which slices of any length up to a most are lent.
pub struct Lent<T> {
    noise: Vec<T>,
    library: Vec<T>,
    document: Vec<T>,
    used: usize,
}

impl<T: Copy + PartialEq> Lent<T> {
    /// Buffers for up to `most` elements. The noise is twice as long, so that it can be shifted.
    fn new(most: usize, mut noise: impl FnMut() -> T) -> Lent<T> {
        let total = most + 2 * GUARD;
        let noise: Vec<T> = (0..2 * total).map(|_| noise()).collect();
        Lent { library: noise[..total].to_vec(), document: noise[..total].to_vec(), noise, used: 2 * GUARD }
    }

    /// A slice of `len` elements for the library and one for the simple implementation, with the same noise.
    pub fn lend(&mut self, len: usize, random: &mut Random) -> (&mut [T], &mut [T]) {
        let used = len + 2 * GUARD;
        assert!(used <= self.library.len());
        let shift = random.below(self.noise.len() - used + 1);
        let noise = &self.noise[shift..shift + used];
        self.library[..used].copy_from_slice(noise);
        self.document[..used].copy_from_slice(noise);
        self.used = used;
        (&mut self.library[GUARD..GUARD + len], &mut self.document[GUARD..GUARD + len])
    }

    /// Whether both copies were left alike, the guards included.
    pub fn alike(&self) -> bool {
        self.library[..self.used] == self.document[..self.used]
    }

    /// The library's slice as it was left.
    pub fn left(&self) -> &[T] {
        &self.library[GUARD..self.used - GUARD]
    }

    pub fn most(&self) -> usize {
        self.library.len() - 2 * GUARD
    }
}

pub fn words(most: usize) -> Lent<u32> {
    let mut random = Random::new(1);
    Lent::new(most, move || random.number() as u32)
}

pub fn entries(most: usize) -> Lent<Entry> {
    let mut random = Random::new(2);
    Lent::new(most, move || {
        let noise = random.number();
        Entry { target: noise as u8, right: (noise >> 8) as u8, left: (noise >> 16) as u16 }
    })
}

pub fn bytes(most: usize) -> Lent<u8> {
    let mut random = Random::new(3);
    Lent::new(most, move || random.number() as u8)
}

/// Three numbers that a call may write, with noise before, between and behind them.
pub struct Numbers<N> {
    noise: [N; 7],
    cells: [N; 7],
}

impl<N: Copy + PartialEq + TryFrom<u32>> Numbers<N> {
    pub fn new(random: &mut Random) -> Numbers<N> {
        let noise = [(); 7].map(|()| N::try_from(random.number() as u32).ok().expect("a number of 32 bits or more"));
        Numbers { noise, cells: noise }
    }

    pub fn lend(&mut self) -> [&mut N; 3] {
        let [_, first, _, second, _, third, _] = &mut self.cells;
        [first, second, third]
    }

    pub fn values(&self) -> [N; 3] {
        [self.cells[1], self.cells[3], self.cells[5]]
    }

    /// Whether all but the first `written` numbers are as they were.
    pub fn untouched_but_first(&self, written: usize) -> bool {
        (0..7).all(|i| (i % 2 == 1 && i < 2 * written) || self.cells[i] == self.noise[i])
    }
}

/// A file at any alignment, its last byte the last of an allocation: a tool that watches memory sees a read
/// behind it.
pub struct Placed {
    memory: Box<[u8]>,
    pad: usize,
}

impl Placed {
    pub fn new(file: &[u8], random: &mut Random) -> Placed {
        let pad = random.below(8);
        let mut memory = Vec::with_capacity(pad + file.len());
        memory.resize(pad, 0xA5);
        memory.extend(file);
        Placed { memory: memory.into_boxed_slice(), pad }
    }

    pub fn file(&self) -> &[u8] {
        &self.memory[self.pad..]
    }
}
