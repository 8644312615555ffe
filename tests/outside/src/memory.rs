//! The slices that a caller lends to the C interface: the record first, then the tables in order.
//! Each slice lies between guard words that no call may touch, and begins at any address.

/// Guard words before and after each slice.
const GUARD: usize = 2;
const GUARD_WORD: u64 = 0x5A5A_5A5A_5A5A_5A5A;
const WORD: usize = 8;

#[derive(Clone, Debug, PartialEq, Eq)]
pub struct Memory {
    regions: Vec<Region>,
    skew: usize,
}

#[derive(Clone, Debug, PartialEq, Eq)]
struct Region {
    storage: Vec<u64>,
    start: usize,
    length: usize,
}

impl Region {
    /// A slice that begins so many bytes behind its guard.
    fn new(contents: &[u8], skew: usize) -> Region {
        let start = GUARD * WORD + skew;
        let words = (start + contents.len() + WORD - 1) / WORD + GUARD;
        let storage = vec![GUARD_WORD; words];
        let mut region = Region { storage, start, length: contents.len() };
        region.slice_mut().copy_from_slice(contents);
        region
    }

    fn all(&self) -> &[u8] {
        // SAFETY: any byte of initialised words is a byte.
        unsafe {
            std::slice::from_raw_parts(self.storage.as_ptr().cast(), WORD * self.storage.len())
        }
    }

    fn slice(&self) -> &[u8] {
        &self.all()[self.start..self.start + self.length]
    }

    fn slice_mut(&mut self) -> &mut [u8] {
        let (bytes, length) = (self.storage.as_mut_ptr().cast(), WORD * self.storage.len());
        // SAFETY: as above, and any byte may be stored in a word.
        let all: &mut [u8] = unsafe { std::slice::from_raw_parts_mut(bytes, length) };
        &mut all[self.start..self.start + self.length]
    }

    fn guards_are_intact(&self) -> bool {
        let (before, rest) = self.all().split_at(self.start);
        let after = &rest[self.length..];
        before.iter().chain(after).all(|&byte| byte == GUARD_WORD as u8)
    }
}

impl Memory {
    /// Slices with these contents. With skew 0 all begin at a whole word's address, with another one
    /// each at another distance from it.
    pub fn new(contents: &[Vec<u8>], skew: usize) -> Memory {
        let region =
            |(index, bytes): (usize, &Vec<u8>)| Region::new(bytes, skew * (index + 1) % WORD);
        Memory { regions: contents.iter().enumerate().map(region).collect(), skew }
    }

    pub fn region(&self, index: usize) -> &[u8] {
        self.regions[index].slice()
    }

    pub fn region_mut(&mut self, index: usize) -> &mut [u8] {
        self.regions[index].slice_mut()
    }

    pub fn lengths(&self) -> Vec<usize> {
        self.regions.iter().map(|region| region.length).collect()
    }

    pub fn contents(&self) -> Vec<Vec<u8>> {
        self.regions.iter().map(|region| region.slice().to_vec()).collect()
    }

    pub fn guards_are_intact(&self) -> bool {
        self.regions.iter().all(Region::guards_are_intact)
    }

    /// The same memory with one slice cut or made longer; bytes that are added are 0.
    pub fn with_length(&self, index: usize, length: usize) -> Memory {
        let mut contents = self.contents();
        contents[index].resize(length, 0);
        Memory::new(&contents, self.skew)
    }

    /// Address and length of each slice, for a C function that takes N of them.
    pub fn slices<const N: usize>(&mut self) -> [(*mut u8, usize); N] {
        let pairs: Vec<_> = self
            .regions
            .iter_mut()
            .map(|region| (region.slice_mut().as_mut_ptr(), region.length))
            .collect();
        pairs.try_into().expect("the controller's number of slices")
    }
}
