//! Tiles that the tests decode, rescue and recode.
use hookbarley::{header, Frame, Memory, Reader, Tile, ENTRIES};

/// The worked tile: 16 by 16, header 0 but 128 as each coefficient probability, both partitions zero bytes.
pub fn worked(bytes: &[u8], first: usize, tokens: usize) -> Frame<'_> {
    let mut tile = Tile { width: 16, height: 16, count: 1, first_length: first, reader: Reader::open(&bytes[..first]), ..Tile::default() };
    tile.token_starts[0] = first;
    tile.token_lengths[0] = tokens;
    let mut header = vec![0; ENTRIES];
    header[header::COEFFICIENTS..header::SKIPPING].fill(128);
    Frame { bytes, header, tile }
}

/// The memory that a tile asks for.
pub fn memory_of(tile: &Tile, fill: u8) -> Memory {
    Memory::new(tile.width, tile.height, fill)
}

/// A good frame spoiled for each argument, and the number of its refusal.
pub fn refused<'a>(good: &Frame<'a>) -> Vec<(u32, Frame<'a>)> {
    let mut bad_entry = good.header.clone();
    bad_entry[0] = 256;
    let of = |tile: Tile| Frame { tile, ..good.clone() };
    let read_by = |reader: Reader| of(Tile { reader, ..good.tile });
    let reader = good.tile.reader;
    let wide = 1 << 32; // a number that would be in range if its upper half were cut off
    vec![
        (1, of(Tile { width: 17, ..good.tile })),
        (1, of(Tile { width: 17, count: 9, ..good.tile })),
        (2, of(Tile { count: 0, ..good.tile })),
        (2, of(Tile { count: 9, ..good.tile })),
        (3, Frame { header: bad_entry, ..good.clone() }),
        (4, Frame { header: good.header[1..].to_vec(), ..good.clone() }),
        (5, of(Tile { first_start: usize::MAX, ..good.tile })),
        (5, of(Tile { first_length: usize::MAX, ..good.tile })),
        (5, read_by(Reader { range: 127, ..reader })),
        (5, read_by(Reader { range: wide + reader.range, ..reader })),
        (5, read_by(Reader { shifts: wide + reader.shifts, ..reader })),
        (5, read_by(Reader { window: wide + reader.window, ..reader })),
    ]
}

/// A case file of the corpus, taken apart (examples/c/case_file.h has the layout); its tile is of the partitions' bytes alone.
pub struct Case {
    pub bytes: Vec<u8>,
    pub header: Vec<i32>,
    pub tile: Tile,
}

impl Case {
    pub fn read(name: &str) -> Case {
        let path = format!("{}/../../crates/replay/data/{name}.case", env!("CARGO_MANIFEST_DIR"));
        let f = std::fs::read(&path).expect(&path);
        let be = |at: usize, n: usize| f[at..at + n].iter().fold(0usize, |x, &b| x << 8 | b as usize);
        let lengths = 10 + 2 * ENTRIES;
        let mut tile = Tile { width: be(5, 2), height: be(7, 2), count: f[9] as usize, first_length: be(lengths, 4), ..Tile::default() };
        let mut at = tile.first_length;
        for i in 0..tile.count {
            tile.token_starts[i] = at;
            tile.token_lengths[i] = be(lengths + 4 * (1 + i), 4);
            at += tile.token_lengths[i];
        }
        let header = (0..ENTRIES).map(|i| be(10 + 2 * i, 2) as u16 as i16 as i32).collect();
        Case { bytes: f[lengths + 4 * (1 + tile.count)..].to_vec(), header, tile }
    }

    pub fn whole(&self) -> Frame<'_> {
        self.cut(0, self.tile.first_length)
    }

    /// The tile with partition p (0 the first, then the token partitions) cut to n bytes.
    pub fn cut(&self, p: usize, n: usize) -> Frame<'_> {
        let mut tile = self.tile;
        if p == 0 { tile.first_length = n } else { tile.token_lengths[p - 1] = n }
        tile.reader = Reader::open(&self.bytes[..tile.first_length]);
        Frame { bytes: &self.bytes, header: self.header.clone(), tile }
    }

    pub fn length(&self, p: usize) -> usize {
        if p == 0 { self.tile.first_length } else { self.tile.token_lengths[p - 1] }
    }
}
