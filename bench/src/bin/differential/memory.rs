//! The memory that a C function is lent. After the call all of it is compared: the inputs, the
//! buffer, and the bytes around them.

/// The bytes before and after each part.
const MARGIN: usize = 16;

/// The map, the reference or the stretch, and the buffer for the result.
#[derive(Clone)]
pub struct Memory {
    pub map: Lent,
    pub given: Lent,
    pub buffer: Lent,
}

impl Memory {
    pub fn new(map: &[u8], given: &[u8], room: usize) -> Memory {
        Memory {
            map: Lent::of(map),
            given: Lent::of(given),
            buffer: Lent::new(room),
        }
    }

    /// All bytes are as expected, or it is said where the first one stands that is not.
    pub fn check(&self, expected: &Memory) -> Result<(), String> {
        self.map.check("map", &expected.map)?;
        self.given.check("given", &expected.given)?;
        self.buffer.check("buffer", &expected.buffer)
    }
}

/// One part, at any alignment. Its bytes and those around it are marks until something is put in.
#[derive(Clone)]
pub struct Lent {
    bytes: Vec<u8>,
    start: usize,
    len: usize,
}

impl Lent {
    pub fn new(len: usize) -> Lent {
        let start = MARGIN + len % 8;
        Lent {
            bytes: (0..start + len + MARGIN).map(mark).collect(),
            start,
            len,
        }
    }

    /// With these bytes in it.
    pub fn of(bytes: &[u8]) -> Lent {
        let mut lent = Lent::new(bytes.len());
        lent.put_first(bytes);
        lent
    }

    pub fn put_first(&mut self, bytes: &[u8]) {
        self.bytes_mut()[..bytes.len()].copy_from_slice(bytes);
    }

    /// Without those around it.
    pub fn bytes_mut(&mut self) -> &mut [u8] {
        &mut self.bytes[self.start..self.start + self.len]
    }

    pub fn len(&self) -> usize {
        self.len
    }

    pub fn as_mut_ptr(&mut self) -> *mut u8 {
        self.bytes[self.start..].as_mut_ptr()
    }

    pub fn check(&self, name: &str, expected: &Lent) -> Result<(), String> {
        if self.bytes == expected.bytes {
            return Ok(());
        }
        let mut pairs = self.bytes.iter().zip(&expected.bytes);
        let place = pairs.position(|(found, wanted)| found != wanted);
        let place = place.unwrap_or(self.bytes.len());
        Err(format!(
            "{name}, byte {} of {}: {:02X?}, not {:02X?}",
            place as isize - self.start as isize,
            self.len,
            self.bytes.get(place),
            expected.bytes.get(place)
        ))
    }
}

/// Bytes next to each other differ.
fn mark(place: usize) -> u8 {
    (place * 167 + 13) as u8
}
