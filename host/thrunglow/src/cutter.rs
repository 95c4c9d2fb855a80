//! The single pass: a log in blocks, with a short buffer.

use crate::{Error, Settings, raw};

/// What the single pass keeps between two blocks: enough to go on from, on another day or another machine.
#[repr(C)]
#[derive(Clone, Copy, Debug, PartialEq, Eq)]
pub struct Carry {
    pub settings: Settings,
    /// The bytes taken.
    pub taken: u64,
    /// The bytes since the last cut.
    pub since: u64,
    /// The last 48 bytes, oldest first, zeros before the log's start.
    pub window: [u8; 48],
    /// The signature of the window.
    pub signature: u32,
    /// 0 while it is open, 1 once it is closed; a carry with any other number is not in order.
    pub closed: u32,
}

impl Carry {
    /// The bytes that [`Carry::to_bytes`] gives.
    pub const BYTES: usize = 93;

    /// The carry as bytes to store: each part in turn, big-endian, `closed` as one byte (a number too large for it, which no call
    /// takes, as 255).
    pub fn to_bytes(&self) -> [u8; Carry::BYTES] {
        let Settings { bits, target, minimum, maximum } = self.settings;
        let parts: [&[u8]; 9] = [
            &bits.to_be_bytes(),
            &target.to_be_bytes(),
            &minimum.to_be_bytes(),
            &maximum.to_be_bytes(),
            &self.taken.to_be_bytes(),
            &self.since.to_be_bytes(),
            &self.window,
            &self.signature.to_be_bytes(),
            &[u8::try_from(self.closed).unwrap_or(u8::MAX)],
        ];
        parts.concat().try_into().expect("93 bytes")
    }

    /// The carry that bytes stand for. A last byte that is neither 0 nor 1 is [`Error::CarryNotInOrder`]; whether the rest is in
    /// order shows when the carry is used.
    pub fn from_bytes(bytes: &[u8; Carry::BYTES]) -> Result<Carry, Error> {
        let number = |at: usize| u64::from_be_bytes(bytes[at..at + 8].try_into().expect("8 bytes"));
        let word = |at: usize| u32::from_be_bytes(bytes[at..at + 4].try_into().expect("4 bytes"));
        let settings = Settings { bits: word(0), target: word(4), minimum: number(8), maximum: number(16) };
        let window = bytes[40..88].try_into().expect("48 bytes");
        let closed = bytes[92];
        if closed > 1 {
            return Err(Error::CarryNotInOrder);
        }
        Ok(Carry { settings, taken: number(24), since: number(32), window, signature: word(88), closed: closed.into() })
    }
}

/// Cuts a log that comes in blocks of any lengths, and hands out each cut as soon as it is known.
///
/// Its memory is the carry and one list, as long as the longest block asks for: block / minimum + 1 entries.
///
/// ```
/// use thrunglow::{Cutter, Settings};
///
/// let log = [0; 70_000];
/// let mut cutter = Cutter::new(Settings::HOUSE)?;
/// let mut cuts = Vec::new();
/// for block in log.chunks(1_000) {
///     cuts.extend_from_slice(cutter.push(block)?);
/// }
/// cuts.extend(cutter.finish()?);
/// assert_eq!(cuts, [65_536, 70_000]);
/// # Ok::<(), thrunglow::Error>(())
/// ```
#[derive(Clone, Debug)]
pub struct Cutter {
    carry: Carry,
    list: Vec<u64>,
}

impl Cutter {
    /// A cutter at the start of a log.
    pub fn new(settings: Settings) -> Result<Cutter, Error> {
        let passed = raw::fresh(settings);
        Error::unless_fine(passed.number)?;
        Ok(Cutter { carry: passed.carry, list: Vec::new() })
    }

    /// A cutter that goes on where another was when it gave its carry.
    ///
    /// ```
    /// use thrunglow::{Carry, Cutter, Settings};
    ///
    /// let log = [0; 70_000];
    /// let mut cutter = Cutter::new(Settings::HOUSE)?;
    /// assert_eq!(cutter.push(&log[..40_000])?, []);
    /// let saved: [u8; Carry::BYTES] = cutter.carry().to_bytes();
    ///
    /// let mut cutter = Cutter::resume(Carry::from_bytes(&saved)?)?;
    /// assert_eq!(cutter.push(&log[40_000..])?, [65_536]);
    /// assert_eq!(cutter.finish()?, Some(70_000));
    /// # Ok::<(), thrunglow::Error>(())
    /// ```
    pub fn resume(carry: Carry) -> Result<Cutter, Error> {
        Error::unless_fine(raw::block(carry, &[], &mut [0]).number)?;
        Ok(Cutter { carry, list: Vec::new() })
    }

    /// What to save so that a cutter can go on from here.
    pub fn carry(&self) -> Carry {
        self.carry
    }

    /// Takes a block, and hands out the cuts known by its end. Beside a refusal the cutter is as it was.
    pub fn push(&mut self, block: &[u8]) -> Result<&[u64], Error> {
        let room = block.len() as u64 / self.carry.settings.minimum + 1;
        if (self.list.len() as u64) < room {
            self.list.resize(room as usize, 0);
        }
        let passed = raw::block(self.carry, block, &mut self.list);
        Error::unless_fine(passed.number)?;
        self.carry = passed.carry;
        Ok(&self.list[..passed.count as usize])
    }

    /// Ends the log, and hands out its last cut: the log's length, or none where that was handed out already or the log is empty.
    pub fn finish(self) -> Result<Option<u64>, Error> {
        let mut last = [0];
        let passed = raw::close(self.carry, &mut last);
        Error::unless_fine(passed.number)?;
        Ok((passed.count == 1).then_some(last[0]))
    }
}
