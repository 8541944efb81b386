use crate::abi::{self, gs_runs_answer, gs_runs_end, gs_runs_run, gs_runs_start};
use crate::{Error, Time, LONGEST_FORMAT};

/// A format that arrives in runs: its length first, then runs of at most
/// [`LONGEST_RUN`](crate::LONGEST_RUN) bytes, then the end. However it is cut, text and error are those
/// of [`strftime`](crate::buffered::strftime) for the whole format.
///
/// It owns a store of `STORE` bytes, which must be at least as many as the format has.
///
/// ```
/// use groatsaddle::{Record, Runs};
///
/// let sale = Record::from_count(1_735_574_709, 3600, 0, false)?;
/// let mut line = [0; 64];
/// let mut runs: Runs<256> = Runs::start(&sale, 11, &mut line)?;
/// runs.push(b"%F")?;
/// runs.push(b" at %")?;
/// assert_eq!(runs.text(), b"2024-12-30 at ");
/// runs.push(b"H:%M")?;
/// assert_eq!(runs.finish()?, b"2024-12-30 at 17:05");
/// # Ok::<(), groatsaddle::Error>(())
/// ```
///
/// Text is written as the format is read: a byte that stands for itself at once, a directive with its
/// last byte. So an error leaves text in the buffer, and [`text`](Runs::text) gives it. After
/// [`Error::WriteZero`] it is the longest part of the whole text, from its start, that fits; after any
/// other error it is the text before what failed. Behind it the buffer is as it was.
///
/// An answer stays: after an error, and after the end, further calls change nothing and give it again.
pub struct Runs<'a, const STORE: usize = LONGEST_FORMAT> {
    numbers: abi::Runs,
    record: abi::Record,
    zone: &'a [u8],
    store: [u8; STORE],
    buffer: &'a mut [u8],
}

impl<'a, const STORE: usize> Runs<'a, STORE> {
    /// Takes the length of the whole format. The text of `time` will stand at the front of `buf`.
    ///
    /// # Errors
    ///
    /// In this order: [`Error::InputTooLong`], and [`Error::WriteZero`] if the store is shorter than
    /// `total`.
    pub fn start(time: &'a impl Time, total: usize, buf: &'a mut [u8]) -> Result<Self, Error> {
        let zone = time.time_zone().as_bytes();
        let record = abi::Record::of(time);
        let store = [0; STORE];
        // SAFETY: each pointer has the length of its slice beside it.
        let numbers = unsafe {
            gs_runs_start(
                total,
                zone.as_ptr(),
                zone.len(),
                store.as_ptr(),
                store.len(),
                buf.as_ptr(),
                buf.len(),
            )
        };
        let runs = Runs {
            numbers,
            record,
            zone,
            store,
            buffer: buf,
        };
        runs.answer()?;
        Ok(runs)
    }

    /// Takes the next run.
    ///
    /// # Errors
    ///
    /// In this order: an earlier error; [`Error::InputTooLong`] if the run is longer than
    /// [`LONGEST_RUN`](crate::LONGEST_RUN); [`Error::LengthMismatch`] if it passes the length of the
    /// format; and of these two runs nothing is read. Then the first thing that fails, from left to
    /// right, as for [`strftime`](crate::buffered::strftime).
    pub fn push(&mut self, bytes: &[u8]) -> Result<(), Error> {
        // SAFETY: each pointer has the length of its slice beside it, and store and buffer are borrowed
        // alone.
        self.numbers = unsafe {
            gs_runs_run(
                self.numbers,
                bytes.as_ptr(),
                bytes.len(),
                self.zone.as_ptr(),
                self.zone.len(),
                self.record,
                self.store.as_mut_ptr(),
                self.store.len(),
                self.buffer.as_mut_ptr(),
                self.buffer.len(),
            )
        };
        self.answer().map(|_| ())
    }

    /// Ends the format, and gives its text.
    ///
    /// # Errors
    ///
    /// In this order: an earlier error; [`Error::LengthMismatch`] if the runs brought fewer bytes than
    /// were said; [`Error::InvalidFormatString`] if the format ends inside a directive, or
    /// [`Error::WriteZero`] if its end has no room.
    pub fn finish(&mut self) -> Result<&mut [u8], Error> {
        // SAFETY: each pointer has the length of its slice beside it, and the buffer is borrowed alone.
        self.numbers = unsafe {
            gs_runs_end(
                self.numbers,
                self.zone.as_ptr(),
                self.zone.len(),
                self.record,
                self.store.as_ptr(),
                self.store.len(),
                self.buffer.as_mut_ptr(),
                self.buffer.len(),
            )
        };
        let length = self.answer()?;
        Ok(&mut self.buffer[..length])
    }

    /// The text so far; after an error, what is left of it in the buffer.
    #[must_use]
    pub fn text(&self) -> &[u8] {
        &self.buffer[..self.numbers.written]
    }

    /// The length of the text where it is done, else 0.
    fn answer(&self) -> Result<usize, Error> {
        // SAFETY: it takes numbers, and any will do.
        let answer = unsafe { gs_runs_answer(self.numbers) };
        match answer.refusal {
            0 => Ok(answer.length),
            refusal => Err(Error::numbered(refusal)),
        }
    }
}
