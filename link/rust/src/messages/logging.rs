//! The device's log.

use crate::raw;
use crate::refusal::Refusal;
use crate::rows;
use crate::writer::Writer;
use crate::writing::sized;

/// A line of the device's log: a level, a text, and zeros to the end.
///
/// ```
/// use yaqtumeer::{Log, Writer};
///
/// let line = Log { level: 6, text: b"antenna open".to_vec(), padding: 1 };
/// let frame = line.frame(Writer::new(1228)).unwrap();
/// assert_eq!(Log::read(&frame[6..frame.len() - 2]), Ok(line));
/// ```
#[derive(Clone, Debug, Default, PartialEq, Eq, Hash)]
pub struct Log {
    /// From 0, an emergency, to 7, for debugging.
    pub level: u8,
    /// Without a zero, in whatever encoding; with the padding up to 254 bytes.
    pub text: Vec<u8>,
    /// How many zeros stand after the text: most devices send none or one.
    pub padding: usize,
}

kind! { Log = 0x0401, "MSG_LOG" }

impl Log {
    /// Reads a payload. The text ends before the first zero after the level,
    /// from which on all bytes have to be zero; without one it goes to the end.
    ///
    /// Refused: [`Refusal::WrongLength`], [`Refusal::OutOfRange`] for another
    /// byte after a zero.
    ///
    /// ```
    /// use yaqtumeer::{Log, Refusal};
    ///
    /// let late = Log { level: 4, text: b"late".to_vec(), padding: 2 };
    /// assert_eq!(Log::read(b"\x04late\0\0"), Ok(late));
    /// assert_eq!(Log::read(b"\x04late").unwrap().padding, 0);
    /// assert_eq!(Log::read(b"\x04la\0te"), Err(Refusal::OutOfRange));
    /// assert_eq!(Log::read(b""), Err(Refusal::WrongLength));
    /// ```
    ///
    /// What was read is written as the same bytes.
    ///
    /// ```
    /// use yaqtumeer::{Log, Writer};
    ///
    /// let payload = b"\x04late\0\0";
    /// let frame = Log::read(payload).unwrap().frame(Writer::new(1228)).unwrap();
    /// assert_eq!(&frame[6..13], payload);
    /// ```
    pub fn read(payload: &[u8]) -> Result<Log, Refusal> {
        let [level, length, padding] = rows::read(Log::KIND, payload)?;
        Ok(Log {
            level: rows::Field::of(level),
            text: payload[1..][..length as usize].to_vec(),
            padding: padding as usize,
        })
    }

    /// Writes it as a frame at the buffer's start, and says the frame's length.
    /// The [`Writer`] says who sends it.
    ///
    /// Refused: [`Refusal::OutOfRange`] for a zero in the text, however long,
    /// [`Refusal::TooMuch`], [`Refusal::NoRoom`]; then nothing is written.
    ///
    /// ```
    /// use yaqtumeer::{Log, Refusal, Writer};
    ///
    /// let (mut out, recorder) = ([0; 300], Writer::new(1228));
    /// let line = Log { level: 3, text: b"x".to_vec(), padding: 0 };
    /// assert_eq!(line.write(recorder, &mut out), Ok(10));
    /// let zero = Log { text: b"x\0".to_vec(), ..line.clone() };
    /// assert_eq!(zero.write(recorder, &mut out), Err(Refusal::OutOfRange));
    /// let long = Log { padding: 254, ..line };
    /// assert_eq!(long.write(recorder, &mut out), Err(Refusal::TooMuch));
    /// ```
    pub fn write(&self, writer: Writer, out: &mut [u8]) -> Result<usize, Refusal> {
        let (own, sender) = writer.numbers();
        sized(|size| unsafe {
            raw::sbp_write_log(
                out.as_mut_ptr(),
                out.len(),
                own,
                sender,
                self.level,
                self.text.as_ptr(),
                self.text.len(),
                self.padding,
                size,
            )
        })
    }

    /// Its numbers: the level, how many bytes of text, how many zeros after it,
    /// and each byte of the text.
    ///
    /// ```
    /// use yaqtumeer::Log;
    ///
    /// let line = Log { level: 3, text: vec![65, 66], padding: 1 };
    /// assert_eq!(line.row(), [3, 2, 1, 65, 66]);
    /// ```
    pub fn row(&self) -> Vec<u64> {
        let head = [
            self.level.into(),
            self.text.len() as u64,
            self.padding as u64,
        ];
        let text = self.text.iter().map(|&byte| byte.into());
        head.into_iter().chain(text).collect()
    }
}
