//! Observations of satellites, and where the base stands.

use crate::phase::PhaseParts;
use crate::raw;
use crate::refusal::{Refusal, answered};
use crate::rows;
use crate::writer::Writer;
use crate::writing::sized;

rowed! {
    /// What was seen of one satellite's signal.
    ///
    /// ```
    /// use yaqtumeer::{Obs, Observation, Writer};
    ///
    /// let seen = Observation { p: 1080000000, l_i: -3, l_f: 128, sat: 22, ..Observation::default() };
    /// let packet = Obs { tow: 1000, wn: 1900, n_obs: 0x10, observations: vec![seen] };
    /// let frame = packet.frame(Writer::new(1228)).unwrap();
    /// assert_eq!(Observation::read(Obs::KIND, &frame[6..29], 0), Ok(seen));
    /// ```
    #[derive(Eq, Hash)]
    Observation {
        /// Pseudorange in 2 cm.
        p: u32,
        /// Carrier phase: whole cycles.
        l_i: i32,
        /// Carrier phase: the rest in 1/256 cycle.
        l_f: u8,
        /// Carrier to noise density in 1/4 dB Hz.
        cn0: u8,
        /// Changes whenever the lock on the signal was lost.
        lock: u16,
        /// The satellite's number in its constellation.
        sat: u16,
        /// Constellation, band and code of the signal.
        code: u8,
        /// Reserved.
        reserved: u8,
    }
}

impl Observation {
    /// One observation of a payload of that type, counted from 0.
    ///
    /// Refused: [`Refusal::UnknownType`] for another type than [`Obs::KIND`],
    /// [`Refusal::WrongLength`], [`Refusal::NoSuchObservation`].
    ///
    /// ```
    /// use yaqtumeer::{Obs, Observation, Refusal};
    ///
    /// let none = [0; 7];
    /// let read = Observation::read(Obs::KIND, &none, 0);
    /// assert_eq!(read, Err(Refusal::NoSuchObservation));
    /// ```
    pub fn read(kind: u16, payload: &[u8], index: usize) -> Result<Observation, Refusal> {
        let mut row = [0; Observation::FIELDS];
        let told = unsafe {
            raw::sbp_observation(
                kind,
                payload.as_ptr(),
                payload.len(),
                index,
                row.as_mut_ptr(),
                row.len(),
            )
        };
        answered(told).map(|()| rows::of_row(row))
    }

    /// Its carrier phase in 1/256 cycle.
    ///
    /// ```
    /// use yaqtumeer::Observation;
    ///
    /// let seen = Observation { l_i: -3, l_f: 128, ..Observation::default() };
    /// assert_eq!(seen.carrier_phase(), -640);
    /// ```
    pub fn carrier_phase(&self) -> i64 {
        let (l_i, l_f) = (self.l_i, self.l_f);
        PhaseParts { l_i, l_f }.phase()
    }
}

/// A packet of up to 15 observations. An epoch comes in up to 15 packets, in any
/// order, which a [`Collator`](crate::Collator) collates.
///
/// ```
/// use yaqtumeer::{Obs, Observation, Writer};
///
/// let seen = Observation { sat: 22, cn0: 160, ..Observation::default() };
/// let packet = Obs { tow: 1000, wn: 1900, n_obs: 0x31, observations: vec![seen; 2] };
/// let frame = packet.frame(Writer::new(1228)).unwrap();
/// assert_eq!(Obs::read(&frame[6..45]), Ok(packet));
/// ```
#[derive(Clone, Debug, Default, PartialEq, Eq, Hash)]
pub struct Obs {
    /// Time of week in ms.
    pub tow: u32,
    /// Week.
    pub wn: u16,
    /// How many packets the epoch comes in ([`n`](Obs::n)), and which of them
    /// this is ([`counter`](Obs::counter)): 16 * n + counter.
    pub n_obs: u8,
    /// What was seen.
    pub observations: Vec<Observation>,
}

kind! { Obs = 0x0049, "MSG_OBS" }

impl Obs {
    /// Reads a payload.
    ///
    /// Refused: [`Refusal::WrongLength`].
    ///
    /// ```
    /// use yaqtumeer::{Obs, Refusal};
    ///
    /// assert_eq!(Obs::read(&[0; 23]).unwrap().observations.len(), 1);
    /// assert_eq!(Obs::read(&[0; 24]), Err(Refusal::WrongLength));
    /// ```
    pub fn read(payload: &[u8]) -> Result<Obs, Refusal> {
        let [tow, wn, n_obs, k] = rows::read(Obs::KIND, payload)?;
        let observations = (0..k as usize).map(|i| Observation::read(Obs::KIND, payload, i));
        Ok(Obs {
            tow: rows::Field::of(tow),
            wn: rows::Field::of(wn),
            n_obs: rows::Field::of(n_obs),
            observations: observations.collect::<Result<_, _>>()?,
        })
    }

    /// Writes it as a frame at the buffer's start, and says the frame's length.
    /// The [`Writer`] says who sends it.
    ///
    /// Refused: [`Refusal::TooMuch`], [`Refusal::NoRoom`]; then nothing is
    /// written.
    ///
    /// ```
    /// use yaqtumeer::{Obs, Observation, Refusal, Writer};
    ///
    /// let (mut out, recorder) = ([0; 300], Writer::new(1228));
    /// assert_eq!(Obs::default().write(recorder, &mut out), Ok(15));
    /// let many = Obs { observations: vec![Observation::default(); 16], ..Obs::default() };
    /// assert_eq!(many.write(recorder, &mut out), Err(Refusal::TooMuch));
    /// ```
    pub fn write(&self, writer: Writer, out: &mut [u8]) -> Result<usize, Refusal> {
        let (own, sender) = writer.numbers();
        let head = self.head();
        let rows = self.rows();
        sized(|size| unsafe {
            raw::sbp_write_obs(
                out.as_mut_ptr(),
                out.len(),
                Obs::KIND,
                own,
                sender,
                head.as_ptr(),
                head.len(),
                rows.as_ptr(),
                rows.len(),
                size,
            )
        })
    }

    /// Its numbers: time of week, week, n_obs, how many observations, and the
    /// [`row`](Observation::row) of each.
    ///
    /// ```
    /// use yaqtumeer::{Obs, Observation};
    ///
    /// let seen = Observation { l_i: -1, ..Observation::default() };
    /// let packet = Obs { tow: 7, wn: 8, n_obs: 0x10, observations: vec![seen] };
    /// assert_eq!(packet.row(), [7, 8, 0x10, 1, 0, u64::MAX, 0, 0, 0, 0, 0, 0]);
    /// ```
    pub fn row(&self) -> Vec<u64> {
        let count = self.observations.len() as u64;
        [&self.head()[..], &[count], &self.rows()].concat()
    }

    fn head(&self) -> [u64; 3] {
        [self.tow.into(), self.wn.into(), self.n_obs.into()]
    }

    fn rows(&self) -> Vec<u64> {
        self.observations
            .iter()
            .flat_map(Observation::row)
            .collect()
    }

    /// How many packets the epoch comes in.
    ///
    /// ```
    /// use yaqtumeer::Obs;
    ///
    /// assert_eq!(Obs { n_obs: 0x31, ..Obs::default() }.n(), 3);
    /// ```
    pub fn n(&self) -> u8 {
        self.n_obs >> 4
    }

    /// Which of them this is, counted from 0.
    ///
    /// ```
    /// use yaqtumeer::Obs;
    ///
    /// assert_eq!(Obs { n_obs: 0x31, ..Obs::default() }.counter(), 1);
    /// ```
    pub fn counter(&self) -> u8 {
        self.n_obs & 15
    }
}

message! {
    /// Where the base stands, as it was surveyed, geodetic.
    ///
    /// `==` compares doubles as numbers: a NaN equals nothing. Compare
    /// [`row`](BasePosLlh::row)s for equality to the bit.
    ///
    /// ```
    /// use yaqtumeer::{BasePosLlh, Writer};
    ///
    /// let base = BasePosLlh { lat: 37.7749, lon: -122.4194, height: 21.5 };
    /// let frame = base.frame(Writer::new(1228)).unwrap();
    /// assert_eq!(BasePosLlh::read(&frame[6..30]), Ok(base));
    /// ```
    BasePosLlh = 0x0044, "MSG_BASE_POS_LLH" {
        /// Latitude in degrees.
        lat: f64,
        /// Longitude in degrees.
        lon: f64,
        /// Height in m.
        height: f64,
    }
}

message! {
    /// Where the base stands, as it was surveyed, in Earth-centred, Earth-fixed
    /// coordinates.
    ///
    /// `==` compares doubles as numbers: a NaN equals nothing. Compare
    /// [`row`](BasePosEcef::row)s for equality to the bit.
    ///
    /// ```
    /// use yaqtumeer::{BasePosEcef, Writer};
    ///
    /// let base = BasePosEcef { x: -2704375.5, y: -4263210.25, z: 3884637.0 };
    /// let frame = base.frame(Writer::new(1228)).unwrap();
    /// assert_eq!(BasePosEcef::read(&frame[6..30]), Ok(base));
    /// ```
    BasePosEcef = 0x0048, "MSG_BASE_POS_ECEF" {
        /// X in m.
        x: f64,
        /// Y in m.
        y: f64,
        /// Z in m.
        z: f64,
    }
}
