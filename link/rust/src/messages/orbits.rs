//! Orbits and clocks of satellites, and what delays their signals.

rowed! {
    /// A time by GPS's clock.
    ///
    /// ```
    /// use yaqtumeer::TimeOfWeek;
    ///
    /// assert_eq!(TimeOfWeek { tow: 416300400, wn: 1900 }.row(), [416300400, 1900]);
    /// ```
    #[derive(Eq, Hash)]
    TimeOfWeek {
        /// Time of week in ms.
        tow: u32,
        /// Week.
        wn: u16,
    }
}

rowed! {
    /// A satellite's signal.
    ///
    /// ```
    /// use yaqtumeer::Satellite;
    ///
    /// assert_eq!(Satellite { sat: 22, code: 1, reserved: 0 }.row(), [22, 1, 0]);
    /// ```
    #[derive(Eq, Hash)]
    Satellite {
        /// The satellite's number in its constellation.
        sat: u16,
        /// Constellation, band and code of the signal.
        code: u8,
        /// Reserved.
        reserved: u8,
    }
}

rowed! {
    /// What every ephemeris begins with.
    ///
    /// ```
    /// use yaqtumeer::{EphemerisCommon, Satellite};
    ///
    /// let sid = Satellite { sat: 22, ..Satellite::default() };
    /// let common = EphemerisCommon { sid, valid: 1, ..EphemerisCommon::default() };
    /// assert_eq!(common.row(), [22, 0, 0, 0, 0, 0, 0, 1, 0]);
    /// ```
    EphemerisCommon {
        /// Of which satellite.
        sid: Satellite,
        /// The time that it is for.
        toe: TimeOfWeek,
        /// User range accuracy in m.
        ura: f64,
        /// For how long it holds, in s.
        fit_interval: u32,
        /// 1 where it is valid, else 0.
        valid: u8,
        /// Of GPS as in ICD-GPS-200, 20.3.3.3.1.4, of others 0 where the
        /// satellite is healthy.
        health: u8,
    }
}

rowed! {
    /// Where a satellite is and how it moves: x, y and z of each.
    ///
    /// ```
    /// use yaqtumeer::Motion;
    ///
    /// let still = Motion { pos: [7003000.0, -12206626.0, 21280765.5], ..Motion::default() };
    /// assert_eq!(still.row()[3..], [0; 6]);
    /// ```
    Motion {
        /// Position in m.
        pos: [f64; 3],
        /// Velocity in m/s.
        vel: [f64; 3],
        /// Acceleration in m/s^2.
        acc: [f64; 3],
    }
}

message! {
    /// The orbit and the clock of a GPS satellite, as in ICD-GPS-200, table 20-III.
    ///
    /// `==` compares doubles as numbers: a NaN equals nothing. Compare
    /// [`row`](EphemerisGps::row)s for equality to the bit.
    ///
    /// ```
    /// use yaqtumeer::{EphemerisGps, Writer};
    ///
    /// let orbit = EphemerisGps { sqrta: 5153.7, ecc: 0.0125, iodc: 257, ..EphemerisGps::default() };
    /// let frame = orbit.frame(Writer::new(1228)).unwrap();
    /// assert_eq!(EphemerisGps::read(&frame[6..191]), Ok(orbit));
    /// ```
    EphemerisGps = 0x0081, "MSG_EPHEMERIS_GPS" {
        /// Satellite, time and validity.
        common: EphemerisCommon,
        /// Group delay between L1 and L2 in s.
        tgd: f64,
        /// Sine correction to the orbit's radius in m.
        c_rs: f64,
        /// Cosine correction to the orbit's radius in m.
        c_rc: f64,
        /// Cosine correction to the argument of latitude in rad.
        c_uc: f64,
        /// Sine correction to the argument of latitude in rad.
        c_us: f64,
        /// Cosine correction to the inclination in rad.
        c_ic: f64,
        /// Sine correction to the inclination in rad.
        c_is: f64,
        /// Difference of the mean motion in rad/s.
        dn: f64,
        /// Mean anomaly at the reference time in rad.
        m0: f64,
        /// Eccentricity.
        ecc: f64,
        /// Square root of the semi-major axis in m^(1/2).
        sqrta: f64,
        /// Longitude of the ascending node at the weekly epoch in rad.
        omega0: f64,
        /// Rate of the right ascension in rad/s.
        omegadot: f64,
        /// Argument of perigee in rad.
        w: f64,
        /// Inclination in rad.
        inc: f64,
        /// Rate of the inclination in rad/s.
        inc_dot: f64,
        /// Bias of the clock in s.
        af0: f64,
        /// Drift of the clock in s/s.
        af1: f64,
        /// Rate of the clock's drift in s/s^2.
        af2: f64,
        /// The time that the clock's numbers are for.
        toc: TimeOfWeek,
        /// Issue of the ephemeris.
        iode: u8,
        /// Issue of the clock's numbers.
        iodc: u16,
    }
}

message! {
    /// The orbit and the clock of an SBAS satellite.
    ///
    /// `==` compares doubles as numbers: a NaN equals nothing. Compare
    /// [`row`](EphemerisSbas::row)s for equality to the bit.
    ///
    /// ```
    /// use yaqtumeer::{EphemerisSbas, Motion, Writer};
    ///
    /// let motion = Motion { vel: [0.5, -0.25, 1.0], ..Motion::default() };
    /// let orbit = EphemerisSbas { motion, a_gf0: -1e-7, ..EphemerisSbas::default() };
    /// let frame = orbit.frame(Writer::new(1228)).unwrap();
    /// assert_eq!(EphemerisSbas::read(&frame[6..118]), Ok(orbit));
    /// ```
    EphemerisSbas = 0x0082, "MSG_EPHEMERIS_SBAS" {
        /// Satellite, time and validity.
        common: EphemerisCommon,
        /// At the time that the ephemeris is for.
        motion: Motion,
        /// Offset of the clock from SBAS's network time in s.
        a_gf0: f64,
        /// Drift of the clock from SBAS's network time in s/s.
        a_gf1: f64,
    }
}

message! {
    /// The orbit and the clock of a GLONASS satellite.
    ///
    /// `==` compares doubles as numbers: a NaN equals nothing. Compare
    /// [`row`](EphemerisGlo::row)s for equality to the bit.
    ///
    /// ```
    /// use yaqtumeer::{EphemerisGlo, Motion, Writer};
    ///
    /// let motion = Motion { acc: [0.0, 1.8e-6, -2.7e-6], ..Motion::default() };
    /// let orbit = EphemerisGlo { tau: 2.5e-5, motion, ..EphemerisGlo::default() };
    /// let frame = orbit.frame(Writer::new(1228)).unwrap();
    /// assert_eq!(EphemerisGlo::read(&frame[6..118]), Ok(orbit));
    /// ```
    EphemerisGlo = 0x0083, "MSG_EPHEMERIS_GLO" {
        /// Satellite, time and validity.
        common: EphemerisCommon,
        /// By how much of the nominal the predicted carrier frequency is off.
        gamma: f64,
        /// Correction to the satellite's time in s.
        tau: f64,
        /// In PZ-90.02.
        motion: Motion,
    }
}

message! {
    /// What tells the delay in the ionosphere, as in ICD-GPS-200, 20.3.3.5.1.7.
    ///
    /// `==` compares doubles as numbers: a NaN equals nothing. Compare
    /// [`row`](Iono::row)s for equality to the bit.
    ///
    /// ```
    /// use yaqtumeer::{Iono, Writer};
    ///
    /// let iono = Iono { a: [4.6e-9, 1.4e-8, -5.9e-8, -1.1e-7], ..Iono::default() };
    /// let frame = iono.frame(Writer::new(1228)).unwrap();
    /// assert_eq!(Iono::read(&frame[6..76]), Ok(iono));
    /// ```
    Iono = 0x0090, "MSG_IONO" {
        /// Its time.
        t_nmct: TimeOfWeek,
        /// a0 to a3: in s, s/semicircle, s/semicircle^2 and s/semicircle^3.
        a: [f64; 4],
        /// b0 to b3, in the same.
        b: [f64; 4],
    }
}

message! {
    /// What GPS's satellites can send.
    ///
    /// ```
    /// use yaqtumeer::SvConfigurationGps;
    ///
    /// let told = SvConfigurationGps::read(&[0, 0, 0, 0, 0, 0, 1, 0, 0, 0x80]).unwrap();
    /// assert_eq!(told.l2c_mask, 1 << 31 | 1);
    /// ```
    #[derive(Eq, Hash)]
    SvConfigurationGps = 0x0091, "MSG_SV_CONFIGURATION_GPS" {
        /// Its time.
        t_nmct: TimeOfWeek,
        /// Who sends L2C: satellite 1 in the lowest bit, 32 in the highest.
        l2c_mask: u32,
    }
}

message! {
    /// Group delays of a satellite, in 2^-35 s.
    ///
    /// ```
    /// use yaqtumeer::{GroupDelay, Writer};
    ///
    /// let delay = GroupDelay { prn: 22, valid: 7, tgd: -3, ..GroupDelay::default() };
    /// assert_eq!(delay.row()[2..5], [22, 7, -3_i64 as u64]);
    /// let frame = delay.frame(Writer::new(1228)).unwrap();
    /// assert_eq!(GroupDelay::read(&frame[6..20]), Ok(delay));
    /// ```
    #[derive(Eq, Hash)]
    GroupDelay = 0x0092, "MSG_GROUP_DELAY" {
        /// Its time.
        t_op: TimeOfWeek,
        /// The satellite's number.
        prn: u8,
        /// Which of the delays hold, in order from the lowest bit on.
        valid: u8,
        /// Between L1 and L2.
        tgd: i16,
        /// Inter-signal correction of L1 C/A.
        isc_l1ca: i16,
        /// Inter-signal correction of L2C.
        isc_l2c: i16,
    }
}
