//! Time, positions, baselines and velocities.

message! {
    /// GPS time.
    ///
    /// ```
    /// use yaqtumeer::{GpsTime, Refusal, Writer};
    ///
    /// let time = GpsTime { wn: 1900, tow: 416300400, ns: -250000, flags: 0 };
    /// let frame = time.frame(Writer::new(1228)).unwrap();
    /// assert_eq!(GpsTime::read(&frame[6..17]), Ok(time));
    /// let late = GpsTime { ns: 500001, ..time };
    /// assert_eq!(late.frame(Writer::new(1228)), Err(Refusal::OutOfRange));
    /// ```
    #[derive(Eq, Hash)]
    GpsTime = 0x0100, "MSG_GPS_TIME" {
        /// Week.
        wn: u16,
        /// Time of week in ms, rounded.
        tow: u32,
        /// What the rounding left in ns, from -500000 to 500000.
        ns: i32,
        /// Reserved.
        flags: u8,
    }
}

message! {
    /// Dilution of precision, in 1/100.
    ///
    /// ```
    /// use yaqtumeer::Dops;
    ///
    /// let dops = Dops { tow: 1000, gdop: 210, pdop: 180, tdop: 110, hdop: 90, vdop: 150 };
    /// assert_eq!(dops.row(), [1000, 210, 180, 110, 90, 150]);
    /// ```
    #[derive(Eq, Hash)]
    Dops = 0x0206, "MSG_DOPS" {
        /// Time of week in ms.
        tow: u32,
        /// Geometric.
        gdop: u16,
        /// Of the position.
        pdop: u16,
        /// Of the time.
        tdop: u16,
        /// Horizontal.
        hdop: u16,
        /// Vertical.
        vdop: u16,
    }
}

message! {
    /// A position in Earth-centred, Earth-fixed coordinates.
    ///
    /// `==` compares doubles as numbers: a NaN equals nothing. Compare
    /// [`row`](PosEcef::row)s for equality to the bit.
    ///
    /// ```
    /// use yaqtumeer::{Fix, PosEcef, Writer};
    ///
    /// let place = PosEcef { x: -2704375.5, flags: 2, ..PosEcef::default() };
    /// let read = PosEcef::read(&place.frame(Writer::new(1228)).unwrap()[6..38]).unwrap();
    /// assert_eq!((read.x, read.fix()), (-2704375.5, Fix::Fixed));
    /// ```
    PosEcef = 0x0200, "MSG_POS_ECEF" {
        /// Time of week in ms.
        tow: u32,
        /// X in m.
        x: f64,
        /// Y in m.
        y: f64,
        /// Z in m.
        z: f64,
        /// Estimated accuracy in mm.
        accuracy: u16,
        /// Satellites used.
        n_sats: u8,
        /// Fix mode in the lowest three bits (0 to 2), RAIM in the next two.
        flags: u8,
    }
}

fixed! { PosEcef: fixed 0x02, available 0x08, repaired 0x10 }

message! {
    /// A geodetic position.
    ///
    /// `==` compares doubles as numbers: a NaN equals nothing. Compare
    /// [`row`](PosLlh::row)s for equality to the bit.
    ///
    /// ```
    /// use yaqtumeer::{Fix, PosLlh, Writer};
    ///
    /// let place = PosLlh { lat: 37.7749, lon: -122.4194, flags: 1, ..PosLlh::default() };
    /// let read = PosLlh::read(&place.frame(Writer::new(1228)).unwrap()[6..40]).unwrap();
    /// assert_eq!((read.lon, read.fix()), (-122.4194, Fix::Fixed));
    /// ```
    PosLlh = 0x0201, "MSG_POS_LLH" {
        /// Time of week in ms.
        tow: u32,
        /// Latitude in degrees.
        lat: f64,
        /// Longitude in degrees.
        lon: f64,
        /// Height in m, above what [`above_sea`](PosLlh::above_sea) says.
        height: f64,
        /// Estimated horizontal accuracy in mm.
        h_accuracy: u16,
        /// Estimated vertical accuracy in mm.
        v_accuracy: u16,
        /// Satellites used.
        n_sats: u8,
        /// Fix mode in the lowest three bits (0 to 2), the height's mode in the
        /// next, RAIM in the next two.
        flags: u8,
    }
}

fixed! { PosLlh: fixed 0x01, available 0x10, repaired 0x20 }

impl PosLlh {
    /// Whether the height is above mean sea level, and not above the ellipsoid.
    ///
    /// ```
    /// use yaqtumeer::PosLlh;
    ///
    /// assert!(PosLlh { flags: 0x08, ..PosLlh::default() }.above_sea());
    /// ```
    pub fn above_sea(&self) -> bool {
        crate::flags::above_sea(PosLlh::KIND, self.flags)
    }
}

message! {
    /// The way from the base to the rover in Earth-centred, Earth-fixed
    /// coordinates.
    ///
    /// ```
    /// use yaqtumeer::{BaselineEcef, Frames, Message, Writer};
    ///
    /// // the example of the published protocol
    /// let capture = [
    ///     0x55, 0x02, 0x02, 0xcc, 0x04, 0x14, 0x70, 0x3d, 0xd0, 0x18, 0xcf, 0xef, 0xff, 0xff,
    ///     0xef, 0xe8, 0xff, 0xff, 0xf0, 0x18, 0x00, 0x00, 0x00, 0x00, 0x05, 0x00, 0x43, 0x94,
    /// ];
    /// let frame = Frames::closed(&capture).next().unwrap();
    /// let Ok(Message::BaselineEcef(way)) = frame.message() else { panic!("it is one") };
    /// assert_eq!((way.tow, way.x, way.y, way.z), (416300400, -4145, -5905, 6384));
    /// assert_eq!(way.frame(Writer::new(frame.sender)).unwrap(), capture);
    /// ```
    #[derive(Eq, Hash)]
    BaselineEcef = 0x0202, "MSG_BASELINE_ECEF" {
        /// Time of week in ms.
        tow: u32,
        /// X in mm.
        x: i32,
        /// Y in mm.
        y: i32,
        /// Z in mm.
        z: i32,
        /// Estimated accuracy in mm.
        accuracy: u16,
        /// Satellites used.
        n_sats: u8,
        /// Fix mode in the lowest three bits (0 or 1), RAIM in the next two.
        flags: u8,
    }
}

fixed! { BaselineEcef: fixed 0x01, available 0x08, repaired 0x10 }

message! {
    /// The way from the base to the rover, to the north, the east and down.
    ///
    /// ```
    /// use yaqtumeer::{BaselineNed, Writer};
    ///
    /// let way = BaselineNed { n: 1500, e: -20, d: 7, n_sats: 9, ..BaselineNed::default() };
    /// assert_eq!(BaselineNed::read(&way.frame(Writer::new(1228)).unwrap()[6..28]), Ok(way));
    /// ```
    #[derive(Eq, Hash)]
    BaselineNed = 0x0203, "MSG_BASELINE_NED" {
        /// Time of week in ms.
        tow: u32,
        /// North in mm.
        n: i32,
        /// East in mm.
        e: i32,
        /// Down in mm.
        d: i32,
        /// Estimated horizontal accuracy in mm.
        h_accuracy: u16,
        /// Estimated vertical accuracy in mm.
        v_accuracy: u16,
        /// Satellites used.
        n_sats: u8,
        /// Fix mode in the lowest three bits (0 or 1), RAIM in the next two.
        flags: u8,
    }
}

fixed! { BaselineNed: fixed 0x01, available 0x08, repaired 0x10 }

message! {
    /// A velocity in Earth-centred, Earth-fixed coordinates.
    ///
    /// ```
    /// use yaqtumeer::{VelEcef, Writer};
    ///
    /// let speed = VelEcef { tow: 1000, x: -30, y: 40, z: 0, ..VelEcef::default() };
    /// assert_eq!(VelEcef::read(&speed.frame(Writer::new(1228)).unwrap()[6..26]), Ok(speed));
    /// ```
    #[derive(Eq, Hash)]
    VelEcef = 0x0204, "MSG_VEL_ECEF" {
        /// Time of week in ms.
        tow: u32,
        /// X in mm/s.
        x: i32,
        /// Y in mm/s.
        y: i32,
        /// Z in mm/s.
        z: i32,
        /// Estimated accuracy in mm/s.
        accuracy: u16,
        /// Satellites used.
        n_sats: u8,
        /// Reserved.
        flags: u8,
    }
}

message! {
    /// A velocity to the north, the east and down.
    ///
    /// ```
    /// use yaqtumeer::{VelNed, Writer};
    ///
    /// let speed = VelNed { tow: 1000, n: -30, e: 40, d: 1, ..VelNed::default() };
    /// assert_eq!(VelNed::read(&speed.frame(Writer::new(1228)).unwrap()[6..28]), Ok(speed));
    /// ```
    #[derive(Eq, Hash)]
    VelNed = 0x0205, "MSG_VEL_NED" {
        /// Time of week in ms.
        tow: u32,
        /// North in mm/s.
        n: i32,
        /// East in mm/s.
        e: i32,
        /// Down in mm/s.
        d: i32,
        /// Estimated horizontal accuracy in mm/s.
        h_accuracy: u16,
        /// Estimated vertical accuracy in mm/s.
        v_accuracy: u16,
        /// Satellites used.
        n_sats: u8,
        /// Reserved.
        flags: u8,
    }
}

message! {
    /// The heading from the base to the rover.
    ///
    /// ```
    /// use yaqtumeer::{BaselineHeading, Fix};
    ///
    /// let east = BaselineHeading { tow: 1000, heading: 90000, n_sats: 8, flags: 1 };
    /// assert_eq!(east.fix(), Fix::Fixed);
    /// ```
    #[derive(Eq, Hash)]
    BaselineHeading = 0x0207, "MSG_BASELINE_HEADING" {
        /// Time of week in ms.
        tow: u32,
        /// From true north in 1/1000 degree.
        heading: u32,
        /// Satellites used.
        n_sats: u8,
        /// Fix mode in the lowest three bits (0 or 1), RAIM in the next two.
        flags: u8,
    }
}

fixed! { BaselineHeading: fixed 0x01, available 0x08, repaired 0x10 }
