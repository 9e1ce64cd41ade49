//! Voltages at the pins, and what they are compared with (02, A1).

/// A voltage.
#[derive(Clone, Copy, Debug, PartialEq, Eq, PartialOrd, Ord)]
pub struct Millivolts(pub u16);

impl Millivolts {
    pub const NONE: Self = Millivolts(0);
    /// VBUSOK's threshold; the 4.5 V that 004 also prints does not hold (02, A1).
    pub const VBUS_OK: Self = Millivolts(4_000);
    /// The steps of BC_LVL, lowest first.
    const BC_LVL_STEPS: [Self; 3] = [Millivolts(200), Millivolts(660), Millivolts(1_230)];

    /// BC_LVL of a CC pin: how many steps the voltage has reached.
    pub fn bc_lvl(self) -> u8 {
        Self::BC_LVL_STEPS
            .iter()
            .map(|&step| u8::from(self >= step))
            .sum()
    }
}

/// What MDAC says, 0 to 63. A code is not a voltage (02, A1), and becomes one only here.
#[derive(Clone, Copy, Debug, PartialEq, Eq)]
pub struct MdacCode(u8);

impl MdacCode {
    const BITS: u8 = 0x3F;
    const CC_STEP: u16 = 42;
    const VBUS_STEP: u16 = 420;

    /// The code in a value of Measure.
    pub const fn of(measure: u8) -> Self {
        MdacCode(measure & Self::BITS)
    }

    /// What a CC pin is compared with.
    pub const fn cc_reference(self) -> Millivolts {
        self.times(Self::CC_STEP)
    }

    /// What VBUS is compared with.
    pub const fn vbus_reference(self) -> Millivolts {
        self.times(Self::VBUS_STEP)
    }

    const fn times(self, step: u16) -> Millivolts {
        Millivolts(step * (self.0 as u16 + 1))
    }
}

/// What stands at the three pins.
#[derive(Clone, Copy)]
pub struct Pins {
    pub cc1: Millivolts,
    pub cc2: Millivolts,
    pub vbus: Millivolts,
}

impl Pins {
    pub const AT_POWER_UP: Self = Pins {
        cc1: Millivolts::NONE,
        cc2: Millivolts::NONE,
        vbus: Millivolts::NONE,
    };
}

#[cfg(test)]
mod tests {
    use super::*;

    #[test]
    fn bc_lvl_steps() {
        for (voltage, level) in [
            (0, 0),
            (199, 0),
            (200, 1),
            (201, 1),
            (659, 1),
            (660, 2),
            (661, 2),
            (1_229, 2),
            (1_230, 3),
            (1_231, 3),
            (u16::MAX, 3),
        ] {
            assert_eq!(Millivolts(voltage).bc_lvl(), level, "{voltage}");
        }
    }

    #[test]
    fn references_of_every_code() {
        for code in 0..=63 {
            let steps = u16::from(code) + 1;
            assert_eq!(MdacCode::of(code).cc_reference(), Millivolts(42 * steps));
            assert_eq!(MdacCode::of(code).vbus_reference(), Millivolts(420 * steps));
        }
    }

    #[test]
    fn references_as_004_lists_them() {
        for (code, cc, vbus) in [
            (0x00, 42, 420),
            (0x01, 84, 840),
            (0x30, 2_058, 20_580),
            (0x33, 2_184, 21_840),
            (0x3E, 2_646, 26_460),
            (0x3F, 2_688, 26_880),
        ] {
            assert_eq!(MdacCode::of(code).cc_reference(), Millivolts(cc));
            assert_eq!(MdacCode::of(code).vbus_reference(), Millivolts(vbus));
        }
    }

    #[test]
    fn code_is_the_low_six_bits_of_measure() {
        for measure in 0..=255 {
            assert_eq!(MdacCode::of(measure), MdacCode(measure % 64));
        }
    }
}
