//! The device: registers, FIFOs, the open request, time and packets (01 'Registers' to 'Numbers of no'), the comparators on
//! the pins (02, A1), the Soft_Reset on the kind that was silent (02, A2), and why a packet gets no GoodCRC (02, A5).

use crate::line::{crc32, Control, Frame, Header, Kind, Roles, CRC_LENGTH};
use crate::pins::{MdacCode, Millivolts, Pins};
use std::mem;
use std::ops::RangeInclusive;

// Addresses.
const DEVICE_ID: u8 = 0x01;
const SWITCHES0: u8 = 0x02;
const SWITCHES1: u8 = 0x03;
const MEASURE: u8 = 0x04;
const SLICE: u8 = 0x05;
const CONTROL0: u8 = 0x06;
const CONTROL1: u8 = 0x07;
const CONTROL2: u8 = 0x08;
const CONTROL3: u8 = 0x09;
const MASK: u8 = 0x0A;
const POWER: u8 = 0x0B;
const RESET: u8 = 0x0C;
const OCPREG: u8 = 0x0D;
const MASKA: u8 = 0x0E;
const MASKB: u8 = 0x0F;
const CONTROL4: u8 = 0x10;
const STATUS0A: u8 = 0x3C;
const STATUS1A: u8 = 0x3D;
const INTERRUPTA: u8 = 0x3E;
const INTERRUPTB: u8 = 0x3F;
const STATUS0: u8 = 0x40;
const STATUS1: u8 = 0x41;
const INTERRUPT: u8 = 0x42;
const FIFOS: u8 = 0x43;

/// What the Device ID register always reads.
const FUSB302B_REVISION_B: u8 = 0x91;

/// The stored registers: address, reset value, stored bits, in the order of 01 'Registers'.
const STORED_REGISTERS: [(u8, u8, u8); 15] = [
    (SWITCHES0, 0x03, 0xFF),
    (SWITCHES1, 0x20, 0xF7),
    (MEASURE, 0x31, 0x7F),
    (SLICE, 0x60, 0xFF),
    (CONTROL0, 0x24, 0x2E),
    (CONTROL1, 0x00, 0x73),
    (CONTROL2, 0x02, 0xEF),
    (CONTROL3, 0x06, 0x3F),
    (MASK, 0x00, 0xFF),
    (POWER, 0x01, 0x0F),
    (RESET, 0x00, 0x00),
    (OCPREG, 0x0F, 0x0F),
    (MASKA, 0x00, 0xFF),
    (MASKB, 0x00, 0x01),
    (CONTROL4, 0x00, 0x01),
];

/// One octet for each address up to Control4; those of 00 and 01 are not used.
type Registers = [u8; CONTROL4 as usize + 1];

/// Reset values and stored bits by address.
const RESET_VALUES: Registers = by_address().0;
const STORED_BITS: Registers = by_address().1;

const fn by_address() -> (Registers, Registers) {
    let mut reset_values = [0; CONTROL4 as usize + 1];
    let mut stored_bits = reset_values;
    let mut row = 0;
    while row < STORED_REGISTERS.len() {
        let (address, reset_value, stored) = STORED_REGISTERS[row];
        reset_values[address as usize] = reset_value;
        stored_bits[address as usize] = stored;
        row += 1;
    }
    (reset_values, stored_bits)
}

// Switches0.
const MEAS_CC2: u8 = 0x08;
const MEAS_CC1: u8 = 0x04;

// Switches1.
const POWER_ROLE: u8 = 0x80;
const SPEC_REV_SHIFT: u32 = 5;
const DATA_ROLE: u8 = 0x10;
const AUTO_CRC: u8 = 0x04;
const TXCC2: u8 = 0x02;
const TXCC1: u8 = 0x01;

// Measure.
const MEAS_VBUS: u8 = 0x40;

// Control0.
const TX_FLUSH: u8 = 0x40;
const INT_MASK: u8 = 0x20;
const AUTO_PRE: u8 = 0x02;
const TX_START: u8 = 0x01;

// Control1.
const ENSOP2DB: u8 = 0x40;
const ENSOP1DB: u8 = 0x20;
const RX_FLUSH: u8 = 0x04;
const ENSOP2: u8 = 0x02;
const ENSOP1: u8 = 0x01;

// Control3.
const SEND_HARD_RESET: u8 = 0x40;
const AUTO_HARDRESET: u8 = 0x10;
const AUTO_SOFTRESET: u8 = 0x08;
const N_RETRIES_SHIFT: u32 = 1;
const AUTO_RETRY: u8 = 0x01;

// Power: PWR[2], without which the measure block is off.
const PWR_MEASURE: u8 = 0x04;

// Reset.
const PD_RESET: u8 = 0x02;
const SW_RES: u8 = 0x01;

// Status0a.
const SOFTFAIL: u8 = 0x20;
const RETRYFAIL: u8 = 0x10;
const SOFTRST: u8 = 0x02;
const HARDRST: u8 = 0x01;

// Status1a.
const RXSOP2DB: u8 = 0x04;
const RXSOP1DB: u8 = 0x02;
const RXSOP: u8 = 0x01;

// Interrupta.
const I_SOFTFAIL: u8 = 0x20;
const I_RETRYFAIL: u8 = 0x10;
const I_HARDSENT: u8 = 0x08;
const I_TXSENT: u8 = 0x04;
const I_SOFTRST: u8 = 0x02;
const I_HARDRST: u8 = 0x01;

// Interruptb.
const I_GCRCSENT: u8 = 0x01;

// Status0; BC_LVL is its two lowest bits.
const VBUSOK: u8 = 0x80;
const COMP: u8 = 0x20;
const CRC_CHK: u8 = 0x10;
const ALERT: u8 = 0x08;

// Status1.
const RXSOP2: u8 = 0x80;
const RXSOP1: u8 = 0x40;
const RX_EMPTY: u8 = 0x20;
const RX_FULL: u8 = 0x10;
const TX_EMPTY: u8 = 0x08;
const TX_FULL: u8 = 0x04;

// Interrupt.
const I_VBUSOK: u8 = 0x80;
const I_COMP_CHNG: u8 = 0x20;
const I_CRC_CHK: u8 = 0x10;
const I_ALERT: u8 = 0x08;
const I_BC_LVL: u8 = 0x01;

/// A refused event, by its number in 01; 12 is missing because a `Frame` has room for every frame.
#[derive(Clone, Copy, Debug, PartialEq, Eq)]
pub enum Refusal {
    NoSuchAddress = 1,
    ReadOnly = 2,
    NoToken = 3,
    NotAMessage = 4,
    QueueFull = 5,
    RequestOpen = 6,
    DriverOff = 7,
    NothingHeld = 8,
    LengthOutside = 9,
    TimeTooLong = 10,
    NoSuchKind = 11,
}

/// Why no GoodCRC answers a packet, in the order of 02, A5; or that one leaves.
#[derive(Clone, Copy, Debug, PartialEq, Eq)]
pub enum Why {
    NoSuchKind,
    LengthOutside,
    KindOff,
    CrcWrong,
    NoRoom,
    ItIsAGoodCrc,
    AutoCrcOff,
    AutoPreOn,
    DriverOff,
    Leaves,
}

impl Why {
    pub const fn text(self) -> &'static str {
        match self {
            Why::NoSuchKind => "refused 11",
            Why::LengthOutside => "refused 9",
            Why::KindOff => "kind off",
            Why::CrcWrong => "CRC wrong",
            Why::NoRoom => "no room",
            Why::ItIsAGoodCrc => "it is a GoodCRC",
            Why::AutoCrcOff => "AUTO_CRC off",
            Why::AutoPreOn => "AUTO_PRE on",
            Why::DriverOff => "driver off",
            Why::Leaves => "leaves",
        }
    }
}

/// The transmit queue; it only ever grows by an octet or empties, so the block under way is one number.
struct TransmitQueue {
    octets: [u8; Self::CAPACITY],
    held: usize,
    /// How many data octets the counted block at the end still lacks.
    data_lacking: u8,
}

impl TransmitQueue {
    const CAPACITY: usize = 48;

    const SYNC_1: u8 = 0x12;
    const SYNC_2: u8 = 0x13;
    const SYNC_3: u8 = 0x1B;
    const RST_1: u8 = 0x15;
    const RST_2: u8 = 0x16;
    const SHORTEST_BLOCK: u8 = 0x82;
    const LONGEST_BLOCK: u8 = 0x9E;
    const BLOCK_COUNT: u8 = 0x1F;
    const JAM_CRC: u8 = 0xFF;
    const EOP: u8 = 0x14;
    const TX_OFF: u8 = 0xFE;
    const TX_ON: u8 = 0xA1;

    const fn empty() -> Self {
        TransmitQueue {
            octets: [0; Self::CAPACITY],
            held: 0,
            data_lacking: 0,
        }
    }

    fn clear(&mut self) {
        self.held = 0;
        self.data_lacking = 0;
    }

    const fn is_empty(&self) -> bool {
        self.held == 0
    }

    const fn is_full(&self) -> bool {
        self.held == Self::CAPACITY
    }

    const fn is_inside_block(&self) -> bool {
        self.data_lacking > 0
    }

    const fn opens_block(token: u8) -> bool {
        matches!(token, Self::SHORTEST_BLOCK..=Self::LONGEST_BLOCK)
    }

    const fn is_token(octet: u8) -> bool {
        Self::opens_block(octet)
            || matches!(
                octet,
                Self::SYNC_1
                    | Self::SYNC_2
                    | Self::SYNC_3
                    | Self::RST_1
                    | Self::RST_2
                    | Self::JAM_CRC
                    | Self::EOP
                    | Self::TX_OFF
                    | Self::TX_ON
            )
    }

    fn store(&mut self, octet: u8) {
        self.octets[self.held] = octet;
        self.held += 1;
        self.data_lacking = if self.is_inside_block() {
            // Data is data even where it looks like a token (01 'The transmit queue').
            self.data_lacking - 1
        } else if Self::opens_block(octet) {
            octet & Self::BLOCK_COUNT
        } else {
            0
        };
    }

    /// The message the queue holds: a SOP set, one complete block, CRC, EOP, driver off, and no more.
    fn message(&self) -> Option<(Kind, &[u8])> {
        let (set, block) = self.octets[..self.held].split_first_chunk()?;
        let kind = Self::kind(*set)?;
        let (&token, rest) = block.split_first()?;
        if !Self::opens_block(token) {
            return None;
        }
        let (message, end) = rest.split_at_checked(usize::from(token & Self::BLOCK_COUNT))?;
        (end == [Self::JAM_CRC, Self::EOP, Self::TX_OFF]).then_some((kind, message))
    }

    const fn kind(set: [u8; 4]) -> Option<Kind> {
        match set {
            [Self::SYNC_1, Self::SYNC_1, Self::SYNC_1, Self::SYNC_2] => Some(Kind::Sop),
            [Self::SYNC_1, Self::SYNC_1, Self::SYNC_3, Self::SYNC_3] => Some(Kind::Sop1),
            [Self::SYNC_1, Self::SYNC_3, Self::SYNC_1, Self::SYNC_3] => Some(Kind::Sop2),
            [Self::SYNC_1, Self::RST_2, Self::RST_2, Self::SYNC_3] => Some(Kind::Sop1Db),
            [Self::SYNC_1, Self::RST_2, Self::SYNC_3, Self::SYNC_2] => Some(Kind::Sop2Db),
            _ => None,
        }
    }
}

/// The receive FIFO; packets go in whole and octets come out singly.
struct ReceiveFifo {
    octets: [u8; Self::CAPACITY],
    first: usize,
    end: usize,
}

impl ReceiveFifo {
    const CAPACITY: usize = 80;

    const fn empty() -> Self {
        ReceiveFifo {
            octets: [0; Self::CAPACITY],
            first: 0,
            end: 0,
        }
    }

    fn clear(&mut self) {
        self.first = 0;
        self.end = 0;
    }

    const fn held(&self) -> usize {
        self.end - self.first
    }

    const fn is_empty(&self) -> bool {
        self.held() == 0
    }

    const fn is_full(&self) -> bool {
        self.held() == Self::CAPACITY
    }

    /// Whether these octets fit behind their token.
    const fn has_room(&self, octets: &[u8]) -> bool {
        self.held() + 1 + octets.len() <= Self::CAPACITY
    }

    /// Stores token and octets if all of them fit, and says whether they did.
    fn store(&mut self, token: u8, octets: &[u8]) -> bool {
        if !self.has_room(octets) {
            return false;
        }
        let more = 1 + octets.len();
        if self.end + more > Self::CAPACITY {
            self.octets.copy_within(self.first..self.end, 0);
            self.end -= self.first;
            self.first = 0;
        }
        self.octets[self.end] = token;
        self.octets[self.end + 1..self.end + more].copy_from_slice(octets);
        self.end += more;
        true
    }

    fn take(&mut self) -> Option<u8> {
        let oldest = *self.octets[..self.end].get(self.first)?;
        self.first += 1;
        Some(oldest)
    }
}

/// What a request is trying to have acknowledged.
enum Phase {
    Message,
    SoftReset,
}

/// An open request, with what its start latched.
struct Request {
    switches1: u8,
    retries: u8,
    auto_softreset: bool,
    auto_hardreset: bool,
    phase: Phase,
    /// The kind of the message, and of the Soft_Reset that follows it (02, A2).
    kind: Kind,
    /// The frame in flight, and the MessageID of the GoodCRC it awaits.
    frame: Frame,
    message_id: u8,
    retries_sent: u8,
    microseconds_waited: u32,
}

impl Request {
    fn awaits(&self, kind: Kind, message_id: u8) -> bool {
        self.kind == kind && self.message_id == message_id
    }
}

/// What the comparators say of the pins.
struct Readings {
    vbusok: bool,
    comp: bool,
    bc_lvl: u8,
}

pub struct Device {
    registers: Registers,
    pins: Pins,
    status0a: u8,
    interrupta: u8,
    interruptb: u8,
    interrupt: u8,
    crc_chk: bool,
    last_stored: Option<Kind>,
    tx: TransmitQueue,
    rx: ReceiveFifo,
    request: Option<Request>,
}

impl Device {
    /// How long a frame waits for its GoodCRC, in microseconds.
    const WAIT: u32 = 1_000;
    /// The longest time event; at most one wait runs out in it, since the one under way is below `WAIT`.
    const LONGEST_TIME: u32 = 1_000;
    /// Lengths of packets heard, CRC included.
    const PACKET_LENGTHS: RangeInclusive<usize> = 6..=34;

    pub const fn power_up() -> Self {
        Device {
            registers: RESET_VALUES,
            pins: Pins::AT_POWER_UP,
            status0a: 0,
            interrupta: 0,
            interruptb: 0,
            interrupt: 0,
            crc_chk: false,
            last_stored: None,
            tx: TransmitQueue::empty(),
            rx: ReceiveFifo::empty(),
            request: None,
        }
    }

    /// The level of INT_N: low when an interrupt is set that no mask covers.
    pub const fn int_n(&self) -> bool {
        let unmasked = self.interrupta & !self.register(MASKA)
            | self.interruptb & !self.register(MASKB)
            | self.interrupt & !self.register(MASK);
        self.has(CONTROL0, INT_MASK) || unmasked == 0
    }

    pub fn read(&mut self, address: u8) -> Result<u8, Refusal> {
        match address {
            DEVICE_ID => Ok(FUSB302B_REVISION_B),
            SWITCHES0..=CONTROL4 => Ok(self.register(address)),
            STATUS0A => Ok(self.status0a),
            STATUS1A => Ok(self.status1a()),
            INTERRUPTA => Ok(mem::take(&mut self.interrupta)),
            INTERRUPTB => Ok(mem::take(&mut self.interruptb)),
            STATUS0 => Ok(self.status0()),
            STATUS1 => Ok(self.status1()),
            INTERRUPT => Ok(mem::take(&mut self.interrupt)),
            FIFOS => self.rx.take().ok_or(Refusal::NothingHeld),
            _ => Err(Refusal::NoSuchAddress),
        }
    }

    /// Writes a register: its command bits act, then its stored bits are kept.
    pub fn write(&mut self, address: u8, value: u8, line: &mut Frame) -> Result<(), Refusal> {
        match address {
            CONTROL0 => self.control0_commands(value, line)?,
            CONTROL1 => self.control1_commands(value),
            CONTROL3 => self.control3_commands(value, line)?,
            RESET => self.reset_commands(value),
            SWITCHES0 | MEASURE | POWER => {
                self.recording_changes(|device| device.store(address, value));
                return Ok(());
            }
            SWITCHES0..=CONTROL4 => {}
            FIFOS => return self.write_fifo(value, line),
            DEVICE_ID | STATUS0A..=INTERRUPT => return Err(Refusal::ReadOnly),
            _ => return Err(Refusal::NoSuchAddress),
        }
        self.store(address, value);
        Ok(())
    }

    /// Puts the pins at these voltages; nothing leaves by it.
    pub fn sense(&mut self, pins: Pins) {
        self.recording_changes(|device| device.pins = pins);
    }

    /// Lets time pass; without an open request that changes nothing.
    pub fn pass(&mut self, microseconds: u32, line: &mut Frame) -> Result<(), Refusal> {
        if microseconds > Self::LONGEST_TIME {
            return Err(Refusal::TimeTooLong);
        }
        if let Some(request) = &mut self.request {
            request.microseconds_waited += microseconds;
            if request.microseconds_waited >= Self::WAIT {
                // The rest of the event counts toward the next wait (01 'The transmit queue').
                request.microseconds_waited -= Self::WAIT;
                self.wait_ran_out(line);
            }
        }
        Ok(())
    }

    pub fn hear_hard_reset(&mut self) {
        self.drop_request();
        self.interrupta |= I_HARDRST;
        self.status0a |= HARDRST;
    }

    /// Hears a packet, CRC included; the steps are in the order of 01 'Packets heard'.
    pub fn hear_packet(
        &mut self,
        kind: u32,
        packet: &[u8],
        line: &mut Frame,
    ) -> Result<(), Refusal> {
        let kind = Kind::numbered(kind).ok_or(Refusal::NoSuchKind)?;
        if !Self::PACKET_LENGTHS.contains(&packet.len()) {
            return Err(Refusal::LengthOutside);
        }
        if !self.is_enabled(kind) {
            return Ok(());
        }
        let (message, crc) = packet.split_at(packet.len() - CRC_LENGTH);
        self.crc_chk = crc_is_right(message, crc);
        if !self.crc_chk {
            return Ok(());
        }
        self.interrupt |= I_CRC_CHK;

        let header = Header::of(message[0], message[1]);
        let control = known_control(header, message.len());
        match control {
            // Done before asking for room: a full FIFO must not lose the end of a request (01 'Tempting').
            Some(Control::GoodCrc) => self.acknowledge(kind, header.message_id()),
            Some(Control::SoftReset) => {
                self.interrupta |= I_SOFTRST;
                self.status0a |= SOFTRST;
            }
            None => {}
        }

        if !self.rx.store(rx_token(kind), packet) {
            self.interrupt |= I_ALERT;
            return Ok(());
        }
        self.last_stored = Some(kind);
        if self.rx.is_full() {
            self.interrupt |= I_ALERT;
        }
        if control != Some(Control::GoodCrc) && self.answers_packets() {
            let roles = roles(self.register(SWITCHES1), kind);
            let reply = Header::control(Control::GoodCrc, roles, header.message_id());
            line.write_message(kind, &reply.octets());
            self.interruptb |= I_GCRCSENT;
        }
        Ok(())
    }

    /// Names the first reason in the order of 02, A5 why no GoodCRC would answer this packet, or says that one leaves.
    pub fn why(&self, kind: u32, packet: &[u8]) -> Why {
        let Some(kind) = Kind::numbered(kind) else {
            return Why::NoSuchKind;
        };
        if !Self::PACKET_LENGTHS.contains(&packet.len()) {
            return Why::LengthOutside;
        }
        if !self.is_enabled(kind) {
            return Why::KindOff;
        }
        let (message, crc) = packet.split_at(packet.len() - CRC_LENGTH);
        if !crc_is_right(message, crc) {
            return Why::CrcWrong;
        }
        if !self.rx.has_room(packet) {
            return Why::NoRoom;
        }
        let header = Header::of(message[0], message[1]);
        if known_control(header, message.len()) == Some(Control::GoodCrc) {
            return Why::ItIsAGoodCrc;
        }
        if !self.has(SWITCHES1, AUTO_CRC) {
            return Why::AutoCrcOff;
        }
        if self.has(CONTROL0, AUTO_PRE) {
            return Why::AutoPreOn;
        }
        if !self.driver_on() {
            return Why::DriverOff;
        }
        Why::Leaves
    }

    fn store(&mut self, address: u8, value: u8) {
        let address = usize::from(address);
        self.registers[address] = value & STORED_BITS[address];
    }

    const fn register(&self, address: u8) -> u8 {
        self.registers[address as usize]
    }

    const fn has(&self, address: u8, bit: u8) -> bool {
        self.register(address) & bit != 0
    }

    const fn status1a(&self) -> u8 {
        match self.last_stored {
            Some(Kind::Sop) => RXSOP,
            Some(Kind::Sop1Db) => RXSOP1DB,
            Some(Kind::Sop2Db) => RXSOP2DB,
            Some(Kind::Sop1 | Kind::Sop2) | None => 0,
        }
    }

    fn status0(&self) -> u8 {
        let readings = self.readings();
        bit_if(readings.vbusok, VBUSOK)
            | bit_if(readings.comp, COMP)
            | bit_if(self.crc_chk, CRC_CHK)
            | bit_if(self.tx.is_full() || self.rx.is_full(), ALERT)
            | readings.bc_lvl
    }

    const fn status1(&self) -> u8 {
        let kind = match self.last_stored {
            Some(Kind::Sop1) => RXSOP1,
            Some(Kind::Sop2) => RXSOP2,
            Some(Kind::Sop | Kind::Sop1Db | Kind::Sop2Db) | None => 0,
        };
        kind | bit_if(self.rx.is_empty(), RX_EMPTY)
            | bit_if(self.rx.is_full(), RX_FULL)
            | bit_if(self.tx.is_empty(), TX_EMPTY)
            | bit_if(self.tx.is_full(), TX_FULL)
    }

    fn readings(&self) -> Readings {
        let measures = self.has(POWER, PWR_MEASURE);
        Readings {
            vbusok: self.pins.vbus >= Millivolts::VBUS_OK,
            comp: measures && self.is_above_mdac(),
            bc_lvl: if measures { self.bc_lvl() } else { 0 },
        }
    }

    /// Whether what is switched to the MDAC's comparator is above its reference; two pins at once or none are not measured.
    fn is_above_mdac(&self) -> bool {
        let code = MdacCode::of(self.register(MEASURE));
        match (self.measured_cc(), self.has(MEASURE, MEAS_VBUS)) {
            ([true, false], false) => self.pins.cc1 >= code.cc_reference(),
            ([false, true], false) => self.pins.cc2 >= code.cc_reference(),
            ([false, false], true) => self.pins.vbus >= code.vbus_reference(),
            _ => false,
        }
    }

    /// BC_LVL with the measure block on; it does not ask what the MDAC measures.
    fn bc_lvl(&self) -> u8 {
        match self.measured_cc() {
            [true, false] => self.pins.cc1.bc_lvl(),
            [false, true] => self.pins.cc2.bc_lvl(),
            [true, true] | [false, false] => 0,
        }
    }

    /// MEAS_CC1 and MEAS_CC2.
    const fn measured_cc(&self) -> [bool; 2] {
        [self.has(SWITCHES0, MEAS_CC1), self.has(SWITCHES0, MEAS_CC2)]
    }

    /// Does what may change a reading, and sets the interrupt of each that changed.
    fn recording_changes(&mut self, act: impl FnOnce(&mut Self)) {
        let before = self.readings();
        act(self);
        let after = self.readings();
        self.interrupt |= bit_if(before.vbusok != after.vbusok, I_VBUSOK)
            | bit_if(before.comp != after.comp, I_COMP_CHNG)
            | bit_if(before.bc_lvl != after.bc_lvl, I_BC_LVL);
    }

    const fn driver_on(&self) -> bool {
        self.has(SWITCHES1, TXCC1) != self.has(SWITCHES1, TXCC2)
    }

    const fn is_enabled(&self, kind: Kind) -> bool {
        match kind {
            Kind::Sop => true,
            Kind::Sop1 => self.has(CONTROL1, ENSOP1),
            Kind::Sop2 => self.has(CONTROL1, ENSOP2),
            Kind::Sop1Db => self.has(CONTROL1, ENSOP1DB),
            Kind::Sop2Db => self.has(CONTROL1, ENSOP2DB),
        }
    }

    const fn answers_packets(&self) -> bool {
        self.has(SWITCHES1, AUTO_CRC) && !self.has(CONTROL0, AUTO_PRE) && self.driver_on()
    }

    fn control0_commands(&mut self, value: u8, line: &mut Frame) -> Result<(), Refusal> {
        let (flush, start) = (value & TX_FLUSH != 0, value & TX_START != 0);
        if start {
            if self.request.is_some() {
                return Err(Refusal::RequestOpen);
            }
            // The flush would leave no message, but a refused write flushes nothing (01 'Registers').
            if flush {
                return Err(Refusal::NotAMessage);
            }
            self.start(line)?;
        } else if flush {
            self.drop_request();
        }
        Ok(())
    }

    fn control1_commands(&mut self, value: u8) {
        if value & RX_FLUSH != 0 {
            self.rx.clear();
        }
    }

    fn control3_commands(&mut self, value: u8, line: &mut Frame) -> Result<(), Refusal> {
        if value & SEND_HARD_RESET != 0 {
            if !self.driver_on() {
                return Err(Refusal::DriverOff);
            }
            self.drop_request();
            self.status0a &= !(SOFTFAIL | RETRYFAIL);
            self.send_hard_reset(line);
        }
        Ok(())
    }

    fn reset_commands(&mut self, value: u8) {
        if value & SW_RES != 0 {
            // The pins are not the device's to reset, and what they read from here on is no change (02, A1).
            *self = Device {
                pins: self.pins,
                ..Self::power_up()
            };
        } else if value & PD_RESET != 0 {
            self.drop_request();
            self.rx.clear();
            self.status0a = 0;
            self.crc_chk = false;
            self.last_stored = None;
        }
    }

    fn write_fifo(&mut self, octet: u8, line: &mut Frame) -> Result<(), Refusal> {
        if self.request.is_some() {
            return Err(Refusal::RequestOpen);
        }
        if !self.tx.is_inside_block() {
            if !TransmitQueue::is_token(octet) {
                return Err(Refusal::NoToken);
            }
            if octet == TransmitQueue::TX_ON {
                return self.start(line);
            }
        }
        if self.tx.is_full() {
            return Err(Refusal::QueueFull);
        }
        self.tx.store(octet);
        if self.tx.is_full() {
            self.interrupt |= I_ALERT;
        }
        Ok(())
    }

    /// Opens a request; it latches nothing of Control0, whose stored bits may therefore follow.
    fn start(&mut self, line: &mut Frame) -> Result<(), Refusal> {
        let (kind, message) = self.tx.message().ok_or(Refusal::NotAMessage)?;
        if !self.driver_on() {
            return Err(Refusal::DriverOff);
        }
        line.write_message(kind, message);
        let retries = if self.has(CONTROL3, AUTO_RETRY) {
            self.register(CONTROL3) >> N_RETRIES_SHIFT & 3
        } else {
            0
        };
        self.request = Some(Request {
            switches1: self.register(SWITCHES1),
            retries,
            auto_softreset: self.has(CONTROL3, AUTO_SOFTRESET),
            auto_hardreset: self.has(CONTROL3, AUTO_HARDRESET),
            phase: Phase::Message,
            kind,
            frame: line.clone(),
            message_id: Header::of(message[0], message[1]).message_id(),
            retries_sent: 0,
            microseconds_waited: 0,
        });
        self.status0a &= !(SOFTFAIL | RETRYFAIL);
        Ok(())
    }

    /// Retries, or fails and goes on to the next reset; all by what was latched, whatever 03 and 09 say now.
    fn wait_ran_out(&mut self, line: &mut Frame) {
        let Some(request) = &mut self.request else {
            return;
        };
        if request.retries_sent < request.retries {
            request.retries_sent += 1;
            line.clone_from(&request.frame);
            return;
        }
        match request.phase {
            Phase::Message => {
                self.interrupta |= I_RETRYFAIL;
                self.status0a |= RETRYFAIL;
                self.tx.clear();
                if request.auto_softreset {
                    let roles = roles(request.switches1, request.kind);
                    let soft_reset = Header::control(Control::SoftReset, roles, 0);
                    line.write_message(request.kind, &soft_reset.octets());
                    request.phase = Phase::SoftReset;
                    request.frame.clone_from(line);
                    request.message_id = 0;
                    request.retries_sent = 0;
                } else {
                    self.request = None;
                }
            }
            Phase::SoftReset => {
                self.interrupta |= I_SOFTFAIL;
                self.status0a |= SOFTFAIL;
                let auto_hardreset = request.auto_hardreset;
                self.request = None;
                if auto_hardreset {
                    self.send_hard_reset(line);
                }
            }
        }
    }

    /// Ends the request well if the GoodCRC heard is the one it awaits.
    fn acknowledge(&mut self, kind: Kind, message_id: u8) {
        if self
            .request
            .as_ref()
            .is_some_and(|request| request.awaits(kind, message_id))
        {
            self.drop_request();
            self.interrupta |= I_TXSENT;
        }
    }

    /// Drops the request, if any, and empties the queue in either case.
    fn drop_request(&mut self) {
        self.request = None;
        self.tx.clear();
    }

    fn send_hard_reset(&mut self, line: &mut Frame) {
        line.write_hard_reset();
        self.interrupta |= I_HARDSENT;
    }
}

fn crc_is_right(message: &[u8], crc: &[u8]) -> bool {
    crc == crc32(message).to_le_bytes()
}

/// A GoodCRC or Soft_Reset is known by type, count of data objects and message length together.
fn known_control(header: Header, message_length: usize) -> Option<Control> {
    if header.data_objects() != 0 || message_length != 2 {
        return None;
    }
    [Control::GoodCrc, Control::SoftReset]
        .into_iter()
        .find(|&control| control as u16 == header.message_type())
}

/// The sender's roles and revision by Switches1; the roles are 0 on all kinds but SOP.
fn roles(switches1: u8, kind: Kind) -> Roles {
    let on_sop = kind == Kind::Sop;
    Roles {
        power: on_sop && switches1 & POWER_ROLE != 0,
        data: on_sop && switches1 & DATA_ROLE != 0,
        revision: switches1 >> SPEC_REV_SHIFT & 3,
    }
}

const fn rx_token(kind: Kind) -> u8 {
    match kind {
        Kind::Sop => 0xE0,
        Kind::Sop1 => 0xC0,
        Kind::Sop2 => 0xA0,
        Kind::Sop1Db => 0x80,
        Kind::Sop2Db => 0x60,
    }
}

const fn bit_if(condition: bool, bit: u8) -> u8 {
    if condition {
        bit
    } else {
        0
    }
}

#[cfg(test)]
mod tests {
    use super::*;
    use std::iter;

    const MESSAGE: [u8; 14] = [
        0x12, 0x12, 0x12, 0x13, 0x86, 0x4F, 0x10, 0x6C, 0xC3, 0xA1, 0x21, 0xFF, 0x14, 0xFE,
    ];

    struct Bench {
        device: Device,
        line: Frame,
    }

    impl Bench {
        fn new(setup: &[(u8, u8)]) -> Self {
            let mut bench = Bench {
                device: Device::power_up(),
                line: Frame::silent(),
            };
            for &(address, value) in setup {
                assert_eq!(bench.write(address, value), Ok(()));
            }
            bench
        }

        /// A device with `MESSAGE` in its queue and started, Control3 as given.
        fn started(control3: u8) -> Self {
            let mut bench = Bench::new(&[(SWITCHES1, 0x21), (CONTROL3, control3)]);
            bench.fill(&MESSAGE);
            assert_eq!(bench.write(FIFOS, 0xA1), Ok(()));
            bench
        }

        fn write(&mut self, address: u8, value: u8) -> Result<(), Refusal> {
            self.line.clear();
            self.device.write(address, value, &mut self.line)
        }

        fn fill(&mut self, octets: &[u8]) {
            for &octet in octets {
                assert_eq!(self.write(FIFOS, octet), Ok(()));
            }
        }

        fn read(&mut self, address: u8) -> u8 {
            self.device.read(address).unwrap()
        }

        fn pass(&mut self, microseconds: u32) -> Result<(), Refusal> {
            self.line.clear();
            self.device.pass(microseconds, &mut self.line)
        }

        /// Hears a message with its CRC made right.
        fn hear(&mut self, kind: u32, message: &[u8]) {
            assert_eq!(self.hear_packet(kind, &packet_of(message)), Ok(()));
        }

        fn hear_packet(&mut self, kind: u32, packet: &[u8]) -> Result<(), Refusal> {
            self.line.clear();
            self.device.hear_packet(kind, packet, &mut self.line)
        }

        /// Fills Rx and reads it down until so many octets are held.
        fn hold(&mut self, held: usize) {
            for length in [30, 30, 5] {
                self.hear(0, &vec![0; length]);
            }
            assert!(self.device.rx.is_full());
            for _ in held..80 {
                self.read(FIFOS);
            }
        }

        fn sent(&self) -> usize {
            self.line.symbols().len()
        }

        /// Puts CC1, CC2 and VBUS at these voltages.
        fn sense(&mut self, [cc1, cc2, vbus]: [u16; 3]) {
            self.device.sense(Pins {
                cc1: Millivolts(cc1),
                cc2: Millivolts(cc2),
                vbus: Millivolts(vbus),
            });
        }

        /// Status0, and Interrupt, which is clear after it.
        fn status_and_interrupt(&mut self) -> (u8, u8) {
            (self.read(STATUS0), self.read(INTERRUPT))
        }
    }

    /// A message with its CRC made right.
    fn packet_of(message: &[u8]) -> Vec<u8> {
        [message, &crc32(message).to_le_bytes()].concat()
    }

    fn frame_of(kind: Kind, message: &[u8]) -> Frame {
        let mut frame = Frame::silent();
        frame.write_message(kind, message);
        frame
    }

    #[test]
    fn registers_power_up_and_keep_only_their_stored_bits() {
        let mut bench = Bench::new(&[]);
        assert_eq!(bench.read(DEVICE_ID), 0x91);
        for (address, reset_value, stored_bits) in STORED_REGISTERS {
            assert_eq!(bench.read(address), reset_value);
            let commands = match address {
                CONTROL0 => TX_FLUSH | TX_START,
                CONTROL1 => RX_FLUSH,
                CONTROL3 => SEND_HARD_RESET,
                RESET => PD_RESET | SW_RES,
                _ => 0,
            };
            assert_eq!(bench.write(address, !commands), Ok(()));
            assert_eq!(bench.read(address), stored_bits);
            assert_eq!(bench.write(address, 0), Ok(()));
            assert_eq!(bench.read(address), 0);
        }
        for (address, value) in (STATUS0A..=INTERRUPT).zip([0, 0, 0, 0, 0, 0x28, 0]) {
            assert_eq!(bench.read(address), value);
        }
    }

    #[test]
    fn addresses_that_are_not_there_or_read_only() {
        let mut bench = Bench::new(&[]);
        for address in [0x00, 0x11, 0x3B, 0x44, 0xFF] {
            assert_eq!(bench.write(address, 0), Err(Refusal::NoSuchAddress));
            assert_eq!(bench.device.read(address), Err(Refusal::NoSuchAddress));
        }
        for address in [0x01, 0x3C, 0x3D, 0x3E, 0x3F, 0x40, 0x41, 0x42] {
            assert_eq!(bench.write(address, 0), Err(Refusal::ReadOnly));
        }
    }

    #[test]
    fn start_of_an_empty_queue_and_flush_with_start() {
        let mut bench = Bench::new(&[]);
        assert_eq!(bench.write(CONTROL0, 0x01), Err(Refusal::NotAMessage));
        bench.fill(&MESSAGE);
        assert_eq!(bench.write(CONTROL0, 0x41), Err(Refusal::NotAMessage));
        assert_eq!(bench.device.tx.held, MESSAGE.len());
        assert_eq!(bench.read(CONTROL0), 0x24);
        let mut bench = Bench::started(0x00);
        assert_eq!(bench.write(CONTROL0, 0x41), Err(Refusal::RequestOpen));
        assert!(bench.device.request.is_some());
    }

    #[test]
    fn a1_inside_a_block_is_data() {
        let mut bench = Bench::new(&[(SWITCHES1, 0x21)]);
        bench.fill(&MESSAGE);
        assert_eq!(bench.device.tx.held, 14);
        assert_eq!(bench.write(FIFOS, 0xA1), Ok(()));
        let symbols = bench.line.symbols();
        assert_eq!(symbols.len(), 25);
        assert_eq!(symbols[..4], [0x18, 0x18, 0x18, 0x11]);
        assert_eq!(symbols[24], 0x0D);
        assert_eq!(bench.device.tx.held, 14);
    }

    #[test]
    fn blocks_have_2_to_30_octets() {
        for (octet, answer) in [
            (0x81, Err(Refusal::NoToken)),
            (0x9F, Err(Refusal::NoToken)),
            (0x82, Ok(())),
            (0x9E, Ok(())),
        ] {
            let mut bench = Bench::new(&[]);
            assert_eq!(bench.write(FIFOS, octet), answer);
            assert_eq!(bench.device.tx.held, usize::from(answer.is_ok()));
        }
    }

    #[test]
    fn tokens_are_those_of_the_paper() {
        let tokens: Vec<u8> = (0..=255)
            .filter(|&octet| TransmitQueue::is_token(octet))
            .collect();
        let mut expected = vec![0x12, 0x13, 0x14, 0x15, 0x16, 0x1B];
        expected.extend(0x82..=0x9E);
        expected.extend([0xA1, 0xFE, 0xFF]);
        assert_eq!(tokens, expected);
    }

    #[test]
    fn queue_holds_48() {
        let mut bench = Bench::new(&[]);
        bench.fill(&[0x12; 47]);
        assert_eq!(bench.read(INTERRUPT), 0);
        bench.fill(&[0x12]);
        assert_eq!(bench.read(INTERRUPT), I_ALERT);
        assert_eq!(bench.write(FIFOS, 0x12), Err(Refusal::QueueFull));
        assert_eq!(bench.write(FIFOS, 0x00), Err(Refusal::NoToken));
        assert_eq!(bench.write(FIFOS, 0xA1), Err(Refusal::NotAMessage));
        assert_eq!(bench.read(STATUS1), 0x24);
        assert_eq!(bench.read(STATUS0), ALERT);
        assert_eq!(bench.read(INTERRUPT), 0);
    }

    #[test]
    fn a1_as_data_needs_room() {
        let mut bench = Bench::new(&[]);
        bench.fill(&[0x12; 46]);
        bench.fill(&[0x82, 0xA1]);
        assert_eq!(bench.write(FIFOS, 0xA1), Err(Refusal::QueueFull));
        assert_eq!(bench.write(FIFOS, 0x00), Err(Refusal::QueueFull));
    }

    #[test]
    fn a_queue_is_a_message_or_it_is_not() {
        let sets: [[u8; 4]; 5] = [
            [0x12, 0x12, 0x12, 0x13],
            [0x12, 0x12, 0x1B, 0x1B],
            [0x12, 0x1B, 0x12, 0x1B],
            [0x12, 0x16, 0x16, 0x1B],
            [0x12, 0x16, 0x1B, 0x13],
        ];
        for (kind, set) in (0..5).filter_map(Kind::numbered).zip(sets) {
            let mut bench = Bench::new(&[(SWITCHES1, 0x21)]);
            bench.fill(&set);
            bench.fill(&[0x82, 0x01, 0x02, 0xFF, 0x14, 0xFE]);
            assert_eq!(bench.write(CONTROL0, 0x25), Ok(()));
            assert_eq!(
                bench.line.symbols(),
                frame_of(kind, &[0x01, 0x02]).symbols()
            );
        }
        let not_messages: [&[u8]; 9] = [
            &[0x15, 0x15, 0x15, 0x16],
            &[0x12, 0x12, 0x12],
            &[0x12, 0x12, 0x12, 0x13],
            &[0x12, 0x12, 0x12, 0x13, 0x82, 0x01],
            &[0x12, 0x12, 0x12, 0x13, 0x82, 0xFF, 0x14, 0xFE],
            &[0x12, 0x12, 0x12, 0x13, 0x82, 0x01, 0x02, 0xFF, 0x14],
            &[
                0x12, 0x12, 0x12, 0x13, 0x82, 0x01, 0x02, 0xFF, 0x14, 0xFE, 0xFE,
            ],
            &[0x12, 0x12, 0x13, 0x13, 0x82, 0x01, 0x02, 0xFF, 0x14, 0xFE],
            &[0x12, 0x12, 0x12, 0x13, 0xFF, 0x14, 0xFE],
        ];
        for octets in not_messages {
            let mut bench = Bench::new(&[(SWITCHES1, 0x21)]);
            bench.fill(octets);
            assert_eq!(bench.write(CONTROL0, 0x01), Err(Refusal::NotAMessage));
        }
    }

    #[test]
    fn refused_start_stores_no_bits() {
        let mut bench = Bench::new(&[]);
        bench.fill(&MESSAGE);
        assert_eq!(bench.write(CONTROL0, 0x0B), Err(Refusal::DriverOff));
        assert_eq!(bench.write(FIFOS, 0xA1), Err(Refusal::DriverOff));
        assert_eq!(bench.read(CONTROL0), 0x24);
        assert_eq!(bench.write(SWITCHES1, 0x23), Ok(()));
        assert_eq!(bench.write(CONTROL0, 0x0B), Err(Refusal::DriverOff));
        assert_eq!(bench.write(SWITCHES1, 0x22), Ok(()));
        assert_eq!(bench.write(CONTROL0, 0x0B), Ok(()));
        assert_eq!(bench.read(CONTROL0), 0x0A);
    }

    #[test]
    fn open_request_refuses_all_writes_to_the_queue() {
        let mut bench = Bench::started(0x00);
        for octet in [0x12, 0x00, 0xA1] {
            assert_eq!(bench.write(FIFOS, octet), Err(Refusal::RequestOpen));
        }
        assert_eq!(bench.write(CONTROL0, 0x25), Err(Refusal::RequestOpen));
        assert_eq!(bench.write(CONTROL0, 0x64), Ok(()));
        assert!(bench.device.request.is_none() && bench.device.tx.is_empty());
    }

    #[test]
    fn time_up_to_1000() {
        let mut bench = Bench::new(&[]);
        assert_eq!(bench.pass(1_000), Ok(()));
        assert_eq!(bench.pass(1_001), Err(Refusal::TimeTooLong));
        assert_eq!(bench.pass(u32::MAX), Err(Refusal::TimeTooLong));
    }

    #[test]
    fn three_retries_then_failure_at_4000() {
        let mut bench = Bench::started(0x07);
        for _ in 0..3 {
            assert_eq!((bench.pass(999), bench.sent()), (Ok(()), 0));
            assert_eq!((bench.pass(0), bench.sent()), (Ok(()), 0));
            assert_eq!((bench.pass(1), bench.sent()), (Ok(()), 25));
        }
        assert_eq!(bench.read(INTERRUPTA), 0);
        assert_eq!((bench.pass(1_000), bench.sent()), (Ok(()), 0));
        assert_eq!(bench.read(INTERRUPTA), I_RETRYFAIL);
        assert_eq!(bench.read(STATUS0A), RETRYFAIL);
        assert!(bench.device.request.is_none() && bench.device.tx.is_empty());
        assert_eq!((bench.pass(1_000), bench.sent()), (Ok(()), 0));
        assert_eq!(bench.read(INTERRUPTA), 0);
    }

    #[test]
    fn rest_of_a_time_event_counts_toward_the_next_wait() {
        let mut bench = Bench::started(0x07);
        assert_eq!((bench.pass(999), bench.sent()), (Ok(()), 0));
        assert_eq!((bench.pass(1_000), bench.sent()), (Ok(()), 25));
        assert_eq!((bench.pass(1), bench.sent()), (Ok(()), 25));
        assert_eq!((bench.pass(999), bench.sent()), (Ok(()), 0));
        assert_eq!((bench.pass(1), bench.sent()), (Ok(()), 25));
    }

    #[test]
    fn retry_count_without_auto_retry_is_0() {
        let mut bench = Bench::started(0x06);
        assert_eq!((bench.pass(1_000), bench.sent()), (Ok(()), 0));
        assert_eq!(bench.read(STATUS0A), RETRYFAIL);
    }

    #[test]
    fn soft_reset_follows_with_retries_of_its_own() {
        let mut bench = Bench::started(0x0D);
        // What 03 and 09 say in mid-request counts for nothing.
        assert_eq!(bench.write(CONTROL3, 0x10), Ok(()));
        assert_eq!(bench.write(SWITCHES1, 0x90), Ok(()));
        for _ in 0..2 {
            assert_eq!((bench.pass(1_000), bench.sent()), (Ok(()), 25));
        }
        let soft_reset = frame_of(Kind::Sop, &[0x4D, 0x00]);
        assert_eq!(bench.pass(1_000), Ok(()));
        assert_eq!(bench.line.symbols(), soft_reset.symbols());
        assert_eq!(bench.read(INTERRUPTA), I_RETRYFAIL);
        assert_eq!(bench.read(STATUS1), RX_EMPTY | TX_EMPTY);
        assert_eq!(bench.write(FIFOS, 0x12), Err(Refusal::RequestOpen));
        for _ in 0..2 {
            assert_eq!(bench.pass(1_000), Ok(()));
            assert_eq!(bench.line.symbols(), soft_reset.symbols());
        }
        assert_eq!((bench.pass(1_000), bench.sent()), (Ok(()), 0));
        assert_eq!(bench.read(INTERRUPTA), I_SOFTFAIL);
        assert_eq!(bench.read(STATUS0A), SOFTFAIL | RETRYFAIL);
        assert!(bench.device.request.is_none());
    }

    #[test]
    fn failed_soft_reset_sends_a_hard_reset() {
        let mut bench = Bench::started(0x18);
        assert_eq!((bench.pass(1_000), bench.sent()), (Ok(()), 17));
        // The driver has gone off since, but the latched bits decide.
        assert_eq!(bench.write(SWITCHES1, 0x20), Ok(()));
        assert_eq!(bench.pass(1_000), Ok(()));
        assert_eq!(bench.line.symbols(), [0x07, 0x07, 0x07, 0x19]);
        assert_eq!(
            bench.read(INTERRUPTA),
            I_RETRYFAIL | I_SOFTFAIL | I_HARDSENT
        );
        assert_eq!(bench.read(STATUS0A), SOFTFAIL | RETRYFAIL);
        assert!(bench.device.request.is_none());
    }

    #[test]
    fn auto_hardreset_alone_does_nothing() {
        let mut bench = Bench::started(0x10);
        assert_eq!((bench.pass(1_000), bench.sent()), (Ok(()), 0));
        assert_eq!(bench.read(INTERRUPTA), I_RETRYFAIL);
        assert!(bench.device.request.is_none());
    }

    #[test]
    fn start_clears_the_fail_bits() {
        let mut bench = Bench::started(0x08);
        assert_eq!(bench.pass(1_000), Ok(()));
        assert_eq!(bench.pass(1_000), Ok(()));
        assert_eq!(bench.read(STATUS0A), SOFTFAIL | RETRYFAIL);
        bench.fill(&MESSAGE);
        assert_eq!(bench.write(FIFOS, 0xA1), Ok(()));
        assert_eq!(bench.read(STATUS0A), 0);
    }

    #[test]
    fn good_crc_of_the_awaited_kind_and_id_ends_the_request() {
        let mut bench = Bench::started(0x07);
        assert_eq!(bench.write(CONTROL1, 0x63), Ok(()));
        // The message's header is 104F: MessageID 0, one data object.
        bench.hear(0, &[0x41, 0x02]);
        bench.hear(1, &[0x41, 0x00]);
        bench.hear(0, &[0x41, 0x10]);
        bench.hear(0, &[0x41, 0x00, 0x00]);
        bench.hear(0, &[0x42, 0x00]);
        assert!(bench.device.request.is_some());
        assert_eq!(bench.read(INTERRUPTA), 0);
        bench.hear(0, &[0x51, 0x80]);
        assert!(bench.device.request.is_none() && bench.device.tx.is_empty());
        assert_eq!(bench.read(INTERRUPTA), I_TXSENT);
        assert_eq!(bench.read(STATUS0A), 0);
    }

    /// Every kind with its tokens and the bit of Control1 that enables it.
    const KINDS: [(Kind, [u8; 4], u8); 5] = [
        (Kind::Sop, [0x12, 0x12, 0x12, 0x13], 0x00),
        (Kind::Sop1, [0x12, 0x12, 0x1B, 0x1B], ENSOP1),
        (Kind::Sop2, [0x12, 0x1B, 0x12, 0x1B], ENSOP2),
        (Kind::Sop1Db, [0x12, 0x16, 0x16, 0x1B], ENSOP1DB),
        (Kind::Sop2Db, [0x12, 0x16, 0x1B, 0x13], ENSOP2DB),
    ];
    const EVERY_KIND: u8 = ENSOP1 | ENSOP2 | ENSOP1DB | ENSOP2DB;

    /// A message with MessageID 5, sent on the kind of this set and not answered, up to its Soft_Reset.
    fn unanswered(set: [u8; 4], switches1: u8, control3: u8) -> Bench {
        let mut bench = Bench::new(&[(SWITCHES1, switches1), (CONTROL3, control3)]);
        bench.fill(&set);
        bench.fill(&[0x82, 0x42, 0x0A, 0xFF, 0x14, 0xFE]);
        assert_eq!(bench.write(FIFOS, 0xA1), Ok(()));
        while bench.device.interrupta & I_RETRYFAIL == 0 {
            assert_eq!((bench.pass(1_000), bench.sent()), (Ok(()), 17));
        }
        bench
    }

    #[test]
    fn soft_reset_and_its_retries_go_out_on_the_kind_of_the_message() {
        for (kind, set, _) in KINDS {
            let mut bench = unanswered(set, 0x21, 0x1D);
            // What is enabled counts for what is heard alone.
            for control1 in [EVERY_KIND, 0x00, EVERY_KIND] {
                let soft_reset = frame_of(kind, &[0x4D, 0x00]);
                assert_eq!(bench.line.symbols(), soft_reset.symbols());
                assert_eq!(bench.write(CONTROL1, control1), Ok(()));
                assert_eq!(bench.pass(1_000), Ok(()));
            }
            assert_eq!(bench.line.symbols(), [0x07, 0x07, 0x07, 0x19]);
            assert_eq!(bench.read(STATUS0A), SOFTFAIL | RETRYFAIL);
            assert!(bench.device.request.is_none());
        }
    }

    #[test]
    fn packet_of_another_kind_does_not_move_the_soft_reset() {
        let mut bench = Bench::started(0x08);
        assert_eq!(bench.write(CONTROL1, EVERY_KIND), Ok(()));
        bench.hear(4, &[0x42, 0x0A]);
        assert_eq!(bench.pass(1_000), Ok(()));
        let soft_reset = frame_of(Kind::Sop, &[0x4D, 0x00]);
        assert_eq!(bench.line.symbols(), soft_reset.symbols());
        bench.hear(4, &[0x41, 0x00]);
        assert_eq!(bench.read(INTERRUPTA), I_RETRYFAIL);
        bench.hear(0, &[0x41, 0x00]);
        assert_eq!(bench.read(INTERRUPTA), I_TXSENT);
    }

    #[test]
    fn soft_reset_has_the_latched_revision_and_on_sop_the_latched_roles() {
        for (switches1, on_sop, elsewhere) in [
            (0xF5, [0xED, 0x01], [0xCD, 0x00]),
            (0x91, [0x2D, 0x01], [0x0D, 0x00]),
            (0xA2, [0x4D, 0x01], [0x4D, 0x00]),
            (0x52, [0xAD, 0x00], [0x8D, 0x00]),
        ] {
            for (kind, set, _) in KINDS {
                let mut bench = unanswered(set, switches1, 0x0B);
                let header = if kind == Kind::Sop { on_sop } else { elsewhere };
                let soft_reset = frame_of(kind, &header);
                assert_eq!(bench.line.symbols(), soft_reset.symbols());
                assert_eq!(bench.write(SWITCHES1, !switches1), Ok(()));
                assert_eq!(bench.pass(1_000), Ok(()));
                assert_eq!(bench.line.symbols(), soft_reset.symbols());
            }
        }
    }

    #[test]
    fn soft_reset_awaits_message_id_0_on_its_own_kind() {
        for (kind, set, bit) in KINDS {
            let mut bench = unanswered(set, 0x25, 0x0B);
            assert_eq!((bench.pass(1_000), bench.sent()), (Ok(()), 17));
            assert_eq!(bench.write(CONTROL1, EVERY_KIND), Ok(()));
            for (other, ..) in KINDS {
                bench.hear(other as u32, &[0x41, 0x0A]);
                if other != kind {
                    bench.hear(other as u32, &[0x41, 0x00]);
                }
                assert_eq!(bench.sent(), 0);
            }
            assert_eq!(bench.device.rx.held(), 9 * 7);
            assert_eq!(bench.read(INTERRUPTA), I_RETRYFAIL);
            if kind != Kind::Sop {
                // Off when it is heard, and then nothing changes (01 'Packets heard').
                bench.read(INTERRUPT);
                assert_eq!(bench.write(CONTROL1, EVERY_KIND & !bit), Ok(()));
                bench.hear(kind as u32, &[0x41, 0x00]);
                assert_eq!((bench.read(INTERRUPT), bench.read(INTERRUPTA)), (0, 0));
                assert_eq!(bench.device.rx.held(), 9 * 7);
                assert_eq!(bench.write(CONTROL1, bit), Ok(()));
            }
            assert!(bench.device.request.is_some());
            bench.hear(kind as u32, &[0x41, 0x00]);
            assert!(bench.device.request.is_none());
            assert_eq!(bench.read(INTERRUPTA), I_TXSENT);
            assert_eq!(bench.read(STATUS0A), RETRYFAIL);
        }
    }

    #[test]
    fn soft_reset_answered_while_its_kind_is_off_runs_out() {
        for (kind, set, bit) in &KINDS[1..] {
            let mut bench = unanswered(*set, 0x21, 0x08);
            assert_eq!(bench.write(CONTROL1, EVERY_KIND & !bit), Ok(()));
            bench.hear(*kind as u32, &[0x41, 0x00]);
            assert_eq!((bench.pass(1_000), bench.sent()), (Ok(()), 0));
            assert_eq!(bench.read(INTERRUPTA), I_RETRYFAIL | I_SOFTFAIL);
            assert_eq!(bench.read(STATUS0A), SOFTFAIL | RETRYFAIL);
            assert_eq!((bench.read(INTERRUPT), bench.device.rx.held()), (0, 0));
        }
    }

    #[test]
    fn good_crc_ends_the_request_although_rx_has_no_room() {
        let mut bench = Bench::started(0x07);
        bench.hear(0, &[0; 30]);
        bench.hear(0, &[0; 30]);
        bench.hear(0, &[0; 2]);
        assert_eq!(bench.device.rx.held(), 77);
        bench.read(INTERRUPT);
        bench.hear(0, &[0x41, 0x00]);
        assert_eq!(bench.device.rx.held(), 77);
        assert!(bench.device.request.is_none());
        assert_eq!(bench.read(INTERRUPTA), I_TXSENT);
        assert_eq!(bench.read(INTERRUPT), I_ALERT | I_CRC_CHK);
    }

    #[test]
    fn reply_header_by_kind() {
        for (kind, header) in [(0, [0x61, 0x0B]), (1, [0x41, 0x0A])] {
            let mut bench = Bench::new(&[(SWITCHES1, 0xB5), (CONTROL1, 0x01)]);
            bench.hear(kind, &[0x42, 0x0A]);
            let reply = frame_of(Kind::numbered(kind).unwrap(), &header);
            assert_eq!(bench.line.symbols(), reply.symbols());
            assert_eq!(bench.read(INTERRUPTB), I_GCRCSENT);
            assert_eq!(bench.read(INTERRUPTB), 0);
        }
    }

    #[test]
    fn no_reply_to_a_good_crc_nor_with_a_bit_wrong() {
        for (switches1, control0, message) in [
            (0xB5, 0x24, [0x41, 0x0A]),
            (0xB1, 0x24, [0x42, 0x0A]),
            (0xB5, 0x26, [0x42, 0x0A]),
            (0xB4, 0x24, [0x42, 0x0A]),
            (0xB7, 0x24, [0x42, 0x0A]),
        ] {
            let mut bench = Bench::new(&[(SWITCHES1, switches1), (CONTROL0, control0)]);
            bench.hear(0, &message);
            assert_eq!((bench.sent(), bench.read(INTERRUPTB)), (0, 0));
            assert_eq!(bench.device.rx.held(), 7);
        }
        // A longer packet of type 1 is no GoodCRC.
        let mut bench = Bench::new(&[(SWITCHES1, 0xB5)]);
        bench.hear(0, &[0x41, 0x1A, 0, 0, 0, 0]);
        assert_eq!(bench.sent(), 17);
    }

    #[test]
    fn reply_leaves_although_a_request_is_open() {
        let mut bench = Bench::started(0x07);
        assert_eq!(bench.write(SWITCHES1, 0x26), Ok(()));
        assert_eq!(bench.pass(999), Ok(()));
        bench.hear(0, &[0x42, 0x0A]);
        assert_eq!(bench.sent(), 17);
        assert_eq!((bench.pass(1), bench.sent()), (Ok(()), 25));
    }

    #[test]
    fn rx_holds_80() {
        for (held, fits) in [(45, true), (46, false)] {
            let mut bench = Bench::new(&[(SWITCHES1, 0x25), (CONTROL1, 0x02)]);
            bench.hear(0, &[0; 30]);
            bench.hear(0, &[0; 30]);
            for _ in held..70 {
                bench.device.rx.take();
            }
            bench.read(INTERRUPT);
            bench.hear(2, &[0; 30]);
            assert_eq!(bench.read(INTERRUPT), I_CRC_CHK | I_ALERT);
            if fits {
                assert_eq!(bench.read(STATUS1), RXSOP2 | RX_FULL | TX_EMPTY);
                assert_eq!(bench.read(STATUS1A), 0);
                assert_eq!(bench.read(STATUS0), CRC_CHK | ALERT);
                assert_eq!(bench.sent(), 17);
            } else {
                assert_eq!(bench.read(STATUS1), TX_EMPTY);
                assert_eq!(bench.read(STATUS1A), RXSOP);
                assert_eq!(bench.read(STATUS0), CRC_CHK);
                assert_eq!(bench.sent(), 0);
                bench.hear(2, &[0; 30]);
                assert_eq!(bench.read(INTERRUPT), I_CRC_CHK | I_ALERT);
            }
        }
    }

    #[test]
    fn rx_gives_back_token_octets_and_crc_in_order() {
        let mut bench = Bench::new(&[(CONTROL1, 0x63)]);
        for round in 0..40u8 {
            for (kind, token) in [0xE0, 0xC0, 0xA0, 0x80, 0x60].into_iter().enumerate() {
                let message = [round, kind as u8, 7, 8, 9];
                bench.hear(kind as u32, &message);
                bench.hear(kind as u32, &message);
                for _ in 0..2 {
                    assert_eq!(bench.read(FIFOS), token);
                    for octet in message.into_iter().chain(crc32(&message).to_le_bytes()) {
                        assert_eq!(bench.read(FIFOS), octet);
                    }
                }
                assert_eq!(bench.device.read(FIFOS), Err(Refusal::NothingHeld));
            }
        }
    }

    #[test]
    fn kinds_show_in_the_status_registers() {
        let mut bench = Bench::new(&[(CONTROL1, 0x63)]);
        for (kind, status1a, status1) in [
            (0, 0x01, 0x00),
            (1, 0x00, 0x40),
            (2, 0x00, 0x80),
            (3, 0x02, 0x00),
            (4, 0x04, 0x00),
        ] {
            bench.hear(kind, &[0; 2]);
            assert_eq!(bench.read(STATUS1A), status1a);
            assert_eq!(bench.read(STATUS1), status1 | TX_EMPTY);
        }
        assert_eq!(bench.write(CONTROL1, RX_FLUSH), Ok(()));
        assert_eq!(bench.read(CONTROL1), 0);
        assert_eq!(bench.read(STATUS1A), RXSOP2DB);
        assert_eq!(bench.read(STATUS1), RX_EMPTY | TX_EMPTY);
        assert_eq!(bench.read(STATUS0), CRC_CHK);
    }

    #[test]
    fn each_kind_is_enabled_by_its_bit() {
        for (bit, enabled) in [(0x01, 1), (0x02, 2), (0x20, 3), (0x40, 4)] {
            let mut bench = Bench::new(&[(CONTROL1, bit)]);
            for kind in 1..=4 {
                bench.hear(kind, &[0; 2]);
                let stored = if kind == enabled { 7 } else { 0 };
                assert_eq!(bench.device.rx.held(), stored);
                assert_eq!(bench.read(INTERRUPT) != 0, kind == enabled);
                bench.device.rx.clear();
            }
        }
    }

    #[test]
    fn wrong_crc_clears_crc_chk_and_no_more() {
        let mut bench = Bench::new(&[(SWITCHES1, 0x25)]);
        bench.hear(0, &[0x42, 0x00]);
        bench.read(INTERRUPT);
        bench.line.clear();
        let heard = bench.device.hear_packet(0, &[0x42; 6], &mut bench.line);
        assert_eq!((heard, bench.sent()), (Ok(()), 0));
        assert_eq!((bench.read(STATUS0), bench.read(INTERRUPT)), (0, 0));
        assert_eq!(bench.device.rx.held(), 7);
        // A kind that is not on leaves even CRC_CHK alone.
        bench.hear(0, &[0x42, 0x00]);
        let heard = bench.device.hear_packet(1, &[0x42; 6], &mut bench.line);
        assert_eq!((heard, bench.read(STATUS0)), (Ok(()), CRC_CHK));
    }

    #[test]
    fn packets_refused_by_kind_before_length() {
        let mut bench = Bench::new(&[]);
        for (kind, length, refusal) in [
            (5, 5, Refusal::NoSuchKind),
            (u32::MAX, 6, Refusal::NoSuchKind),
            (4, 0, Refusal::LengthOutside),
            (4, 5, Refusal::LengthOutside),
            (0, 35, Refusal::LengthOutside),
        ] {
            let heard = bench
                .device
                .hear_packet(kind, &[0; 35][..length], &mut bench.line);
            assert_eq!(heard, Err(refusal));
        }
    }

    #[test]
    fn soft_reset_heard() {
        let mut bench = Bench::new(&[(SWITCHES1, 0x25)]);
        bench.hear(0, &[0x4D, 0x10]);
        bench.hear(0, &[0x4D, 0x00, 0x00]);
        assert_eq!((bench.read(INTERRUPTA), bench.read(STATUS0A)), (0, 0));
        bench.hear(0, &[0x5D, 0x86]);
        assert_eq!(bench.read(INTERRUPTA), I_SOFTRST);
        assert_eq!(bench.read(STATUS0A), SOFTRST);
        let reply = frame_of(Kind::Sop, &[0x41, 0x06]);
        assert_eq!(bench.line.symbols(), reply.symbols());
    }

    #[test]
    fn hard_reset_heard_drops_the_request() {
        let mut bench = Bench::started(0x07);
        bench.hear(0, &[0x42, 0x00]);
        bench.device.hear_hard_reset();
        assert_eq!(bench.read(INTERRUPTA), I_HARDRST);
        assert_eq!(bench.read(STATUS0A), HARDRST);
        assert_eq!(bench.read(STATUS1), TX_EMPTY);
        assert_eq!(bench.read(STATUS1A), RXSOP);
        assert_eq!(bench.read(STATUS0), CRC_CHK);
        assert_eq!((bench.pass(1_000), bench.sent()), (Ok(()), 0));
    }

    #[test]
    fn send_hard_reset() {
        let mut bench = Bench::new(&[(SWITCHES1, 0x20)]);
        assert_eq!(bench.write(CONTROL3, 0x46), Err(Refusal::DriverOff));
        assert_eq!(bench.write(CONTROL3, 0x58), Err(Refusal::DriverOff));
        assert_eq!(bench.read(CONTROL3), 0x06);

        let mut bench = Bench::started(0x08);
        assert_eq!(bench.pass(1_000), Ok(()));
        bench.read(INTERRUPTA);
        assert_eq!(bench.write(CONTROL3, 0xFF), Ok(()));
        assert_eq!(bench.line.symbols(), [0x07, 0x07, 0x07, 0x19]);
        assert_eq!(bench.read(CONTROL3), 0x3F);
        assert_eq!(bench.read(INTERRUPTA), I_HARDSENT);
        assert_eq!(bench.read(STATUS0A), 0);
        assert!(bench.device.request.is_none());
        bench.fill(&MESSAGE);
        assert_eq!(bench.write(CONTROL3, 0x40), Ok(()));
        assert!(bench.device.tx.is_empty());
    }

    #[test]
    fn pd_reset_leaves_interrupts_and_registers() {
        let mut bench = Bench::started(0x07);
        bench.hear(0, &[0x4D, 0x00]);
        assert_eq!(bench.write(RESET, 0xFE), Ok(()));
        assert_eq!((bench.read(STATUS0A), bench.read(STATUS1A)), (0, 0));
        assert_eq!((bench.read(STATUS0), bench.read(STATUS1)), (0, 0x28));
        assert_eq!(bench.read(INTERRUPTA), I_SOFTRST);
        assert_eq!(bench.read(INTERRUPT), I_CRC_CHK);
        assert_eq!((bench.read(SWITCHES1), bench.read(RESET)), (0x21, 0));
        assert!(bench.device.request.is_none());
    }

    #[test]
    fn sw_res_restores_power_up_and_wins() {
        let mut bench = Bench::started(0x07);
        bench.hear(0, &[0x4D, 0x00]);
        assert_eq!(bench.write(RESET, 0x03), Ok(()));
        for (address, reset_value, _) in STORED_REGISTERS {
            assert_eq!(bench.read(address), reset_value);
        }
        for (address, value) in (STATUS0A..=INTERRUPT).zip([0, 0, 0, 0, 0, 0x28, 0]) {
            assert_eq!(bench.read(address), value);
        }
        assert!(bench.device.request.is_none());
        assert_eq!(bench.device.read(FIFOS), Err(Refusal::NothingHeld));
    }

    #[test]
    fn masks_hide_but_never_stop_the_recording() {
        let mut bench = Bench::new(&[(CONTROL0, 0x04), (MASKA, 0xFF)]);
        assert!(bench.device.int_n());
        bench.device.hear_hard_reset();
        assert!(bench.device.int_n());
        assert_eq!(bench.write(MASKA, 0xFE), Ok(()));
        assert!(!bench.device.int_n());
        assert_eq!(bench.write(CONTROL0, 0x24), Ok(()));
        assert!(bench.device.int_n());
        assert_eq!(bench.write(CONTROL0, 0x04), Ok(()));
        assert_eq!(bench.read(INTERRUPTA), I_HARDRST);
        assert!(bench.device.int_n());

        let mut bench = Bench::new(&[(CONTROL0, 0x04), (SWITCHES1, 0x25), (MASKB, 0x01)]);
        bench.hear(0, &[0x42, 0x00]);
        assert!(!bench.device.int_n());
        assert_eq!(bench.write(MASK, 0xEF), Ok(()));
        assert!(!bench.device.int_n());
        assert_eq!(bench.write(MASK, 0x10), Ok(()));
        assert!(bench.device.int_n());
        assert_eq!(bench.write(MASKB, 0x00), Ok(()));
        assert!(!bench.device.int_n());
    }

    const HIGH: u16 = u16::MAX;

    /// Voltages about a threshold, and whether they count as above it.
    fn about(threshold: u16) -> [(u16, bool); 3] {
        [
            (threshold - 1, false),
            (threshold, true),
            (threshold + 1, true),
        ]
    }

    #[test]
    fn vbusok_at_4000_needs_no_bit() {
        let every_bit = [(SWITCHES0, 0xFF), (MEASURE, 0x7F), (POWER, 0x0F)];
        let no_bit = every_bit.map(|(address, _)| (address, 0x00));
        for setup in [every_bit, no_bit] {
            for (voltage, above) in about(4_000) {
                let mut bench = Bench::new(&setup);
                bench.sense([0, 0, voltage]);
                let seen = (bit_if(above, VBUSOK), bit_if(above, I_VBUSOK));
                assert_eq!(bench.status_and_interrupt(), seen, "{voltage}");
            }
        }
        // What 004 prints besides is no threshold.
        let mut bench = Bench::new(&[]);
        bench.sense([0, 0, 4_000]);
        bench.read(INTERRUPT);
        for voltage in [4_499, 4_500, 4_501, HIGH] {
            bench.sense([0, 0, voltage]);
            assert_eq!(bench.status_and_interrupt(), (VBUSOK, 0));
        }
    }

    #[test]
    fn bc_lvl_is_of_the_one_measured_cc_pin() {
        for other in [0, HIGH] {
            for (level, step) in [(1, 200), (2, 660), (3, 1_230)] {
                for (voltage, above) in about(step) {
                    let level = if above { level } else { level - 1 };
                    // The reference is above all of these voltages.
                    let mut bench = Bench::new(&[(MEASURE, 0x3F), (POWER, 0x04)]);
                    for (switches0, pins) in [
                        (MEAS_CC1, [voltage, other, 0]),
                        (MEAS_CC2, [other, voltage, 0]),
                    ] {
                        assert_eq!(bench.write(SWITCHES0, switches0), Ok(()));
                        bench.sense(pins);
                        assert_eq!(bench.read(STATUS0), level, "{pins:?}");
                    }
                }
            }
        }
    }

    #[test]
    fn comp_of_every_code_on_each_pin() {
        for code in 0..=63 {
            for (switches0, measure, pin, step) in [
                (MEAS_CC1, code, 0, 42),
                (MEAS_CC2, code, 1, 42),
                (0x00, MEAS_VBUS | code, 2, 420),
            ] {
                for other in [0, HIGH] {
                    for (voltage, above) in about(step * (u16::from(code) + 1)) {
                        let setup = [(SWITCHES0, switches0), (MEASURE, measure), (POWER, 0x04)];
                        let mut bench = Bench::new(&setup);
                        let mut pins = [other; 3];
                        pins[pin] = voltage;
                        bench.sense(pins);
                        let (status, interrupt) = bench.status_and_interrupt();
                        assert_eq!(status & COMP, bit_if(above, COMP), "{setup:?} {pins:?}");
                        assert_eq!(interrupt & I_COMP_CHNG, bit_if(above, I_COMP_CHNG));
                    }
                }
            }
        }
    }

    #[test]
    fn readings_of_all_16_switch_settings() {
        // With every pin high, and with one that is high among two that are not.
        for (pwr_measure, meas_cc1, meas_cc2, meas_vbus, seen) in [
            (0, 0, 0, 0, [0x00, 0x00, 0x00, 0x00]),
            (0, 0, 0, 1, [0x00, 0x00, 0x00, 0x00]),
            (0, 0, 1, 0, [0x00, 0x00, 0x00, 0x00]),
            (0, 0, 1, 1, [0x00, 0x00, 0x00, 0x00]),
            (0, 1, 0, 0, [0x00, 0x00, 0x00, 0x00]),
            (0, 1, 0, 1, [0x00, 0x00, 0x00, 0x00]),
            (0, 1, 1, 0, [0x00, 0x00, 0x00, 0x00]),
            (0, 1, 1, 1, [0x00, 0x00, 0x00, 0x00]),
            (1, 0, 0, 0, [0x00, 0x00, 0x00, 0x00]),
            (1, 0, 0, 1, [0x20, 0x00, 0x00, 0x20]),
            (1, 0, 1, 0, [0x23, 0x00, 0x23, 0x00]),
            (1, 0, 1, 1, [0x03, 0x00, 0x03, 0x00]),
            (1, 1, 0, 0, [0x23, 0x23, 0x00, 0x00]),
            (1, 1, 0, 1, [0x03, 0x03, 0x00, 0x00]),
            (1, 1, 1, 0, [0x00, 0x00, 0x00, 0x00]),
            (1, 1, 1, 1, [0x00, 0x00, 0x00, 0x00]),
        ] {
            let switches0 = bit_if(meas_cc1 == 1, MEAS_CC1) | bit_if(meas_cc2 == 1, MEAS_CC2);
            let measure = bit_if(meas_vbus == 1, MEAS_VBUS) | 0x01;
            let power = bit_if(pwr_measure == 1, PWR_MEASURE);
            let pins = [[HIGH; 3], [HIGH, 0, 0], [0, HIGH, 0], [0, 0, HIGH]];
            // The other bits of the three registers have no part in it.
            for (more_switches0, more_power) in [(0x00, 0x00), (0xF3, 0x0B)] {
                for (pins, seen) in pins.into_iter().zip(seen) {
                    let mut bench = Bench::new(&[
                        (SWITCHES0, switches0 | more_switches0),
                        (MEASURE, measure),
                        (POWER, power | more_power),
                    ]);
                    assert_eq!(bench.status_and_interrupt(), (0, 0));
                    bench.sense(pins);
                    let vbusok = pins[2] == HIGH;
                    let interrupt = bit_if(vbusok, I_VBUSOK)
                        | bit_if(seen & COMP != 0, I_COMP_CHNG)
                        | bit_if(seen & 0x03 != 0, I_BC_LVL);
                    let status = bit_if(vbusok, VBUSOK) | seen;
                    assert_eq!(bench.status_and_interrupt(), (status, interrupt));
                }
            }
        }
    }

    #[test]
    fn each_change_at_the_pins_sets_its_interrupt() {
        // The reference of code 23 is 1008, between two steps of BC_LVL.
        let mut bench = Bench::new(&[(SWITCHES0, MEAS_CC1), (MEASURE, 23), (POWER, 0x04)]);
        for (pins, seen) in [
            ([0, 0, 0], (0x00, 0x00)),
            ([199, 1_000, 3_999], (0x00, 0x00)),
            ([200, 1_000, 3_999], (0x01, I_BC_LVL)),
            ([200, 1_000, 3_999], (0x01, 0x00)),
            ([659, HIGH, 0], (0x01, 0x00)),
            ([660, 0, 0], (0x02, I_BC_LVL)),
            ([1_007, 0, 0], (0x02, 0x00)),
            ([1_008, 0, 0], (0x22, I_COMP_CHNG)),
            ([1_230, 0, 0], (0x23, I_BC_LVL)),
            ([HIGH, 0, 0], (0x23, 0x00)),
            ([HIGH, 0, 4_000], (0xA3, I_VBUSOK)),
            ([1_229, 0, HIGH], (0xA2, I_BC_LVL)),
            ([1_007, 0, HIGH], (0x82, I_COMP_CHNG)),
            ([659, 0, 3_999], (0x01, I_VBUSOK | I_BC_LVL)),
            ([199, 0, 0], (0x00, I_BC_LVL)),
            ([HIGH; 3], (0xA3, I_VBUSOK | I_COMP_CHNG | I_BC_LVL)),
            ([0; 3], (0x00, I_VBUSOK | I_COMP_CHNG | I_BC_LVL)),
        ] {
            bench.sense(pins);
            assert_eq!(bench.status_and_interrupt(), seen, "{pins:?}");
        }
        // A change back does not take the interrupt back.
        bench.sense([0, 0, 4_000]);
        bench.sense([0, 0, 0]);
        assert_eq!(bench.status_and_interrupt(), (0, I_VBUSOK));
    }

    #[test]
    fn writes_that_change_a_reading_set_its_interrupt() {
        let mut bench = Bench::new(&[(SWITCHES0, 0x03), (MEASURE, 23), (POWER, 0x01)]);
        bench.sense([700, 1_300, 9_660]);
        assert_eq!(bench.status_and_interrupt(), (VBUSOK, I_VBUSOK));
        for (address, value, seen) in [
            // What is stored and shows nothing: the measure block is off, or nothing is switched to it.
            (SWITCHES0, 0x07, (0x80, 0x00)),
            (SWITCHES0, 0x03, (0x80, 0x00)),
            (MEASURE, 0x00, (0x80, 0x00)),
            (MEASURE, 23, (0x80, 0x00)),
            (POWER, 0x05, (0x80, 0x00)),
            // CC1 is 700: level 2, and below 1008.
            (SWITCHES0, 0x07, (0x82, I_BC_LVL)),
            (SWITCHES0, 0xC7, (0x82, 0x00)),
            // And it is below 714 and above 672.
            (MEASURE, 16, (0x82, 0x00)),
            (MEASURE, 15, (0xA2, I_COMP_CHNG)),
            (MEASURE, 0, (0xA2, 0x00)),
            (MEASURE, 63, (0x82, I_COMP_CHNG)),
            (MEASURE, 23, (0x82, 0x00)),
            // CC2 is 1300: level 3, and above.
            (SWITCHES0, 0x08, (0xA3, I_BC_LVL | I_COMP_CHNG)),
            (POWER, 0x04, (0xA3, 0x00)),
            (POWER, 0x0B, (0x80, I_BC_LVL | I_COMP_CHNG)),
            (POWER, 0x0F, (0xA3, I_BC_LVL | I_COMP_CHNG)),
            // MEAS_VBUS takes the comparator from CC2 and leaves BC_LVL.
            (MEASURE, 0x40 | 23, (0x83, I_COMP_CHNG)),
            (SWITCHES0, 0x0C, (0x80, I_BC_LVL)),
            (SWITCHES0, 0x04, (0x82, I_BC_LVL)),
            // VBUS is 9660, the reference of code 22.
            (MEASURE, 0x40 | 22, (0x82, 0x00)),
            (SWITCHES0, 0x00, (0xA0, I_BC_LVL | I_COMP_CHNG)),
            (MEASURE, 0x40 | 23, (0x80, I_COMP_CHNG)),
            (MEASURE, 0xC0 | 22, (0xA0, I_COMP_CHNG)),
            (MEASURE, 22, (0x80, I_COMP_CHNG)),
        ] {
            assert_eq!((bench.write(address, value), bench.sent()), (Ok(()), 0));
            let written = format!("{address:02X} {value:02X}");
            assert_eq!(bench.status_and_interrupt(), seen, "{written}");
        }
    }

    /// Every reading shows, CC2 being measured, and no interrupt is set.
    fn standing() -> Bench {
        let mut bench = Bench::new(&[(SWITCHES0, 0x0B), (MEASURE, 0x3F), (POWER, 0x07)]);
        bench.sense([0, 2_688, 4_000]);
        let all = (0xA3, I_VBUSOK | I_COMP_CHNG | I_BC_LVL);
        assert_eq!(bench.status_and_interrupt(), all);
        bench
    }

    #[test]
    fn writes_elsewhere_and_refused_ones_change_no_reading() {
        let mut bench = standing();
        for address in SWITCHES0..=FIFOS {
            if ![SWITCHES0, MEASURE, POWER, RESET].contains(&address) {
                for value in [0x00, 0x04, 0x08] {
                    let _ = bench.write(address, value);
                    assert_eq!(bench.status_and_interrupt(), (0xA3, 0), "{address:02X}");
                }
            }
        }
        for (address, value, refusal) in [
            (0x11, 0x00, Refusal::NoSuchAddress),
            (0x00, 0x00, Refusal::NoSuchAddress),
            (STATUS0, 0x00, Refusal::ReadOnly),
            (INTERRUPT, 0xFF, Refusal::ReadOnly),
            (FIFOS, 0x00, Refusal::NoToken),
            (CONTROL0, 0x01, Refusal::NotAMessage),
            (CONTROL3, 0x40, Refusal::DriverOff),
        ] {
            assert_eq!(bench.write(address, value), Err(refusal));
            assert_eq!(bench.status_and_interrupt(), (0xA3, 0));
        }
        assert_eq!(bench.pass(1_001), Err(Refusal::TimeTooLong));
        assert_eq!(bench.pass(1_000), Ok(()));
        bench.device.hear_hard_reset();
        assert_eq!(bench.status_and_interrupt(), (0xA3, 0));
    }

    #[test]
    fn sw_res_keeps_the_voltages_and_sets_no_interrupt() {
        for value in [0x01, 0x03, 0xFF] {
            let mut bench = standing();
            bench.sense([500, 2_688, 3_999]);
            bench.sense([500, 2_688, 4_000]);
            assert_eq!(bench.write(RESET, value), Ok(()));
            assert!(bench.device.int_n());
            // Nothing is measured any more, but VBUSOK needs no bit.
            assert_eq!(bench.status_and_interrupt(), (VBUSOK, 0));
            assert_eq!(bench.read(POWER), 0x01);
            // The voltages stand: they show once they are measured again.
            assert_eq!(bench.write(POWER, 0x04), Ok(()));
            assert_eq!(bench.status_and_interrupt(), (VBUSOK, 0));
            assert_eq!(bench.write(SWITCHES0, MEAS_CC2), Ok(()));
            let cc2 = (VBUSOK | COMP | 3, I_COMP_CHNG | I_BC_LVL);
            assert_eq!(bench.status_and_interrupt(), cc2);
            assert_eq!(bench.write(SWITCHES0, MEAS_CC1), Ok(()));
            let cc1 = (VBUSOK | 1, I_COMP_CHNG | I_BC_LVL);
            assert_eq!(bench.status_and_interrupt(), cc1);
            bench.sense([500, 2_688, 4_000]);
            assert_eq!(bench.status_and_interrupt(), (VBUSOK | 1, 0));
        }
    }

    #[test]
    fn pd_reset_leaves_the_pins_and_their_interrupts() {
        let mut bench = standing();
        assert_eq!(bench.write(RESET, PD_RESET), Ok(()));
        assert_eq!(bench.status_and_interrupt(), (0xA3, 0));
        bench.sense([0; 3]);
        assert_eq!(bench.write(RESET, PD_RESET), Ok(()));
        let all = (0x00, I_VBUSOK | I_COMP_CHNG | I_BC_LVL);
        assert_eq!(bench.status_and_interrupt(), all);
    }

    #[test]
    fn readings_stand_beside_crc_chk_and_alert() {
        let mut bench = standing();
        bench.hear(0, &[0x42, 0x00]);
        bench.fill(&[0x12; 48]);
        assert_eq!(bench.status_and_interrupt(), (0xBB, I_CRC_CHK | I_ALERT));
        bench.sense([0; 3]);
        let all = (0x18, I_VBUSOK | I_COMP_CHNG | I_BC_LVL);
        assert_eq!(bench.status_and_interrupt(), all);
    }

    #[test]
    fn pins_leave_an_open_request_alone() {
        let mut bench = Bench::started(0x07);
        assert_eq!(bench.pass(999), Ok(()));
        bench.sense([HIGH; 3]);
        assert_eq!(bench.write(FIFOS, 0x12), Err(Refusal::RequestOpen));
        assert_eq!((bench.pass(1), bench.sent()), (Ok(()), 25));
        assert_eq!(bench.read(INTERRUPTA), 0);
        assert_eq!(bench.read(STATUS1), RX_EMPTY);
    }

    #[test]
    fn comparators_and_int_n() {
        for bit in [I_VBUSOK, I_COMP_CHNG, I_BC_LVL] {
            // Masked, it is recorded all the same.
            let mut bench = Bench::new(&[(CONTROL0, 0x04), (MASK, 0xFF)]);
            assert_eq!(bench.write(SWITCHES0, MEAS_CC1), Ok(()));
            assert_eq!(bench.write(POWER, 0x04), Ok(()));
            bench.sense([HIGH; 3]);
            assert!(bench.device.int_n());
            assert_eq!(bench.write(MASK, !bit), Ok(()));
            assert!(!bench.device.int_n());
            assert_eq!(bench.read(INTERRUPT), I_VBUSOK | I_COMP_CHNG | I_BC_LVL);
            assert!(bench.device.int_n());
            bench.sense([0; 3]);
            assert!(!bench.device.int_n());
            assert_eq!(bench.write(CONTROL0, 0x24), Ok(()));
            assert!(bench.device.int_n());
        }
    }

    /// The reasons in the order of 02, A5.
    const REASONS: [Why; 9] = [
        Why::NoSuchKind,
        Why::LengthOutside,
        Why::KindOff,
        Why::CrcWrong,
        Why::NoRoom,
        Why::ItIsAGoodCrc,
        Why::AutoCrcOff,
        Why::AutoPreOn,
        Why::DriverOff,
    ];

    /// A device that answers all kinds of packets.
    fn answering() -> Bench {
        Bench::new(&[(SWITCHES1, 0x25), (CONTROL1, EVERY_KIND)])
    }

    #[test]
    fn why_has_the_texts_of_the_paper() {
        let texts = [
            "refused 11",
            "refused 9",
            "kind off",
            "CRC wrong",
            "no room",
            "it is a GoodCRC",
            "AUTO_CRC off",
            "AUTO_PRE on",
            "driver off",
        ];
        assert_eq!(REASONS.map(Why::text), texts);
        assert_eq!(Why::Leaves.text(), "leaves");
    }

    #[test]
    fn each_reason_alone() {
        // CRC-32 of 42 0A is 6343D666, that of 42 is 4AD0CF31, that of 41 0A is 486E85A5.
        let request = [0x42, 0x0A, 0x66, 0xD6, 0x43, 0x63];
        let short = [0x42, 0x31, 0xCF, 0xD0, 0x4A];
        let wrong = [0x42, 0x0A, 0x66, 0xD6, 0x43, 0x62];
        let good_crc = [0x41, 0x0A, 0xA5, 0x85, 0x6E, 0x48];
        for (switches1, control0, control1, held, kind, packet, why) in [
            (0x25, 0x24, 0x01, 73, 1, &request[..], Why::Leaves),
            (0x25, 0x24, 0x01, 73, 5, &request, Why::NoSuchKind),
            (0x25, 0x24, 0x01, 73, 1, &short, Why::LengthOutside),
            (0x25, 0x24, 0x62, 73, 1, &request, Why::KindOff),
            (0x25, 0x24, 0x01, 73, 1, &wrong, Why::CrcWrong),
            (0x25, 0x24, 0x01, 74, 1, &request, Why::NoRoom),
            (0x25, 0x24, 0x01, 73, 1, &good_crc, Why::ItIsAGoodCrc),
            (0x21, 0x24, 0x01, 73, 1, &request, Why::AutoCrcOff),
            (0x25, 0x26, 0x01, 73, 1, &request, Why::AutoPreOn),
            (0x24, 0x24, 0x01, 73, 1, &request, Why::DriverOff),
        ] {
            let registers = [
                (SWITCHES1, switches1),
                (CONTROL0, control0),
                (CONTROL1, control1),
            ];
            let mut bench = Bench::new(&registers);
            bench.hold(held);
            assert_eq!(bench.device.why(kind, packet), why);
        }
    }

    /// A device, a kind and a packet with these reasons, as far as they go together, and with no others.
    fn with_reasons(reasons: &[Why]) -> (Bench, u32, Vec<u8>) {
        let applies = |reason| reasons.contains(&reason);
        let auto_crc = bit_if(!applies(Why::AutoCrcOff), AUTO_CRC);
        let driver = bit_if(!applies(Why::DriverOff), TXCC1);
        let mut bench = Bench::new(&[
            (SWITCHES1, auto_crc | driver),
            (CONTROL0, bit_if(applies(Why::AutoPreOn), AUTO_PRE)),
            (CONTROL1, bit_if(!applies(Why::KindOff), ENSOP1)),
        ]);
        bench.hold(if applies(Why::NoRoom) { 80 } else { 0 });

        let kind = if applies(Why::NoSuchKind) { 5 } else { 1 };
        let message_type = bit_if(applies(Why::ItIsAGoodCrc), 0x01);
        let mut message = vec![message_type, 0x00];
        if applies(Why::LengthOutside) {
            message.resize(31, 0x00);
        }
        let mut packet = packet_of(&message);
        if applies(Why::CrcWrong) {
            *packet.last_mut().unwrap() ^= 0x80;
        }
        (bench, kind, packet)
    }

    #[test]
    fn first_of_several_reasons_is_named() {
        // Every set of reasons, and with them each alone and each pair of neighbours.
        for set in 0..1 << REASONS.len() {
            let mut reasons = REASONS.to_vec();
            reasons.retain(|&reason| set >> reason as u32 & 1 == 1);
            let first = reasons.first().copied().unwrap_or(Why::Leaves);
            let (mut bench, kind, packet) = with_reasons(&reasons);
            assert_eq!(bench.device.why(kind, &packet), first, "{reasons:?}");
            let refused = bench.hear_packet(kind, &packet).is_err();
            assert_eq!((refused, bench.sent() > 0), (set & 3 != 0, set == 0));
        }
    }

    #[test]
    fn why_of_kinds_above_4() {
        let bench = answering();
        let packet = packet_of(&[0x42, 0x0A]);
        for kind in 0..=4 {
            assert_eq!(bench.device.why(kind, &packet), Why::Leaves);
        }
        for kind in [5, 6, 255, 256, 257, 65_536, u32::MAX] {
            assert_eq!(bench.device.why(kind, &packet), Why::NoSuchKind);
            assert_eq!(bench.device.why(kind, &[]), Why::NoSuchKind);
        }
    }

    #[test]
    fn why_of_every_length() {
        let bench = answering();
        for length in 0..=255 {
            let why = match length {
                6..=34 => Why::Leaves,
                _ => Why::LengthOutside,
            };
            let packet = match length {
                0..=3 => vec![0; length],
                _ => packet_of(&vec![0; length - 4]),
            };
            assert_eq!(bench.device.why(0, &packet), why, "{length}");
            assert_eq!(bench.device.why(4, &packet), why, "{length}");
        }
    }

    #[test]
    fn why_of_kinds_by_every_value_of_control1() {
        let packet = packet_of(&[0x42, 0x0A]);
        for control1 in 0..=255 {
            let bench = Bench::new(&[(SWITCHES1, 0x25), (CONTROL1, control1)]);
            assert_eq!(bench.device.why(0, &packet), Why::Leaves);
            for (kind, bit) in [(1, 0x01), (2, 0x02), (3, 0x20), (4, 0x40)] {
                let why = if control1 & bit == 0 {
                    Why::KindOff
                } else {
                    Why::Leaves
                };
                assert_eq!(bench.device.why(kind, &packet), why, "{control1:02X}");
            }
        }
    }

    #[test]
    fn why_of_every_wrong_bit() {
        let mut bench = answering();
        for message in [&[0x42, 0x0A][..], &[0x41, 0x0A], &[0x42; 30]] {
            let packet = packet_of(message);
            for place in 0..packet.len() {
                for bit in 0..8 {
                    let mut wrong = packet.clone();
                    wrong[place] ^= 1 << bit;
                    assert_eq!(bench.device.why(3, &wrong), Why::CrcWrong);
                }
            }
        }
        // CRC_CHK is of the packet before and has no part in it.
        let request = packet_of(&[0x42, 0x0A]);
        bench.hear(0, &[0x42, 0x0A]);
        assert_eq!(bench.device.why(0, &[0x42; 6]), Why::CrcWrong);
        assert_eq!(bench.hear_packet(0, &[0x42; 6]), Ok(()));
        assert_eq!(bench.device.why(0, &request), Why::Leaves);
    }

    #[test]
    fn why_by_the_room_in_rx() {
        for length in 6..=34 {
            let packet = packet_of(&vec![0; length - 4]);
            for (held, why) in [(79 - length, Why::Leaves), (80 - length, Why::NoRoom)] {
                let mut bench = answering();
                bench.hold(held);
                assert_eq!(bench.device.why(2, &packet), why, "{length}");
            }
        }
        // What was read or flushed makes room again.
        let mut bench = answering();
        let request = packet_of(&[0x42, 0x0A]);
        bench.hold(74);
        assert_eq!(bench.device.why(0, &request), Why::NoRoom);
        bench.read(FIFOS);
        assert_eq!(bench.device.why(0, &request), Why::Leaves);
        bench.hear(0, &[0x42, 0x0A]);
        assert_eq!(bench.device.why(0, &request), Why::NoRoom);
        assert_eq!(bench.write(CONTROL1, RX_FLUSH), Ok(()));
        assert_eq!(bench.device.why(0, &request), Why::Leaves);
    }

    #[test]
    fn why_of_every_header() {
        let bench = answering();
        for header in 0..=u16::MAX {
            // Type 1 and count 0, by all bits but 4 and 15, which are disregarded.
            let why = match (header & 0xF, header >> 12 & 7) {
                (1, 0) => Why::ItIsAGoodCrc,
                _ => Why::Leaves,
            };
            let packet = packet_of(&header.to_le_bytes());
            assert_eq!(bench.device.why(0, &packet), why, "{header:04X}");
        }
        for header in [[0x41, 0x0A], [0x51, 0x8A], [0x41, 0x1A]] {
            for length in 3..=30 {
                let mut message = header.to_vec();
                message.resize(length, 0x00);
                assert_eq!(bench.device.why(0, &packet_of(&message)), Why::Leaves);
            }
        }
    }

    #[test]
    fn why_by_every_value_of_switches1_and_control0() {
        let packet = packet_of(&[0x42, 0x0A]);
        for switches1 in 0..=255 {
            for control0 in (0..=255).filter(|value| value & TX_START == 0) {
                let bench = Bench::new(&[(SWITCHES1, switches1), (CONTROL0, control0)]);
                let why = match (switches1 & 0x04, control0 & 0x02, switches1 & 0x03) {
                    (0x00, _, _) => Why::AutoCrcOff,
                    (_, 0x02, _) => Why::AutoPreOn,
                    (_, _, 0b00 | 0b11) => Why::DriverOff,
                    (_, _, _) => Why::Leaves,
                };
                let registers = format!("{switches1:02X} {control0:02X}");
                assert_eq!(bench.device.why(0, &packet), why, "{registers}");
            }
        }
    }

    #[test]
    fn open_request_is_no_reason() {
        let mut bench = Bench::started(0x07);
        let (request, good_crc) = (packet_of(&[0x42, 0x00]), packet_of(&[0x41, 0x00]));
        assert_eq!(bench.device.why(0, &request), Why::AutoCrcOff);
        // The latched bits decide nothing here: the reply goes by 03 as it stands.
        assert_eq!(bench.write(SWITCHES1, 0x26), Ok(()));
        assert_eq!(bench.device.why(0, &request), Why::Leaves);
        assert_eq!(bench.write(SWITCHES1, 0x24), Ok(()));
        assert_eq!(bench.device.why(0, &request), Why::DriverOff);
        // The GoodCRC that is awaited is one like any other.
        assert_eq!(bench.device.why(0, &good_crc), Why::ItIsAGoodCrc);
        bench.hold(77);
        assert_eq!(bench.device.why(0, &good_crc), Why::NoRoom);
        assert!(bench.device.request.is_some());
    }

    /// Numbers that repeat from run to run and show no pattern (Knuth's MMIX generator).
    struct Numbers(u64);

    impl Numbers {
        fn below(&mut self, limit: u8) -> u8 {
            self.0 = self.0.wrapping_mul(6_364_136_223_846_793_005);
            self.0 = self.0.wrapping_add(1_442_695_040_888_963_407);
            (self.0 >> 33) as u8 % limit
        }

        fn one_of<T: Copy>(&mut self, choices: &[T]) -> T {
            choices[usize::from(self.below(choices.len() as u8))]
        }
    }

    /// Does to the device what may change an answer, or opens a request.
    fn change(bench: &mut Bench, numbers: &mut Numbers) {
        match numbers.below(6) {
            0 => {
                let switches1 = numbers.one_of(&[0x25, 0x26, 0x25, 0x26, 0x21, 0x24, 0x27, 0x00]);
                assert_eq!(bench.write(SWITCHES1, switches1), Ok(()));
            }
            1 => {
                let control0 = numbers.one_of(&[0x24, 0x00, 0x40, 0x26]);
                assert_eq!(bench.write(CONTROL0, control0), Ok(()));
            }
            2 => {
                let control1 = numbers.one_of(&[EVERY_KIND, 0x67, 0x21, 0x42, 0x10]);
                assert_eq!(bench.write(CONTROL1, control1), Ok(()));
            }
            3 => {
                for _ in 0..numbers.below(80) {
                    let _ = bench.device.read(FIFOS);
                }
            }
            4 => {
                for octet in MESSAGE.into_iter().chain([0xA1]) {
                    let _ = bench.write(FIFOS, octet);
                }
            }
            _ => assert_eq!(bench.pass(1_000), Ok(())),
        }
    }

    #[test]
    fn leaves_exactly_when_hearing_it_sends_a_reply() {
        let mut numbers = Numbers(5);
        let mut bench = answering();
        let mut named = [0; REASONS.len() + 1];
        for _ in 0..100_000 {
            change(&mut bench, &mut numbers);
            let length = numbers.one_of(&[2, 2, 2, 3, 29, 30, 1, 31]);
            let mut message = vec![0; length];
            message[0] = numbers.one_of(&[0x41, 0x51, 0x42, 0x4D]);
            if length > 1 {
                message[1] = numbers.one_of(&[0x00, 0x0A, 0x80, 0x1A]);
            }
            let mut packet = packet_of(&message);
            packet[length] ^= numbers.one_of(&[0x00, 0x00, 0x00, 0x01]);
            let kind = u32::from(numbers.below(6));

            let why = bench.device.why(kind, &packet);
            named[why as usize] += 1;
            let heard = bench.hear_packet(kind, &packet);
            assert_eq!(why == Why::Leaves, bench.sent() > 0, "{why:?}");
            let refusal = match why {
                Why::NoSuchKind => Err(Refusal::NoSuchKind),
                Why::LengthOutside => Err(Refusal::LengthOutside),
                _ => Ok(()),
            };
            assert_eq!(heard, refusal);
        }
        assert!(named.into_iter().all(|times| times > 1_000), "{named:?}");
    }

    /// All that a device shows, up to the end of an open request.
    fn shown(mut bench: Bench) -> Vec<Vec<u8>> {
        let registers = (DEVICE_ID..=CONTROL4).chain(STATUS0A..=INTERRUPT);
        let mut shown = vec![registers.map(|address| bench.read(address)).collect()];
        shown.push(iter::from_fn(|| bench.device.read(FIFOS).ok()).collect());
        shown.push(bench.device.tx.octets[..bench.device.tx.held].to_vec());
        for _ in 0..9 * 4 {
            assert_eq!(bench.pass(250), Ok(()));
            shown.push(bench.line.symbols().to_vec());
        }
        shown
    }

    #[test]
    fn asking_leaves_the_device_as_it_was() {
        // A request awaits the GoodCRC of MessageID 0 on SOP, and Rx has room for a packet of 33 octets.
        let device = |crc_wrong| {
            let mut bench = Bench::started(0x1F);
            assert_eq!(bench.write(SWITCHES1, 0x25), Ok(()));
            bench.hold(46);
            bench.read(INTERRUPT);
            if crc_wrong {
                assert_eq!(bench.hear_packet(0, &[0x42; 6]), Ok(()));
            }
            bench
        };
        for crc_wrong in [false, true] {
            let before = shown(device(crc_wrong));
            for (kind, packet, why) in [
                (5, packet_of(&[0x42, 0x00]), Why::NoSuchKind),
                (0, packet_of(&[0x42]), Why::LengthOutside),
                (1, packet_of(&[0x42, 0x00]), Why::KindOff),
                (0, vec![0x42; 6], Why::CrcWrong),
                (0, packet_of(&[0x42; 30]), Why::NoRoom),
                (0, packet_of(&[0x41, 0x00]), Why::ItIsAGoodCrc),
                (0, packet_of(&[0x4D, 0x00]), Why::Leaves),
                (0, packet_of(&[0x42; 29]), Why::Leaves),
            ] {
                let asked = device(crc_wrong);
                assert_eq!(asked.device.why(kind, &packet), why);
                assert_eq!(asked.device.why(kind, &packet), why);
                assert_eq!(shown(asked), before, "{why:?}");
                // Hearing it would show, so the comparison can fail.
                let mut heard = device(crc_wrong);
                let _ = heard.hear_packet(kind, &packet);
                let nothing_changes = matches!(
                    (why, crc_wrong),
                    (Why::NoSuchKind | Why::LengthOutside | Why::KindOff, _)
                        | (Why::CrcWrong, true)
                );
                assert_eq!(shown(heard) == before, nothing_changes, "{why:?}");
            }
        }
    }
}
