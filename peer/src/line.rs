//! The line code of USB Power Delivery: symbols, CRC-32, headers, the frame writer and reader (01 'Line code'), which takes
//! a set that is nearly right (02, A4).

const SYNC_1: u8 = 0x18;
const SYNC_2: u8 = 0x11;
const SYNC_3: u8 = 0x06;
const RST_1: u8 = 0x07;
const RST_2: u8 = 0x19;
const EOP: u8 = 0x0D;

/// The symbols of the nibbles 0 to F.
const NIBBLE_SYMBOLS: [u8; 16] = [
    0x1E, 0x09, 0x14, 0x15, 0x0A, 0x0B, 0x0E, 0x0F, 0x12, 0x13, 0x16, 0x17, 0x1A, 0x1B, 0x1C, 0x1D,
];

/// The kinds of packets, in the order of their numbers 0 to 4.
#[derive(Clone, Copy, Debug, PartialEq, Eq)]
pub enum Kind {
    Sop,
    Sop1,
    Sop2,
    Sop1Db,
    Sop2Db,
}

impl Kind {
    pub const fn numbered(number: u32) -> Option<Self> {
        match number {
            0 => Some(Kind::Sop),
            1 => Some(Kind::Sop1),
            2 => Some(Kind::Sop2),
            3 => Some(Kind::Sop1Db),
            4 => Some(Kind::Sop2Db),
            _ => None,
        }
    }

    const fn ordered_set(self) -> [u8; 4] {
        SETS[self as usize]
    }
}

/// The number of a Hard Reset where kinds are numbered, and the first whose set is a frame by itself.
const HARD_RESET_NUMBER: usize = 5;

/// The ordered sets by number.
const SETS: &[[u8; 4]] = &[
    [SYNC_1, SYNC_1, SYNC_1, SYNC_2],
    [SYNC_1, SYNC_1, SYNC_3, SYNC_3],
    [SYNC_1, SYNC_3, SYNC_1, SYNC_3],
    [SYNC_1, RST_2, RST_2, SYNC_3],
    [SYNC_1, RST_2, SYNC_3, SYNC_2],
    [RST_1, RST_1, RST_1, RST_2],
];

const SHORTEST_MESSAGE: usize = 2;
const LONGEST_MESSAGE: usize = 30;

/// How many octets a CRC has, least significant first.
pub const CRC_LENGTH: usize = 4;

const CRC_POLYNOMIAL: u32 = 0xEDB8_8320;

/// What eight steps of the reflected CRC make of each octet.
const CRC_TABLE: [u32; 256] = {
    let mut table = [0; 256];
    let mut octet = 0;
    while octet < 256 {
        let mut remainder = octet as u32;
        let mut step = 0;
        while step < 8 {
            remainder = if remainder & 1 == 1 {
                (remainder >> 1) ^ CRC_POLYNOMIAL
            } else {
                remainder >> 1
            };
            step += 1;
        }
        table[octet] = remainder;
        octet += 1;
    }
    table
};

pub fn crc32(octets: &[u8]) -> u32 {
    !octets.iter().fold(u32::MAX, |crc, &octet| {
        (crc >> 8) ^ CRC_TABLE[usize::from(crc as u8 ^ octet)]
    })
}

/// The control messages the device tells apart and builds, by their type.
#[derive(Clone, Copy, Debug, PartialEq, Eq)]
pub enum Control {
    GoodCrc = 0x1,
    SoftReset = 0xD,
}

/// A message header; bits 4 and 15 are disregarded when heard and 0 when built.
#[derive(Clone, Copy)]
pub struct Header(u16);

impl Header {
    const DATA_ROLE: u32 = 5;
    const REVISION: u32 = 6;
    const POWER_ROLE: u32 = 8;
    const MESSAGE_ID: u32 = 9;
    const DATA_OBJECTS: u32 = 12;

    pub const fn of(low: u8, high: u8) -> Self {
        Header(u16::from_le_bytes([low, high]))
    }

    pub fn control(control: Control, roles: Roles, message_id: u8) -> Self {
        Header(
            control as u16
                | u16::from(roles.data) << Self::DATA_ROLE
                | u16::from(roles.revision & 3) << Self::REVISION
                | u16::from(roles.power) << Self::POWER_ROLE
                | u16::from(message_id & 7) << Self::MESSAGE_ID,
        )
    }

    pub const fn message_type(self) -> u16 {
        self.0 & 0xF
    }

    pub const fn message_id(self) -> u8 {
        (self.0 >> Self::MESSAGE_ID) as u8 & 7
    }

    pub const fn data_objects(self) -> u16 {
        self.0 >> Self::DATA_OBJECTS & 7
    }

    pub const fn octets(self) -> [u8; 2] {
        self.0.to_le_bytes()
    }
}

/// What a built header says of its sender.
#[derive(Clone, Copy)]
pub struct Roles {
    pub power: bool,
    pub data: bool,
    pub revision: u8,
}

/// The symbols that leave in one event: those of one frame, or none; and what the frame was written from.
#[derive(Clone)]
pub struct Frame {
    symbols: [u8; Self::LONGEST],
    length: usize,
    number: usize,
    message: [u8; LONGEST_MESSAGE],
    message_length: usize,
}

impl Frame {
    /// Ordered set, 30 octets and the CRC as two symbols each, EOP.
    pub const LONGEST: usize = 4 + 2 * (LONGEST_MESSAGE + CRC_LENGTH) + 1;

    pub const fn silent() -> Self {
        Frame {
            symbols: [0; Self::LONGEST],
            length: 0,
            number: 0,
            message: [0; LONGEST_MESSAGE],
            message_length: 0,
        }
    }

    pub fn clear(&mut self) {
        self.length = 0;
    }

    pub fn symbols(&self) -> &[u8] {
        &self.symbols[..self.length]
    }

    /// The number of the kind and the message that the frame was written from, if there is one.
    pub fn origin(&self) -> Option<(usize, &[u8])> {
        let message = &self.message[..self.message_length];
        (self.length > 0).then_some((self.number, message))
    }

    /// Writes the frame of a message of 2 to 30 octets.
    pub fn write_message(&mut self, kind: Kind, message: &[u8]) {
        self.clear();
        self.number = kind as usize;
        self.message[..message.len()].copy_from_slice(message);
        self.message_length = message.len();
        self.push(&kind.ordered_set());
        self.push_octets(message);
        self.push_octets(&crc32(message).to_le_bytes());
        self.push(&[EOP]);
    }

    pub fn write_hard_reset(&mut self) {
        self.clear();
        self.number = HARD_RESET_NUMBER;
        self.message_length = 0;
        self.push(&SETS[HARD_RESET_NUMBER]);
    }

    fn push(&mut self, symbols: &[u8]) {
        let end = self.length + symbols.len();
        self.symbols[self.length..end].copy_from_slice(symbols);
        self.length = end;
    }

    fn push_octets(&mut self, octets: &[u8]) {
        let end = self.length + 2 * octets.len();
        let pairs = self.symbols[self.length..end].chunks_exact_mut(2);
        for (pair, &octet) in pairs.zip(octets) {
            pair[0] = NIBBLE_SYMBOLS[usize::from(octet & 0xF)];
            pair[1] = NIBBLE_SYMBOLS[usize::from(octet >> 4)];
        }
        self.length = end;
    }
}

/// How the beginning of a frame fits the set that it is taken as, by the number of places in which they agree.
#[derive(Clone, Copy, Debug, PartialEq, Eq)]
pub enum Fit {
    ThreeOfFour = 3,
    Exact = 4,
}

/// The number of the kind that four symbols are taken as, and how they fit its set (02, A4).
fn recognise(symbols: [u8; 4]) -> Option<(usize, Fit)> {
    [Fit::Exact, Fit::ThreeOfFour]
        .into_iter()
        .find_map(|fit| only_kind_that_fits(symbols, fit).map(|number| (number, fit)))
}

/// None also where several kinds fit, since nothing tells which of them was meant.
fn only_kind_that_fits(symbols: [u8; 4], fit: Fit) -> Option<usize> {
    let mut fitting =
        (0..SETS.len()).filter(|&kind| agreement(SETS[kind], symbols) == fit as usize);
    let only = fitting.next()?;
    fitting.next().is_none().then_some(only)
}

/// In how many places the symbols are those of the set.
fn agreement(set: [u8; 4], symbols: [u8; 4]) -> usize {
    set.iter()
        .zip(symbols)
        .filter(|&(&of_set, symbol)| of_set == symbol)
        .count()
}

/// A frame that was read: the number of its kind, how its set fitted, and its octets with CRC, none if it is a set alone.
pub struct Whole<'a> {
    pub number: usize,
    pub fit: Fit,
    pub octets: &'a [u8],
}

/// Why a record does not go on with a frame, by its number in 01.
#[derive(Clone, Copy, Debug, PartialEq, Eq)]
pub enum Unread {
    NoFrame = 13,
    CutShort = 14,
    WrongCrc = 15,
}

/// Reads a record frame after frame, one symbol at a time (01 'Line reader').
pub struct Reader {
    /// How many symbols of the frame under way were taken.
    taken: usize,
    set: [u8; 4],
    /// What the set was taken as, once all of it was there.
    number: usize,
    fit: Fit,
    octets: [u8; Self::MOST_OCTETS],
}

impl Reader {
    const FEWEST_OCTETS: usize = SHORTEST_MESSAGE + CRC_LENGTH;
    const MOST_OCTETS: usize = LONGEST_MESSAGE + CRC_LENGTH;

    pub const fn new() -> Self {
        Reader {
            taken: 0,
            set: [0; 4],
            number: 0,
            fit: Fit::Exact,
            octets: [0; Self::MOST_OCTETS],
        }
    }

    /// Takes a symbol and answers the frame that it ends, if it ends one. A refusal has its place, counted from where the
    /// frame began.
    pub fn take(&mut self, symbol: u8) -> Result<Option<Whole<'_>>, (Unread, usize)> {
        let place = self.taken;
        self.taken += 1;
        // A set is refused with all its four symbols, so the place is where they begin.
        let (taken, refused_at) = match place.checked_sub(self.set.len()) {
            None => (self.take_of_set(place, symbol), 0),
            Some(nibbles) if symbol == EOP => (self.end(nibbles).map(Some), place),
            Some(nibbles) => (self.take_nibble(nibbles, symbol), place),
        };
        taken.map_err(|unread| (unread, refused_at))
    }

    /// Decides nothing before the fourth symbol, since any one of the four may be wrong.
    fn take_of_set(&mut self, place: usize, symbol: u8) -> Result<Option<Whole<'_>>, Unread> {
        self.set[place] = symbol;
        if self.taken < self.set.len() {
            return Ok(None);
        }
        (self.number, self.fit) = recognise(self.set).ok_or(Unread::NoFrame)?;
        if self.number < HARD_RESET_NUMBER {
            return Ok(None);
        }
        Ok(Some(self.whole(0)))
    }

    fn take_nibble(&mut self, nibbles: usize, symbol: u8) -> Result<Option<Whole<'_>>, Unread> {
        let nibble = NIBBLE_SYMBOLS.iter().position(|&one| one == symbol);
        let nibble = nibble.ok_or(Unread::NoFrame)? as u8;
        let octet = self.octets.get_mut(nibbles / 2).ok_or(Unread::NoFrame)?;
        *octet = match nibbles % 2 {
            0 => nibble,
            _ => nibble << 4 | *octet,
        };
        Ok(None)
    }

    fn end(&mut self, nibbles: usize) -> Result<Whole<'_>, Unread> {
        if nibbles % 2 == 1 || nibbles / 2 < Self::FEWEST_OCTETS {
            return Err(Unread::NoFrame);
        }
        let whole = self.whole(nibbles / 2);
        let (message, crc) = whole.octets.split_at(whole.octets.len() - CRC_LENGTH);
        if crc != crc32(message).to_le_bytes() {
            return Err(Unread::WrongCrc);
        }
        Ok(whole)
    }

    /// The frame under way with its first `count` octets, after which another may begin.
    fn whole(&mut self, count: usize) -> Whole<'_> {
        self.taken = 0;
        Whole {
            number: self.number,
            fit: self.fit,
            octets: &self.octets[..count],
        }
    }
}

#[cfg(test)]
mod tests {
    use super::*;

    #[test]
    fn crc_has_the_check_value() {
        assert_eq!(crc32(b"123456789"), 0xCBF4_3926);
        assert_eq!(crc32(b""), 0);
    }

    #[test]
    fn header_fields_are_in_their_places() {
        let header = Header::of(0xAB, 0x5D);
        assert_eq!(header.message_type(), 0xB);
        assert_eq!(header.message_id(), 6);
        assert_eq!(header.data_objects(), 5);
        for (power, data, revision, message_id, octets) in [
            (false, false, 0, 0, [0x0D, 0x00]),
            (true, false, 0, 0, [0x0D, 0x01]),
            (false, true, 0, 0, [0x2D, 0x00]),
            (false, false, 3, 0, [0xCD, 0x00]),
            (false, false, 0, 7, [0x0D, 0x0E]),
        ] {
            let roles = Roles {
                power,
                data,
                revision,
            };
            let header = Header::control(Control::SoftReset, roles, message_id);
            assert_eq!(header.octets(), octets);
        }
    }

    #[test]
    fn heard_bits_4_and_15_do_not_count() {
        let header = Header::of(0x11, 0x80);
        assert_eq!(header.message_type(), Control::GoodCrc as u16);
        assert_eq!((header.message_id(), header.data_objects()), (0, 0));
    }

    #[test]
    fn frames_are_as_long_as_the_paper_says() {
        let mut frame = Frame::silent();
        assert!(frame.symbols().is_empty());
        frame.write_message(Kind::Sop, &[0; 2]);
        assert_eq!(frame.symbols().len(), 17);
        frame.write_message(Kind::Sop, &[0; 30]);
        assert_eq!(frame.symbols().len(), 73);
        frame.write_hard_reset();
        assert_eq!(frame.symbols(), [0x07, 0x07, 0x07, 0x19]);
    }

    #[test]
    fn frame_has_set_octets_crc_and_eop() {
        let mut frame = Frame::silent();
        for (kind, set) in (0..5).filter_map(Kind::numbered).zip([
            [0x18, 0x18, 0x18, 0x11],
            [0x18, 0x18, 0x06, 0x06],
            [0x18, 0x06, 0x18, 0x06],
            [0x18, 0x19, 0x19, 0x06],
            [0x18, 0x19, 0x06, 0x11],
        ]) {
            frame.write_message(kind, b"123456789");
            let symbols = frame.symbols();
            assert_eq!(symbols[..4], set);
            assert_eq!(symbols[4..8], [0x09, 0x15, 0x14, 0x15]);
            // The check value CBF43926, low octet and low nibble first.
            let crc = [0x0E, 0x14, 0x13, 0x15, 0x0A, 0x1D, 0x17, 0x1A];
            assert_eq!(symbols[22..30], crc);
            assert_eq!(symbols[30..], [0x0D]);
        }
    }

    #[test]
    fn frame_keeps_what_it_was_written_from() {
        let mut frame = Frame::silent();
        assert_eq!(frame.origin(), None);
        frame.write_message(Kind::Sop2Db, &[0x4F, 0x10, 0xC3, 0xA1]);
        assert_eq!(frame.origin(), Some((4, &[0x4F, 0x10, 0xC3, 0xA1][..])));
        frame.write_message(Kind::Sop, &[0x41, 0x00]);
        assert_eq!(frame.clone().origin(), Some((0, &[0x41, 0x00][..])));
        frame.write_hard_reset();
        assert_eq!(frame.origin(), Some((5, &[][..])));
        frame.clear();
        assert_eq!(frame.origin(), None);
    }

    /// Numbers, fits and octets of the whole frames, then why and where the walk stopped before the record's end.
    type Walk = (Vec<(usize, Fit, Vec<u8>)>, Result<(), (Unread, usize)>);

    fn walked(record: &[u8]) -> Walk {
        let mut reader = Reader::new();
        let mut frames = Vec::new();
        let mut begun = 0;
        for (place, &symbol) in record.iter().enumerate() {
            match reader.take(symbol) {
                Ok(None) => {}
                Ok(Some(frame)) => {
                    frames.push((frame.number, frame.fit, frame.octets.to_vec()));
                    begun = place + 1;
                }
                Err((unread, within)) => return (frames, Err((unread, begun + within))),
            }
        }
        if reader.taken > 0 {
            return (frames, Err((Unread::CutShort, record.len())));
        }
        (frames, Ok(()))
    }

    #[test]
    fn reader_reads_what_the_writer_wrote() {
        let mut record = Vec::new();
        let mut written = Vec::new();
        let mut frame = Frame::silent();
        for length in 2..=30 {
            let message: Vec<u8> = (0..length)
                .map(|n: u8| n.wrapping_mul(length) ^ 0xA1)
                .collect();
            for (number, kind) in (0..5).map(|number| (number, Kind::numbered(number).unwrap())) {
                frame.write_message(kind, &message);
                record.extend_from_slice(frame.symbols());
                let octets = [&message[..], &crc32(&message).to_le_bytes()].concat();
                written.push((number as usize, Fit::Exact, octets));
            }
            frame.write_hard_reset();
            record.extend_from_slice(frame.symbols());
            written.push((5, Fit::Exact, Vec::new()));
        }
        assert_eq!(walked(&record), (written, Ok(())));
    }

    #[test]
    fn reader_stops_at_the_first_symbol_that_fits_no_frame() {
        for (record, place) in [
            (&[0x18, 0x18, 0x18, 0x11, 0x18][..], 4),
            (&[0x18, 0x18, 0x18, 0x11, 0x0D], 4),
            (&[0x18, 0x18, 0x18, 0x11, 0x3E], 4),
            (&[0x18, 0x18, 0x18, 0x11, 0x1E, 0x00], 5),
            (&[0x07, 0x07, 0x07, 0x19, 0x0D, 0x0D, 0x0D, 0x0D], 4),
        ] {
            let (_, stop) = walked(record);
            assert_eq!(stop, Err((Unread::NoFrame, place)), "{record:02X?}");
        }
    }

    /// What the reader takes four symbols as.
    fn taken_as(set: [u8; 4]) -> Option<(usize, Fit)> {
        let mut reader = Reader::new();
        for &symbol in &set[..3] {
            assert!(matches!(reader.take(symbol), Ok(None)), "{set:02X?}");
        }
        match reader.take(set[3]) {
            Ok(Some(frame)) => {
                assert!(frame.number >= HARD_RESET_NUMBER && frame.octets.is_empty());
            }
            Ok(None) => assert!(reader.number < HARD_RESET_NUMBER),
            Err(refusal) => {
                assert_eq!(refusal, (Unread::NoFrame, 0), "{set:02X?}");
                return None;
            }
        }
        Some((reader.number, reader.fit))
    }

    /// The sets with their numbers, and what each becomes with any symbol, its own included, at any one of its places.
    fn one_symbol_changes() -> impl Iterator<Item = (usize, [u8; 4], [u8; 4])> {
        SETS.iter().enumerate().flat_map(|(number, &set)| {
            (0..4).flat_map(move |place| {
                (0..=255).map(move |symbol| {
                    let mut changed = set;
                    changed[place] = symbol;
                    (number, set, changed)
                })
            })
        })
    }

    /// All the symbols that agree in three places with several sets, and the numbers of these.
    const DOUBTFUL: &[([u8; 4], &[usize])] = &[
        ([0x18, 0x06, 0x06, 0x06], &[1, 2]),
        ([0x18, 0x06, 0x18, 0x11], &[0, 2]),
        ([0x18, 0x06, 0x19, 0x06], &[2, 3]),
        ([0x18, 0x18, 0x06, 0x11], &[0, 1, 4]),
        ([0x18, 0x18, 0x18, 0x06], &[0, 1, 2]),
        ([0x18, 0x18, 0x19, 0x06], &[1, 3]),
        ([0x18, 0x19, 0x06, 0x06], &[1, 3, 4]),
        ([0x18, 0x19, 0x18, 0x06], &[2, 3]),
        ([0x18, 0x19, 0x18, 0x11], &[0, 4]),
        ([0x18, 0x19, 0x19, 0x11], &[3, 4]),
    ];

    #[test]
    fn no_one_symbol_change_makes_another_kind() {
        for (number, set, changed) in one_symbol_changes() {
            let expected = if changed == set {
                Some((number, Fit::Exact))
            } else if DOUBTFUL.iter().any(|&(symbols, _)| symbols == changed) {
                None
            } else {
                Some((number, Fit::ThreeOfFour))
            };
            assert_eq!(taken_as(changed), expected, "{changed:02X?}");
        }
    }

    #[test]
    fn symbols_near_several_sets_are_refused() {
        for &(symbols, kinds) in DOUBTFUL {
            assert_eq!(taken_as(symbols), None, "{symbols:02X?}");
            let near = one_symbol_changes().filter(|&(_, _, changed)| changed == symbols);
            let near: Vec<usize> = near.map(|(number, _, _)| number).collect();
            assert_eq!(near, kinds, "{symbols:02X?}");
        }
        let stop = Err((Unread::NoFrame, 0));
        assert_eq!(walked(&[0x18, 0x18, 0x06, 0x11]), (vec![], stop));
    }

    #[test]
    fn two_wrong_symbols_never_make_the_kind_that_was_sent() {
        let symbols = [
            0x18, 0x11, 0x06, 0x07, 0x19, 0x0D, 0x00, 0x1E, 0x20, 0x38, 0xFF,
        ];
        for (number, set, once) in one_symbol_changes().filter(|(_, set, once)| set != once) {
            for (place, symbol) in (0..4).flat_map(|place| symbols.map(|symbol| (place, symbol))) {
                if once[place] != set[place] || symbol == set[place] {
                    continue;
                }
                let mut twice = once;
                twice[place] = symbol;
                let kind = taken_as(twice).map(|(kind, _)| kind);
                assert_ne!(kind, Some(number), "{twice:02X?}");
            }
        }
    }

    #[test]
    fn two_wrong_symbols_are_refused_unless_they_come_near_another_set() {
        for set in SETS {
            for (one, other) in [(0, 1), (0, 2), (0, 3), (1, 2), (1, 3), (2, 3)] {
                let mut changed = *set;
                (changed[one], changed[other]) = (0x00, 0xFF);
                assert_eq!(taken_as(changed), None, "{changed:02X?}");
            }
        }
        // SOP with the last two symbols of SOP', and with the last one of these.
        let sop1 = Some((1, Fit::Exact));
        assert_eq!(taken_as([0x18, 0x18, 0x06, 0x06]), sop1);
        let near_sop1 = Some((1, Fit::ThreeOfFour));
        assert_eq!(taken_as([0x18, 0x18, 0x00, 0x06]), near_sop1);
    }

    #[test]
    fn two_misread_symbols_are_seldom_another_kind() {
        let (mut exact, mut near, mut refused) = (0, 0, 0);
        for &set in SETS {
            for (one, other) in [(0, 1), (0, 2), (0, 3), (1, 2), (1, 3), (2, 3)] {
                for (first, second) in
                    (0..32).flat_map(|first| (0..32).map(move |second| (first, second)))
                {
                    if first == set[one] || second == set[other] {
                        continue;
                    }
                    let mut misread = set;
                    (misread[one], misread[other]) = (first, second);
                    match taken_as(misread) {
                        Some((_, Fit::Exact)) => exact += 1,
                        Some((_, Fit::ThreeOfFour)) => near += 1,
                        None => refused += 1,
                    }
                }
            }
        }
        assert_eq!((exact, near, refused), (16, 942, 33_638));
    }

    #[test]
    fn symbols_above_31_may_be_the_wrong_one_of_a_set() {
        for (symbols, number) in [
            ([0x38, 0x18, 0x18, 0x11], Some(0)),
            ([0x18, 0x18, 0x18, 0x31], Some(0)),
            ([0x18, 0x18, 0x06, 0x20], Some(1)),
            ([0x18, 0x26, 0x18, 0x06], Some(2)),
            ([0x18, 0x19, 0xF9, 0x06], Some(3)),
            ([0xFF, 0x19, 0x06, 0x11], Some(4)),
            ([0x07, 0x07, 0x87, 0x19], Some(5)),
            ([0x38, 0x38, 0x18, 0x11], None),
            ([0x07, 0x07, 0x27, 0x39], None),
            ([0xFF, 0xFF, 0xFF, 0xFF], None),
        ] {
            let expected = number.map(|number| (number, Fit::ThreeOfFour));
            assert_eq!(taken_as(symbols), expected, "{symbols:02X?}");
        }
    }

    #[test]
    fn fewer_than_four_symbols_are_cut_short_whatever_they_are() {
        let hard_reset = SETS[HARD_RESET_NUMBER];
        assert_eq!(walked(&[]), (vec![], Ok(())));
        assert_eq!(walked(&hard_reset).1, Ok(()));
        let alike = (0..=255).map(|symbol| [symbol; 3]);
        for symbols in alike.chain([[0x18, 0x18, 0x11], [0x18, 0x07, 0x0D]]) {
            for length in 1..=3 {
                let begun = &symbols[..length];
                let stop = Err((Unread::CutShort, length));
                assert_eq!(walked(begun), (vec![], stop), "{begun:02X?}");
                let stop = Err((Unread::CutShort, 4 + length));
                assert_eq!(walked(&[&hard_reset, begun].concat()).1, stop);
            }
        }
    }

    #[test]
    fn after_a_set_that_is_taken_all_is_as_if_it_had_been_exact() {
        let mut frame = Frame::silent();
        frame.write_message(Kind::Sop, &[0x4F, 0x10, 0x6C, 0xC3, 0xA1, 0x21]);
        let rest = &frame.symbols()[4..];
        let wrong_crc = [&rest[..3], &[NIBBLE_SYMBOLS[0xE]], &rest[4..]].concat();
        let rests = [
            rest.to_vec(),
            rest[..9].to_vec(),
            [rest, frame.symbols()].concat(),
            [rest, &[0x18, 0x18, 0x06, 0x11]].concat(),
            [rest, &[0x18, 0x18, 0x18]].concat(),
            [&rest[..5], &[0x3E], rest].concat(),
            [&rest[..7], &[EOP]].concat(),
            [rest, &wrong_crc].concat(),
            wrong_crc,
            vec![],
        ];
        for (number, set, changed) in one_symbol_changes() {
            if taken_as(changed) != Some((number, Fit::ThreeOfFour)) {
                continue;
            }
            for rest in &rests {
                let (mut frames, stop) = walked(&[&set, &rest[..]].concat());
                if let Some((_, fit, _)) = frames.first_mut() {
                    *fit = Fit::ThreeOfFour;
                }
                assert_eq!(walked(&[&changed, &rest[..]].concat()), (frames, stop));
            }
        }
    }

    #[test]
    fn reader_knows_how_long_a_frame_may_be() {
        for nibbles in 0..=69 {
            let record = [&Kind::Sop.ordered_set()[..], &vec![0x1E; nibbles], &[EOP]].concat();
            // Octets of 0 alone have a CRC that is not 0.
            let stop = match nibbles {
                69 => (Unread::NoFrame, 4 + 68),
                12.. if nibbles % 2 == 0 => (Unread::WrongCrc, 4 + nibbles),
                _ => (Unread::NoFrame, 4 + nibbles),
            };
            assert_eq!(walked(&record), (vec![], Err(stop)), "{nibbles}");
        }
    }

    #[test]
    fn reader_finds_every_cut_and_every_wrong_nibble() {
        let mut frame = Frame::silent();
        frame.write_message(Kind::Sop1, &[0x4F, 0x10, 0x6C, 0xC3, 0xA1, 0x21]);
        let symbols = frame.symbols();
        assert_eq!(walked(&[]), (vec![], Ok(())));
        for length in 1..symbols.len() {
            let stop = Err((Unread::CutShort, length));
            assert_eq!(walked(&symbols[..length]), (vec![], stop));
        }
        for place in 4..symbols.len() - 1 {
            for other in NIBBLE_SYMBOLS {
                let mut changed = symbols.to_vec();
                changed[place] = other;
                let stop = walked(&changed).1;
                if other == symbols[place] {
                    assert_eq!(stop, Ok(()));
                } else {
                    assert_eq!(stop, Err((Unread::WrongCrc, symbols.len() - 1)));
                }
            }
        }
    }
}
