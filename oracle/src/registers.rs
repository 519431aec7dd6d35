//! The registers, and their image of 23 bytes.

/// Bytes of a state image.
pub const IMAGE_LENGTH: usize = 23;

/// A state image, legal or not.
pub type Image = [u8; IMAGE_LENGTH];

/// The fields of the image, in its order.
pub const FIELDS: [&str; IMAGE_LENGTH] = [
    "page",
    "column",
    "start line",
    "offset",
    "multiplex",
    "contrast",
    "resistor ratio",
    "power control",
    "bias",
    "quarter bias",
    "byte of A9",
    "frame phases",
    "column direction",
    "row direction",
    "entire on",
    "reverse",
    "display on",
    "indicator on",
    "indicator mode",
    "awaited code",
    "read-modify-write",
    "saved column",
    "fresh",
];

/// The first byte of a two-byte command, held until its n is taken.
#[derive(Clone, Copy, PartialEq, Eq, Debug)]
pub enum Awaited {
    /// 81: n sets the contrast.
    Contrast,
    /// A8: n sets the multiplex.
    Multiplex,
    /// A9: n is held.
    ByteOfA9,
    /// AD: n sets the indicator mode.
    Indicator,
    /// D3: n sets the offset.
    Offset,
    /// D4: n sets the frame phases.
    FramePhases,
}

impl Awaited {
    /// Every first byte there is.
    pub const ALL: [Awaited; 6] = [
        Awaited::Contrast,
        Awaited::Multiplex,
        Awaited::ByteOfA9,
        Awaited::Indicator,
        Awaited::Offset,
        Awaited::FramePhases,
    ];

    /// The awaited code as it stands in the image.
    #[must_use]
    pub const fn code(self) -> u8 {
        match self {
            Awaited::Contrast => 0x81,
            Awaited::Multiplex => 0xA8,
            Awaited::ByteOfA9 => 0xA9,
            Awaited::Indicator => 0xAD,
            Awaited::Offset => 0xD3,
            Awaited::FramePhases => 0xD4,
        }
    }

    /// The first byte with this code, if it is one.
    #[must_use]
    pub fn from_code(code: u8) -> Option<Awaited> {
        Awaited::ALL
            .into_iter()
            .find(|awaited| awaited.code() == code)
    }
}

/// The registers, each within its legal range.
#[derive(Clone, Copy, PartialEq, Eq, Debug)]
#[allow(clippy::struct_excessive_bools)]
pub struct Registers {
    /// 0 to 8.
    pub page: u8,
    /// 0 to 255; data goes only to columns 0 to 131.
    pub column: u8,
    /// 0 to 63.
    pub start_line: u8,
    /// 0 to 63.
    pub offset: u8,
    /// 0 to 63; the dot rows in use are one more.
    pub multiplex: u8,
    /// 0 to 63.
    pub contrast: u8,
    /// 0 to 7.
    pub resistor_ratio: u8,
    /// 0 to 7.
    pub power_control: u8,
    pub bias: bool,
    pub quarter_bias: bool,
    /// Any.
    pub byte_of_a9: u8,
    /// 0 to 3.
    pub frame_phases: u8,
    /// The column direction; true is not normal.
    pub columns_reversed: bool,
    /// The row direction; true is reversed.
    pub rows_reversed: bool,
    pub entire_on: bool,
    pub reverse: bool,
    pub display_on: bool,
    pub indicator_on: bool,
    /// 0 to 3.
    pub indicator_mode: u8,
    /// The code whose n comes next; none is 00 in the image.
    pub awaited: Option<Awaited>,
    /// The saved column while in read-modify-write, none outside it.
    pub read_modify_write: Option<u8>,
    /// The next read is the dummy read.
    pub fresh: bool,
}

impl Registers {
    /// The power-on state.
    pub const POWER_ON: Registers = Registers {
        page: 0,
        column: 0,
        start_line: 0,
        offset: 0,
        multiplex: 63,
        contrast: 32,
        resistor_ratio: 4,
        power_control: 0,
        bias: false,
        quarter_bias: false,
        byte_of_a9: 0,
        frame_phases: 0,
        columns_reversed: false,
        rows_reversed: false,
        entire_on: false,
        reverse: false,
        display_on: false,
        indicator_on: false,
        indicator_mode: 0,
        awaited: None,
        read_modify_write: None,
        fresh: true,
    };

    /// The dot rows in use, M: 1 to 64.
    #[must_use]
    pub const fn rows_in_use(self) -> u8 {
        self.multiplex + 1
    }

    /// The registers an image stands for; none if it is out of its ranges.
    #[must_use]
    pub fn from_image(image: &Image) -> Option<Registers> {
        let [
            page,
            column,
            start_line,
            offset,
            multiplex,
            contrast,
            resistor_ratio,
            power_control,
            bias,
            quarter_bias,
            byte_of_a9,
            frame_phases,
            column_direction,
            row_direction,
            entire_on,
            reverse,
            display_on,
            indicator_on,
            indicator_mode,
            awaited_code,
            read_modify_write,
            saved_column,
            fresh,
        ] = *image;
        Some(Registers {
            page: up_to(8, page)?,
            column,
            start_line: up_to(63, start_line)?,
            offset: up_to(63, offset)?,
            multiplex: up_to(63, multiplex)?,
            contrast: up_to(63, contrast)?,
            resistor_ratio: up_to(7, resistor_ratio)?,
            power_control: up_to(7, power_control)?,
            bias: zero_or_one(bias)?,
            quarter_bias: zero_or_one(quarter_bias)?,
            byte_of_a9,
            frame_phases: up_to(3, frame_phases)?,
            columns_reversed: zero_or_one(column_direction)?,
            rows_reversed: zero_or_one(row_direction)?,
            entire_on: zero_or_one(entire_on)?,
            reverse: zero_or_one(reverse)?,
            display_on: zero_or_one(display_on)?,
            indicator_on: zero_or_one(indicator_on)?,
            indicator_mode: up_to(3, indicator_mode)?,
            awaited: match awaited_code {
                0x00 => None,
                code => Some(Awaited::from_code(code)?),
            },
            read_modify_write: match (zero_or_one(read_modify_write)?, saved_column) {
                (true, saved) => Some(saved),
                (false, 0) => None,
                (false, _) => return None,
            },
            fresh: zero_or_one(fresh)?,
        })
    }

    /// The image of these registers.
    #[must_use]
    pub fn image(self) -> Image {
        [
            self.page,
            self.column,
            self.start_line,
            self.offset,
            self.multiplex,
            self.contrast,
            self.resistor_ratio,
            self.power_control,
            u8::from(self.bias),
            u8::from(self.quarter_bias),
            self.byte_of_a9,
            self.frame_phases,
            u8::from(self.columns_reversed),
            u8::from(self.rows_reversed),
            u8::from(self.entire_on),
            u8::from(self.reverse),
            u8::from(self.display_on),
            u8::from(self.indicator_on),
            self.indicator_mode,
            self.awaited.map_or(0x00, Awaited::code),
            u8::from(self.read_modify_write.is_some()),
            self.read_modify_write.unwrap_or(0),
            u8::from(self.fresh),
        ]
    }
}

/// The value, if it is at most the limit.
fn up_to(limit: u8, value: u8) -> Option<u8> {
    (value <= limit).then_some(value)
}

/// 0 is false, 1 is true, all else is out of range.
fn zero_or_one(value: u8) -> Option<bool> {
    match value {
        0 => Some(false),
        1 => Some(true),
        _ => None,
    }
}
