//! What a row says, in words of Rust.

use crate::error::Location;

/// A row, as `YamlRow` of the header.
#[repr(C)]
#[derive(Clone, Copy, Debug, Default)]
pub(crate) struct Row {
    pub kind: u8,
    pub word: u8,
    pub style: u8,
    pub tag_kind: u8,
    pub text_in_source: u8,
    pub has_float: u8,
    pub ask_quotes: u8,
    pub unused: u8,
    pub text_at: u64,
    pub text_len: u64,
    pub tag_at: u64,
    pub tag_len: u64,
    pub line: u64,
    pub column: u64,
    pub index: u64,
    pub low: u64,
    pub high: u64,
    pub float_bits: u64,
    pub link: u64,
}

/// What a row is.
#[derive(Clone, Copy, Debug, PartialEq, Eq)]
pub(crate) enum Kind {
    Null,
    Bool,
    Unsigned,
    Signed,
    Float,
    String,
    Bytes,
    Misfit,
    Void,
    Alias,
    Sequence,
    SequenceEnd,
    Mapping,
    MappingEnd,
    Document,
    DocumentEnd,
    Fault,
    Float32,
}

/// How a scalar stands in the source.
#[derive(Clone, Copy, Debug, PartialEq, Eq)]
pub(crate) enum Style {
    Plain,
    Quoted,
    Literal,
    Folded,
}

/// What a tag is.
#[derive(Clone, Copy, Debug, PartialEq, Eq)]
pub(crate) enum TagKind {
    None,
    Local,
    Null,
    Bool,
    Int,
    Float,
    Other,
}

/// A scalar as a value of any kind.
#[derive(Clone, Copy, Debug, PartialEq)]
pub(crate) enum Scalar {
    Null,
    Bool(bool),
    Unsigned(u128),
    /// With a minus sign, which `-0` has too.
    Negative(i128),
    Float(f64),
    String,
    Bytes,
    /// Its core tag says what it is not; this is what was expected.
    Misfit(&'static str),
}

fn kind_of(code: u8) -> Kind {
    match code {
        0 => Kind::Null,
        1 => Kind::Bool,
        2 => Kind::Unsigned,
        3 => Kind::Signed,
        4 => Kind::Float,
        5 => Kind::String,
        6 => Kind::Bytes,
        7 => Kind::Misfit,
        8 => Kind::Void,
        9 => Kind::Alias,
        10 => Kind::Sequence,
        11 => Kind::SequenceEnd,
        12 => Kind::Mapping,
        13 => Kind::MappingEnd,
        14 => Kind::Document,
        15 => Kind::DocumentEnd,
        17 => Kind::Float32,
        _ => Kind::Fault,
    }
}

impl Row {
    pub fn of(kind: Kind) -> Row {
        Row { kind: kind as u8, ..Row::default() }
    }

    pub fn boolean(truth: bool) -> Row {
        Row { low: u64::from(truth), ..Row::of(Kind::Bool) }
    }

    pub fn unsigned(number: u128) -> Row {
        Row { low: number as u64, high: (number >> 64) as u64, ..Row::of(Kind::Unsigned) }
    }

    pub fn signed(number: i128) -> Row {
        match u128::try_from(number) {
            Ok(number) => Row::unsigned(number),
            Err(_) => Row { kind: Kind::Signed as u8, ..Row::unsigned(number as u128) },
        }
    }

    pub fn float(number: f64) -> Row {
        Row { float_bits: number.to_bits(), ..Row::of(Kind::Float) }
    }

    pub fn float32(number: f32) -> Row {
        Row { low: u64::from(number.to_bits()), ..Row::of(Kind::Float32) }
    }

    pub fn in_quotes(self) -> Row {
        Row { ask_quotes: 1, ..self }
    }

    pub fn kind(&self) -> Kind {
        kind_of(self.kind)
    }

    pub fn is_scalar(&self) -> bool {
        self.kind <= Kind::Misfit as u8
    }

    pub fn style(&self) -> Style {
        match self.style {
            0 => Style::Plain,
            3 => Style::Literal,
            4 => Style::Folded,
            _ => Style::Quoted,
        }
    }

    pub fn is_plain(&self) -> bool {
        self.style == 0
    }

    pub fn tag_kind(&self) -> TagKind {
        match self.tag_kind {
            0 => TagKind::None,
            1 => TagKind::Local,
            2 => TagKind::Null,
            3 => TagKind::Bool,
            4 => TagKind::Int,
            5 => TagKind::Float,
            _ => TagKind::Other,
        }
    }

    pub fn is_in_source(&self) -> bool {
        self.text_in_source != 0
    }

    pub fn place(&self) -> Location {
        Location::new(self.index, self.line, self.column)
    }

    /// The float that the text is by itself.
    pub fn as_float(&self) -> Option<f64> {
        (self.has_float != 0).then(|| f64::from_bits(self.float_bits))
    }

    fn number(&self) -> u128 {
        u128::from(self.low) | u128::from(self.high) << 64
    }

    fn scalar_of(&self, kind: Kind) -> Scalar {
        match kind {
            Kind::Null | Kind::Void => Scalar::Null,
            Kind::Bool => Scalar::Bool(self.low != 0),
            Kind::Unsigned => Scalar::Unsigned(self.number()),
            Kind::Signed => Scalar::Negative(self.number() as i128),
            Kind::Float => Scalar::Float(f64::from_bits(self.float_bits)),
            Kind::Bytes => Scalar::Bytes,
            Kind::Misfit => Scalar::Misfit(match self.tag_kind() {
                TagKind::Bool => "a boolean",
                TagKind::Int => "an integer",
                TagKind::Float => "a float",
                _ => "null",
            }),
            _ => Scalar::String,
        }
    }

    /// What a scalar is as a value of any kind.
    pub fn scalar(&self) -> Scalar {
        self.scalar_of(self.kind())
    }

    /// What a scalar's text is by itself.
    pub fn word(&self) -> Scalar {
        self.scalar_of(kind_of(self.word))
    }

    /// Whether a type of this core tag looks at the text of the scalar.
    pub fn is_open_to(&self, tag: TagKind) -> bool {
        self.is_scalar() && (self.is_plain() || self.style() == Style::Literal && self.tag_kind() == tag)
    }
}
