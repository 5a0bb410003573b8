//! Why a call declines: the nineteen conditions, by name and number.

use std::error::Error;
use std::fmt;

/// The first condition, in order of number, that made a call decline; but [`crate::pool`] looks at
/// 11 last.
///
/// A refused call has changed none of the memory it was lent.
#[derive(Clone, Copy, Debug, PartialEq, Eq, PartialOrd, Ord, Hash)]
#[repr(u32)]
pub enum Refusal {
    /// 1: fewer than 8 bytes, or another mark than LVS.
    Mark = 1,
    /// 2: the version is not 1.
    Version = 2,
    /// 3: lines of an axis not 2 to 65, or byte 7 not 0.
    Counts = 3,
    /// 4: the length is not the one that the header states.
    Length = 4,
    /// 5: a line does not rise, rises by more than 64, or exceeds 4096.
    Lines = 5,
    /// 6: a height or slope outside -4095 to 4095.
    Numbers = 6,
    /// 7: the pixel, or the last pixel of a run, lies outside the mesh.
    Pixel = 7,
    /// 8: a run of no pixels.
    EmptyRun = 8,
    /// 9: a reading kind above 2.
    Kind = 9,
    /// 10: no such column or row.
    Node = 10,
    /// 11: a new height or slope, or a sum of two, outside -4095 to 4095.
    NewNumbers = 11,
    /// 12: a stiffness above 64.
    Stiffness = 12,
    /// 13: a filled slope outside -4095 to 4095.
    TooSteep = 13,
    /// 14: fewer than 24 places for bends.
    FewPlaces = 14,
    /// 15: the second sheet would be refused with 1 to 6.
    Second = 15,
    /// 16: the lines of the two sheets differ.
    OtherLines = 16,
    /// 17: the target is not as long as the first sheet.
    Target = 17,
    /// 18: a list of zones not a multiple of 12 bytes long, or longer than 192.
    ZoneList = 18,
    /// 19: a zone with left above right, top above bottom or floor above ceiling, or with a limit outside -4095 to 4095.
    Zone = 19,
}

impl Refusal {
    /// All nineteen, in order of number.
    pub const ALL: [Refusal; 19] = [
        Refusal::Mark,
        Refusal::Version,
        Refusal::Counts,
        Refusal::Length,
        Refusal::Lines,
        Refusal::Numbers,
        Refusal::Pixel,
        Refusal::EmptyRun,
        Refusal::Kind,
        Refusal::Node,
        Refusal::NewNumbers,
        Refusal::Stiffness,
        Refusal::TooSteep,
        Refusal::FewPlaces,
        Refusal::Second,
        Refusal::OtherLines,
        Refusal::Target,
        Refusal::ZoneList,
        Refusal::Zone,
    ];

    /// The number of the condition, 1 to 19.
    pub fn number(self) -> u32 {
        self as u32
    }

    /// The refusal that has this number, if one has.
    pub fn from_number(number: u32) -> Option<Refusal> {
        Refusal::ALL.into_iter().find(|refusal| refusal.number() == number)
    }

    /// The condition in plain words.
    fn words(self) -> &'static str {
        match self {
            Refusal::Mark => "fewer than 8 bytes, or another mark than LVS",
            Refusal::Version => "the sheet's version is not 1",
            Refusal::Counts => "a count of lines is outside 2 to 65, or byte 7 is not 0",
            Refusal::Length => "the sheet's length is not the one its counts of lines call for",
            Refusal::Lines => "a line does not rise, rises by more than 64, or exceeds 4096",
            Refusal::Numbers => "a height or slope of the sheet is outside -4095 to 4095",
            Refusal::Pixel => "a pixel is outside the mesh",
            Refusal::EmptyRun => "the run is empty",
            Refusal::Kind => "the reading kind is above 2",
            Refusal::Node => "there is no such column or row",
            Refusal::NewNumbers => {
                "a new height or slope, or a sum of two, is outside -4095 to 4095"
            }
            Refusal::Stiffness => "the stiffness is above 64",
            Refusal::TooSteep => "a filled slope would be outside -4095 to 4095",
            Refusal::FewPlaces => "there are fewer than 24 places for bends",
            Refusal::Second => "the second sheet would be refused itself",
            Refusal::OtherLines => "the lines of the two sheets differ",
            Refusal::Target => "the target is not as long as the first sheet",
            Refusal::ZoneList => {
                "the list of zones is not a multiple of 12 bytes long, or longer than 192"
            }
            Refusal::Zone => {
                "a zone has left above right, top above bottom, floor above ceiling, \
                 or a limit outside -4095 to 4095"
            }
        }
    }
}

impl fmt::Display for Refusal {
    fn fmt(&self, f: &mut fmt::Formatter<'_>) -> fmt::Result {
        write!(f, "{} (refusal {})", self.words(), self.number())
    }
}

impl Error for Refusal {}
