//! What a call may say back.

use std::fmt;

/// Why a call was refused: the paper's numbers 1 to 12. A refused call hands over nothing.
#[derive(Copy, Clone, Debug, PartialEq, Eq, Hash)]
#[repr(u32)]
pub enum Refusal {
    /// 1: a table length is out of range.
    TableLength = 1,
    /// 2: the tables are not sound.
    NotSound = 2,
    /// 3: a sheet side, the alignment or the thresholds are invalid.
    InvalidSetup = 3,
    /// 4: a requested side is 0 or less.
    NotPositive = 4,
    /// 5: a requested side, rounded up to the alignment, exceeds 2,147,483,647.
    TooLarge = 5,
    /// 6: no free rectangle is as wide and as tall as the rounded request.
    NoSpace = 6,
    /// 7: fewer spare slots than the call needs.
    NoSlots = 7,
    /// 8: the ticket's slot is not in use.
    NoSuchSlot = 8,
    /// 9: the ticket is of another generation of its slot.
    OtherGeneration = 9,
    /// 10: the ticket's slot is not allocated.
    NotAllocated = 10,
    /// 11: a side to grow to is smaller than now.
    Smaller = 11,
    /// 12: a lent list is shorter than the listing.
    ShortList = 12,
}

impl Refusal {
    const ALL: [Refusal; 12] = [
        Refusal::TableLength,
        Refusal::NotSound,
        Refusal::InvalidSetup,
        Refusal::NotPositive,
        Refusal::TooLarge,
        Refusal::NoSpace,
        Refusal::NoSlots,
        Refusal::NoSuchSlot,
        Refusal::OtherGeneration,
        Refusal::NotAllocated,
        Refusal::Smaller,
        Refusal::ShortList,
    ];

    /// The paper's number, 1 to 12.
    pub const fn number(self) -> u32 {
        self as u32
    }

    /// The refusal of a number, 1 to 12.
    pub fn of_number(number: u32) -> Option<Refusal> {
        Refusal::ALL.into_iter().find(|refusal| refusal.number() == number)
    }

    /// The paper's words.
    pub const fn words(self) -> &'static str {
        match self {
            Refusal::TableLength => "a table length is out of range",
            Refusal::NotSound => "the tables are not sound",
            Refusal::InvalidSetup => "a sheet side, the alignment or the thresholds are invalid",
            Refusal::NotPositive => "a requested side is 0 or less",
            Refusal::TooLarge => "a requested side, rounded up, exceeds 2,147,483,647",
            Refusal::NoSpace => "no free rectangle is as wide and as tall as the rounded request",
            Refusal::NoSlots => "fewer spare slots than the call needs",
            Refusal::NoSuchSlot => "the ticket's slot is not in use",
            Refusal::OtherGeneration => "the ticket is of another generation of its slot",
            Refusal::NotAllocated => "the ticket's slot is not allocated",
            Refusal::Smaller => "a side to grow to is smaller than now",
            Refusal::ShortList => "the lent list is shorter than the listing",
        }
    }
}

/// The paper's words, and the number.
impl fmt::Display for Refusal {
    fn fmt(&self, out: &mut fmt::Formatter<'_>) -> fmt::Result {
        write!(out, "{} ({})", self.words(), self.number())
    }
}

impl std::error::Error for Refusal {}

/// A call's answer: 0, or the number of a refusal. A proved call gives no other.
pub(crate) fn answered(number: u32) -> Result<(), Refusal> {
    match number {
        0 => Ok(()),
        _ => Err(Refusal::of_number(number).expect("an answer from 0 to 12")),
    }
}

#[cfg(test)]
mod tests {
    use super::*;

    #[test]
    fn each_number_has_its_refusal() {
        for number in 1..=12 {
            let refusal = Refusal::of_number(number).expect("a refusal");
            assert_eq!(refusal.number(), number);
            assert_eq!(answered(number), Err(refusal));
            assert!(refusal.to_string().ends_with(&format!("({number})")));
        }
        assert_eq!(answered(0), Ok(()));
        assert_eq!(Refusal::of_number(0), None);
        assert_eq!(Refusal::of_number(13), None);
    }
}
