// SPDX-License-Identifier: Apache-2.0
//! Refusals, one for each number of the table that a call can return.

use std::fmt;

use crate::raw::Returned;

/// Why there is no listing, no card or no formula. 1 (a work buffer too short) cannot occur: the buffers
/// are the [`Merger`](crate::Merger)'s and the [`Cards`](crate::Cards)' own.
#[derive(Clone, Copy, Debug, PartialEq, Eq, Hash)]
pub enum Refusal {
    /// 2
    Length,
    /// 3
    Version,
    /// 4
    Count,
    /// 5
    Tables,
    /// 6
    Operation,
    /// 7
    Member,
    /// 8
    Child,
    /// 9
    Best,
    /// 10, with the lowest-numbered class holding a literal that also stands in another class.
    Literal { class: usize },
    /// 11
    Query,
    /// 12, at the caller's own limit: [`Caller::pairs`](crate::Caller::pairs)
    Pairs,
    /// 13
    Terms,
    /// 14
    Output,
    /// 17, of a card that is read, or of lines that are to be written as a card
    Formula,
    /// 18, of a card that is written
    Sign,
}

impl Refusal {
    /// The number in the table of refusals.
    pub fn number(self) -> u8 {
        match self {
            Refusal::Length => 2,
            Refusal::Version => 3,
            Refusal::Count => 4,
            Refusal::Tables => 5,
            Refusal::Operation => 6,
            Refusal::Member => 7,
            Refusal::Child => 8,
            Refusal::Best => 9,
            Refusal::Literal { .. } => 10,
            Refusal::Query => 11,
            Refusal::Pairs => 12,
            Refusal::Terms => 13,
            Refusal::Output => 14,
            Refusal::Formula => 17,
            Refusal::Sign => 18,
        }
    }

    /// `None` where there is none. Proved of the library: a number is one of these, and 1 only with a
    /// work buffer below its length.
    pub(crate) fn of(returned: Returned) -> Option<Refusal> {
        Some(match returned.number {
            0 => return None,
            2 => Refusal::Length,
            3 => Refusal::Version,
            4 => Refusal::Count,
            5 => Refusal::Tables,
            6 => Refusal::Operation,
            7 => Refusal::Member,
            8 => Refusal::Child,
            9 => Refusal::Best,
            10 => Refusal::Literal {
                class: returned.class,
            },
            11 => Refusal::Query,
            12 => Refusal::Pairs,
            13 => Refusal::Terms,
            14 => Refusal::Output,
            17 => Refusal::Formula,
            18 => Refusal::Sign,
            number => unreachable!("number {number} from libtariff.a: is it of this version?"),
        })
    }
}

impl fmt::Display for Refusal {
    fn fmt(&self, f: &mut fmt::Formatter<'_>) -> fmt::Result {
        write!(f, "refused {}: ", self.number())?;
        f.write_str(match self {
            Refusal::Length => {
                "the image has fewer than 13 bytes or a wrong length field; \
                 the field counts all bytes after itself"
            }
            Refusal::Version => "the image's version byte is not 1; write the image as version 1",
            Refusal::Count => {
                "a count of the image is outside its range; have 1 to 64 operations, \
                 1 to 256 classes, 1 to 1,024 members and 0 to 4,096 children"
            }
            Refusal::Tables => {
                "the image's counts and its length disagree; an operation has 4 bytes, \
                 a class 10, a member 10, a child 6"
            }
            Refusal::Operation => {
                "an operation entry breaks its rule; a kind is 0 to 9, the flag is 1 exactly for \
                 SPair, MSet and Set, and only MSet and Set name a class as identity"
            }
            Refusal::Member => {
                "a span, an operation number, the order of members or a literal field breaks its \
                 rule; spans follow one another without gaps, a class has at least one member, \
                 a member at most 64 children, members stand in non-falling operation order, and \
                 only literals have a value"
            }
            Refusal::Child => {
                "a child entry or an arity breaks its rule; a child is a class of the image with \
                 a count of at least 1, above 1 only under MSet, and each kind has its arity"
            }
            Refusal::Best => {
                "a best member stands outside its class, or a best size is wrong or outside \
                 1 to 2,147,483,646; it is 1 plus the sum of count times best size over the best \
                 member's children"
            }
            Refusal::Literal { class } => {
                return write!(
                    f,
                    "a literal stands in two classes, and class {class} is the lowest class that holds \
                     such a literal; join it with the class that shares the literal"
                );
            }
            Refusal::Query => {
                "a queried class is not in the image; classes are numbered from 0 in the order of \
                 the class table"
            }
            Refusal::Pairs => {
                "the query needs more pairs of classes than its caller may hold, 256 of the quote \
                 page and 4,096 of the account desk; ask for classes with fewer members below them, or \
                 with a smaller budget"
            }
            Refusal::Terms => {
                "the query, the card or the lines need more than 16,384 terms or 65,536 runs; ask for \
                 smaller classes, or with a smaller budget"
            }
            Refusal::Output => {
                "the listing, the card or the lines are longer than the output buffer; make the Merger \
                 or the Cards with a longer one (with_output)"
            }
            Refusal::Formula => {
                "the text is not a formula: it is not one that a card has, further brackets aside, or a \
                 sign in it is not a proper one of this table; of lines, one breaks its form or is \
                 there twice"
            }
            Refusal::Sign => {
                "an operation in the formula has no proper sign of its own and precedence; give it one \
                 to 8 letters or one of + - * / < > that no other operation has, and a precedence from \
                 1 to 9"
            }
        })
    }
}

impl std::error::Error for Refusal {}
