//! The rules that a unit keeps.

use std::fmt;

macro_rules! rules {
    ($($(#[$doc:meta])* $name:ident = $number:literal, $text:literal;)*) => {
        /// A rule that a unit keeps, in the order in which they are tested, numbered from 1. The first eight read the
        /// unit and the configuration alone, the others read the units below it too.
        ///
        /// ```
        /// use highway::Rule;
        ///
        /// let rule = Rule::NotLeader;
        /// assert_eq!((rule as u32, rule.to_string().as_str()), (15, "not the leader"));
        /// ```
        #[derive(Clone, Copy, Debug, PartialEq, Eq, PartialOrd, Ord, Hash)]
        pub enum Rule { $($(#[$doc])* $name = $number,)* }

        impl Rule {
            /// The rule of that number; the library answers no greater one than the last.
            pub(crate) fn of(number: u32) -> Rule {
                match number {
                    $($number => Rule::$name,)*
                    other => unreachable!("there is no rule {other}"),
                }
            }
        }

        impl fmt::Display for Rule {
            fn fmt(&self, f: &mut fmt::Formatter<'_>) -> fmt::Result {
                f.write_str(match self { $(Rule::$name => $text,)* })
            }
        }
    };
}

rules! {
    /// Its instance isn't that of the configuration.
    WrongInstance = 1, "wrong instance";
    /// Its creator is no validator.
    UnknownCreator = 2, "unknown creator";
    /// Its panorama hasn't one observation for each validator.
    PanoramaLength = 3, "panorama length";
    /// Its observation of its own creator is Faulty.
    FaultySelf = 4, "faulty self";
    /// Its number doesn't fit what it observes of its own creator.
    FirstSequence = 5, "first sequence number";
    /// Its exponent is outside the configuration's range.
    RoundExponent = 6, "round exponent";
    /// Its endorsed list isn't strictly rising by bytes.
    EndorsedOrder = 7, "order of the endorsed list";
    /// It has no value, and cites nothing.
    NoBlock = 8, "no block";
    /// A correct observation names a unit of another creator.
    SlotCreator = 9, "creator of a cited unit";
    /// Its number isn't one more than that of its creator's cited unit.
    SequenceNumber = 10, "sequence number";
    /// Its panorama isn't consistent.
    Inconsistent = 11, "inconsistent panorama";
    /// A cited unit has a greater time.
    TimeGoesBack = 12, "time goes back";
    /// Its exponent isn't that of its creator's cited unit, and it doesn't lie in a later round of the greater one.
    RoundChange = 13, "change of the round exponent";
    /// It is its creator's third unit in its round.
    ThirdInRound = 14, "third unit in its round";
    /// It has a value, and isn't its round's one block by the round's leader.
    NotLeader = 15, "not the leader";
    /// A cited unit's endorsed list has a digest that its own hasn't.
    EndorsedShrinks = 16, "endorsed list shrinks";
    /// A digest of its endorsed list is no unit below it.
    EndorsedUnseen = 17, "endorsed unit isn't below it";
    /// Two units of one creator, both naive for it, aren't comparable.
    Naive = 18, "naive";
    /// It has a value, and its parent is the configuration's last block.
    AfterTerminal = 19, "after the last block";
}
