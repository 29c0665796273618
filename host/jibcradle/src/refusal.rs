//! Why a call was refused: the codes from 2 up, each with its number. All of them stand in one
//! table at the end of the file.

use std::fmt;

/// The number that goes with a code: the field's, or 0 where the refusal has none.
macro_rules! number_of {
    () => {
        0
    };
    ($field:ident) => {
        $field
    };
}

/// Makes [`Refusal`] and all that is said of it from a table: code, name, variant with its number
/// if it has one, sentence, and the variant's documentation.
macro_rules! refusals {
    ($(
        $code:literal $name:literal
        $variant:ident $({ $field:ident: $field_is:literal })?
        $sentence:literal
        $is:literal;
    )*) => {
        /// A refused call. It has changed nothing; a refused restart has left a fresh store.
        ///
        /// There may be more of them one day, so a `match` needs a last arm for the others.
        #[derive(Clone, Copy, Debug, PartialEq, Eq, Hash)]
        #[non_exhaustive]
        pub enum Refusal {
            $(
                #[doc = concat!("Code ", $code, ", *", $name, "*: ", $is)]
                $variant $({
                    #[doc = $field_is]
                    $field: u64,
                })?,
            )*
            /// A code that no refusal has. The library never answers one; it is here for answers
            /// that a program made by itself.
            Unknown {
                /// The code.
                code: u64,
                /// The number that came with it.
                number: u64,
            },
        }

        impl Refusal {
            /// The refusal with this code and number; none for the codes 0 and 1, which are no
            /// refusals.
            pub fn of(code: u64, number: u64) -> Option<Refusal> {
                match code {
                    0 | 1 => None,
                    $($code => Some(Refusal::$variant $({ $field: number })?),)*
                    _ => Some(Refusal::Unknown { code, number }),
                }
            }

            /// The code: 2 to 17, but for [`Refusal::Unknown`].
            pub fn code(self) -> u64 {
                match self {
                    $(Refusal::$variant { .. } => $code,)*
                    Refusal::Unknown { code, .. } => code,
                }
            }

            /// The number that goes with the code, 0 where it has none.
            pub fn number(self) -> u64 {
                match self {
                    $(Refusal::$variant $({ $field })? => number_of!($($field)?),)*
                    Refusal::Unknown { number, .. } => number,
                }
            }

            /// The name that the scope document gives the code, as the command prints it.
            pub fn name(self) -> &'static str {
                match self {
                    $(Refusal::$variant { .. } => $name,)*
                    Refusal::Unknown { .. } => "Unknown",
                }
            }
        }

        /// A sentence for a person, with the number in it.
        impl fmt::Display for Refusal {
            fn fmt(&self, out: &mut fmt::Formatter<'_>) -> fmt::Result {
                match self {
                    $(Refusal::$variant $({ $field })? => write!(out, $sentence),)*
                    Refusal::Unknown { code, number } => {
                        write!(out, "code {code}, number {number}: no refusal has it")
                    }
                }
            }
        }

        #[cfg(test)]
        const TABLE: &[(u64, &str)] = &[$(($code, $name)),*];
    };
}

refusals! {
    2 "Damaged" Damaged
        "the store or the coordinator is damaged"
        "the tables aren't those of a store, or the state not a coordinator's. Never answered by one reached by calls.";
    3 "Shape" Shape
        "an argument is out of range"
        "a list, page, object, tick, node, stamp, buffer, journal or used length is out of range.";
    4 "Twice" Twice
        "an object is named twice"
        "a commit names one object twice.";
    5 "Late" Late { latest: "The largest stamp that it had to be after." }
        "the stamp isn't after {latest}"
        "a commit isn't after the last commit and the horizon, or a grant after all that was granted and sent.";
    6 "Gap" Gap { horizon: "The horizon." }
        "the message starts beyond the horizon {horizon}"
        "a message starts beyond the horizon.";
    7 "Conflict" Conflict { stamp: "The smallest stamp that only one of them has." }
        "message and store disagree on the snapshot {stamp}"
        "a message disagrees with the known snapshots.";
    8 "Pending full" PendingFull
        "no room for the pending entries"
        "no room for the pending entries.";
    9 "Past full" PastFull
        "no room for the past values"
        "no room for the past values.";
    10 "Snapshots full" SnapshotsFull
        "no room for the snapshots"
        "no room for the snapshots.";
    11 "Archive full" ArchiveFull
        "no room for the archived copies"
        "no room for the archived copies.";
    12 "No journal room" NoJournalRoom { needed: "The used length it would have reached." }
        "the journal would have to hold {needed} bytes"
        "no room in the journal.";
    13 "Ahead" Ahead { horizon: "The horizon." }
        "the time lies beyond the horizon {horizon}"
        "the time read lies beyond the horizon.";
    14 "No snapshot" NoSnapshot
        "no known snapshot at or before the time"
        "no known snapshot at or before the time read.";
    15 "Version" Version { found: "The byte found." }
        "the version is {found}, not 1"
        "the journal, or what was kept of a coordinator, has another version.";
    16 "Malformed" Malformed { offset: "Offset of the record's length, or of the bad field." }
        "what stands at {offset} is malformed"
        "a record of the journal, a message, a request or what was kept of a coordinator isn't well formed.";
    17 "Contradiction" Contradiction { offset: "Offset of the record's length." }
        "the record at {offset} contradicts those before it"
        "a well-formed record isn't one that the rebuilt store would have written.";
}

impl std::error::Error for Refusal {}

#[cfg(test)]
mod tests {
    use super::*;

    #[test]
    fn each_code_is_the_one_it_was_made_of() {
        assert_eq!(TABLE.iter().map(|row| row.0).collect::<Vec<_>>(), (2..=17).collect::<Vec<_>>());
        for &(code, name) in TABLE {
            let refusal = Refusal::of(code, 77).unwrap();
            assert_eq!((refusal.code(), refusal.name()), (code, name));
            let numbered = [5, 6, 7, 12, 13, 15, 16, 17].contains(&code);
            assert_eq!(refusal.number(), if numbered { 77 } else { 0 });
            assert_eq!(refusal.to_string().contains("77"), numbered);
        }
    }

    #[test]
    fn codes_that_no_refusal_has() {
        assert_eq!((Refusal::of(0, 5), Refusal::of(1, 5)), (None, None));
        for code in [18, 99, u64::MAX] {
            let refusal = Refusal::of(code, 5).unwrap();
            assert_eq!(refusal, Refusal::Unknown { code, number: 5 });
            assert_eq!((refusal.code(), refusal.number(), refusal.name()), (code, 5, "Unknown"));
            assert!(refusal.to_string().contains(&code.to_string()));
        }
    }
}
