//! What the library takes and gives, in the comparisons' own types.

use comzsered::figures::{self, Words};

use crate::reading::Read;
use crate::tables::Tables;
use crate::writing::Written;

/// The same fields in the other type.
macro_rules! convert {
    ($($from:ty => $to:ident { $($field:ident),* })*) => {
        $(
            impl From<$from> for $to {
                fn from(from: $from) -> $to {
                    $to { $($field: from.$field),* }
                }
            }
        )*
    };
}

convert! {
    &Tables => Words { switches, faults, gates, rules, wishes, gate, rule, wish }
    &Words => Tables { switches, faults, gates, rules, wishes, gate, rule, wish }
    figures::Read => Read { number, place, column }
    figures::Written => Written { number, place, column, length }
}
