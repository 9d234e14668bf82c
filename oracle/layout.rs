//! The layout of records, outcomes and their numbers, taken from the C header when this is built.

include!(env!("STATEMENT_LAYOUT"));
