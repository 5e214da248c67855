//! The Rust side. A host needs three modules: `exported` has the proved functions, `arguments` what they take, `answer` what they
//! answer. All else is unproved and there to compare: `original` and `plain`, the plain reading, say what should come out; the
//! other modules make the calls, hold the two to each other, and make the stored answers.

pub mod answer;
pub mod arguments;
#[cfg(feature = "linked")]
pub mod exported;

/// The original, compiled from its unchanged source; inside it the module that calls its private edits.
pub mod original {
    include!("../../docs/src/disas.rs");

    pub mod edits;
}
pub mod plain;

pub mod asked;
pub mod caller;
pub mod calls;
pub mod choice_runs;
pub mod edit_requests;
pub mod edit_rows;
pub mod function;
pub mod images;
pub mod input_runs;
pub mod inputs;
pub mod laid;
pub mod list_rows;
pub mod map_runs;
pub mod maps;
pub mod mixed;
pub mod mode_runs;
pub mod outcome;
pub mod pages;
pub mod piped;
pub mod replay_rows;
pub mod rooms;
pub mod row_runs;
pub mod runs;
pub mod sample;
pub mod staged;
pub mod stored;
pub mod tally;
