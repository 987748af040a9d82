//! Document 01's machine, with document 02's Debug, run plainly: what a routine does, as a record and a
//! standing.

mod aggregate;
mod datum;
mod event;
mod exec;
mod hashed;
mod meaning;
mod place;
mod plain;
mod run;
mod silent;
mod state;

pub use datum::Datum;
pub use event::{Cause, End, Event, Standing, Step, Trace};
pub use hashed::Hashed;
pub use meaning::{Answer, Literal, Meaning};
pub use plain::Plain;
pub use run::{run, Run};
pub use silent::Silent;
pub use state::{List, Outside};
