//! The proved store's speed beside that of the second program, of a plain
//! program tuned for speed, and of two databases.

pub mod clock;
pub mod curves;
pub mod floor;
pub mod measure;
pub mod peers;
pub mod plot;
pub mod programs;
pub mod rows;
pub mod table;
pub mod tuned;
