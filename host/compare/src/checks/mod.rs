//! What is tried with a layer. The tests call these with the library, and with layers
//! that have a fault, which must be found.

pub mod damaged;
pub mod flash;
pub mod histories;
pub mod places;
pub mod records;
pub mod twice;
