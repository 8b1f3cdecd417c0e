//! What the host runs share: comparing with a control, guarded buffers, and numbers from a fixed seed.
pub mod guard;
pub mod model;
pub mod random;
pub mod report;
