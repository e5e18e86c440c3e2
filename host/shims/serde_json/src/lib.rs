//! Stand-in for the registry's `serde_json`: `port.rs` names its value in two methods that no oscillator overrides.

/// Never made.
pub enum Value {}
