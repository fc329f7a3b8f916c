"""What believed and claims read: the definitions and contracts of crates/."""
