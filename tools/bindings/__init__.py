"""The library for C and Rust: its archives, what its declarations say, what a call costs, and their check."""
