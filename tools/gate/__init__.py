"""What the gate checks beside the proofs, and what measures the gate."""
