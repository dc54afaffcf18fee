"""Reads the definitions of crates/*/specs, and evaluates them outside the prover."""
