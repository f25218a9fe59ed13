"""The edits that the prover must refuse, and their page."""
