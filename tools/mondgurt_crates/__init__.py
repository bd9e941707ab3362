"""The crates, who names whom, and where each stands in their picture."""
