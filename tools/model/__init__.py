"""A plain model of 01 and 02 (docs/RULES.md), written from their text and heading by heading, that judges what the Rust can't."""
