"""The reference model: its answers to the rows of `crates/test_rows`, and its contents
(`docs/dev/rows.md`)."""
