"""Random texts and rows, and how a text or a row that shows a difference is shortened."""
