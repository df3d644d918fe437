"""What `tools/bench` measures, counts and draws (`docs/dev/speed.md`)."""
