run --steps
