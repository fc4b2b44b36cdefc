run --packets --steps
