run --packets
