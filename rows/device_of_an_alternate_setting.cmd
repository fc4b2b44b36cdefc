device
