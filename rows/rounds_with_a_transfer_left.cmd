live --rounds 100
