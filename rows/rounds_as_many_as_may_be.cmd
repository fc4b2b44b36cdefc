live --rounds 4
