#!/bin/sh
# Asks a key what it is, and lets it answer a challenge: client.sh YKINFO YKCHALRESP.
set -u
"$1" -a
"$2" -2 'what do ya want for nothing?'
"$2" -1 'what do ya want for nothing?'
