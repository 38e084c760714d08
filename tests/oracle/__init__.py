"""Expected values from other programs: tshark, openssl, nDPI. `compare` and `write` run the
modules."""
