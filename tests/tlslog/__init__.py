"""The suite of tlslog: `run` has its parts, `evasions`, `certificates` and `wrapper` the rest."""
