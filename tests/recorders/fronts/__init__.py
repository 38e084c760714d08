"""Live peers that speak TLS after other bytes."""
