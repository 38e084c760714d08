"""Scenes: packets that a host drops or treats specially, sent during a live connection."""
