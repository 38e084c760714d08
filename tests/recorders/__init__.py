"""Recorders of captures. A group is a module with FOLDER, `names` and `record`; `record` runs
them."""
