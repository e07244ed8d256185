"""Settings of a host, set and brought back, and the record of what was there."""
