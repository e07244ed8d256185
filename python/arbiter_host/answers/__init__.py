"""Answers about one host: why, what differs, where a pod would go, samples in a row, a report."""
