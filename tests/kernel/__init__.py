"""Guests: real groups on Linux, in an emulator."""
