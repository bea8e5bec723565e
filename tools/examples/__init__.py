"""Plays the example scripts on the built program, and compares what it prints with what is written."""
