"""Tests of the lab over the built program."""
