"""Tests of the page: `tools/web/check` runs them."""
