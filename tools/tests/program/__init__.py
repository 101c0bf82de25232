"""Tests of the built program alone."""
