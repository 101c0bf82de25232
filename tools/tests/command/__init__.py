"""Tests of the command whole."""
