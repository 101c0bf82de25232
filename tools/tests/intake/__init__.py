"""Tests of what makes files ready to judge."""
