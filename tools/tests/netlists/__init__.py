"""Tests of netlists made from copper."""
