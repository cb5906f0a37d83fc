"""Tests of the editor; `editors/test` runs them."""
