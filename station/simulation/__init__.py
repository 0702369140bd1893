"""Modules that aren't there: what a module does, run from its package, so that a station can be tried without a
plant."""
