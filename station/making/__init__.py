"""Packages to try with: modules, and their manifests in the form of the standard."""
