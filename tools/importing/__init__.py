"""Rewrites models as they are drawn into the profile (`tools/import`)."""
