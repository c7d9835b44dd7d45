"""Follows the definitions that a clause depends on, through the sources, and shows them on a page."""
