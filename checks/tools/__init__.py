"""Scripts for users."""
