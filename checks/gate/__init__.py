"""The gate and what it runs."""
