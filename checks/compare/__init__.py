"""Comparisons: a built program, stored answers or tools of Go beside the model."""
