"""Checks of a built `gorefd` with clients on its socket or streams."""
