"""Checks the language server of a built `gorefd` by a client that speaks the protocol as its specification, version 3.17, says."""
