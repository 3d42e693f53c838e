"""The rules of the Go subset, written independently of the server: what the server has to answer."""
