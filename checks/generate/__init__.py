"""Random texts, workspaces and sessions."""
