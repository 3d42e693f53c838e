"""A built program under attack: refused memory, streams that fail, hostile clients, malicious bytes."""
