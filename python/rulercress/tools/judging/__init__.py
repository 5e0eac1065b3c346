"""Says who violates what in datagrams, and which home they show."""
