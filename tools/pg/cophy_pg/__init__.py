"""From a live PostgreSQL to the files of `cophy`, and from its advice back to the server."""
