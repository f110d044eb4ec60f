"""An independent model of the session and of its programs, and a generator of random scripts for both (see README.md)."""
