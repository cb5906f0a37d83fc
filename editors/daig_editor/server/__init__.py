"""The running `daig serve`, and what it is asked."""
