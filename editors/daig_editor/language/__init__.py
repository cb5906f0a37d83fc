"""The language of `.imp` programs: read, compared, printed, and said in words."""
