"""What daig-check says, in each of its formats."""
