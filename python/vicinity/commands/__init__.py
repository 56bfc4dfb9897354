"""What each command reads and writes."""
