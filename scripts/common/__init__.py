"""What the commands of scripts/ are made of. None of these is a command."""
