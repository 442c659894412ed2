"""What a user runs beside the program: each file is a command. Installed, this folder is the package `nuddrwyn`."""
