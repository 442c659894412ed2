"""An independent model of the whole program, and texts to compare them by. Installed, this folder is the package `nuddrwyn_model`."""
