"""What tools/dev/make makes: a module for each, whose `main` takes the words after `make` and returns the status."""
