"""What `./suites` starts itself: the choice of the program, its proof and build, and what is said at its end."""
