"""What `./suites may` stands on: this machine's lists, mounts, accounts and ways to files, and what Linux does
otherwise. Whether a
list grants is asked of the command `may` alone."""
