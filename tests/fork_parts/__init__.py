"""Commands of the package in forks of one process."""
