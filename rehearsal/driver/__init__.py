"""The rehearsal's driver: builds, starts, kills, waits, compares and prints. Standard library alone."""
