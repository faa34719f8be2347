"""The repository's own tools. Each is a program that runs at the top of the repository; docs/ARCHITECTURE.md says which does what."""
