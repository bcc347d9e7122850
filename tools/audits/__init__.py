"""What tools/audit looks at, a file a subject."""
