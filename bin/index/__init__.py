"""What bin/theorem and bin/contracts read: definitions, sources, and what the names in them refer to."""
