"""A hub: many clients over one server, whose accepted edits are kept in a journal."""
