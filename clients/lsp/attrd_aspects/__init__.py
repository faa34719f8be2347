"""A language server for those who write grammars (`.ast`) and aspects (`.jrag`)."""
