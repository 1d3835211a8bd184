"""The tools that a person calls, each by a module of `commands`."""
