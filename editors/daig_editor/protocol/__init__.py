"""The Language Server Protocol: messages, settings, answers."""
