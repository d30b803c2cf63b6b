"""The language server (LSP 3.17)."""
