"""A folder and a workbench that are kept the same."""
