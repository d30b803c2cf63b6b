"""What has happened in a workbench, as lines and as a history of git."""
