"""The texts of units: tokens, declarations, layout, networks and the words for their faults."""
