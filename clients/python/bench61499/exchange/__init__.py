"""The exchange of units with other tools: XML of IEC 61499-2, and boot files of FORTE."""
