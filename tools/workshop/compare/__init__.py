"""The comparison with gimli and a second reader, and measurements."""
