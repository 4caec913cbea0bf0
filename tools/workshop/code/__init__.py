"""The proved code and programs: how they are made, and where they are kept."""
