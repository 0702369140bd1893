"""Module type packages: what one holds, as a description for `pol` and as a map for a driver."""
