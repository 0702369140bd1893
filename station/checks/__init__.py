"""The tests of the station, by what they are about."""
