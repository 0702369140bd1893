"""How a station reaches modules: what it asks of a module's connection, whatever carries it, and one that is over
MQTT."""
