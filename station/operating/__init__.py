"""A station: between `pol --job operate`, which decides, and the modules, which adapters reach. It has no rules of its
own: what may be done it asks."""
