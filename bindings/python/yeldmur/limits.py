"""The limits, by name."""

NODE_LIMIT = 2048
"""The most nodes of a sheet that is searched."""

LINK_LIMIT = 16384
"""The most links of a sheet that is searched."""

WEIGHT_LIMIT = 8192
"""The most units of a weight, either way: 128 in sixty-fourths, 32 in 256ths."""

LIST_LIMIT = 64
"""The most readings that a list is asked for."""
