"""Rows about processes: the built program as a broker and as daemons, beside peers that speak frames by hand."""
