"""A plain model of what `srtgw replay` answers: the rules of the gateway, one file for each matter.

Numbers and times are whole numbers without bound here; words of 31 and 32 bits stand only at the edge, where a packet is read or
written. A session keeps all that ever came to it, and what is missing, lost or due is looked up in that. Times are microseconds."""
