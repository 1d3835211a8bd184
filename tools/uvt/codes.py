"""The words of codes and of sections, as docs/FORMAT.md has them; the sections in the order of an iteration."""

CODES = ["ok", "EINVAL", "EBUSY", "ECANCELED", "EBOUND", "EFULL", "ESTALE", "EKIND"]
# What an op that is refused answers; a request that was cancelled isn't refused.
REFUSED = [it for it in CODES[1:] if it != "ECANCELED"]
SECTIONS = ["pending", "idle", "prepare", "poll", "done", "async", "check", "closing", "timers"]
