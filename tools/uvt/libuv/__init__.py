"""Scripts on the real libuv: the runner in C, and what is done with it."""
