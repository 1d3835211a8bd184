"""What ./uvt takes: what it says, the build of the program, and what stands between a terminal and it."""
