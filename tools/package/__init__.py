"""The proved program and the tools around it: installed, packed, taken away."""
