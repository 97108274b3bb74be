"""Sites on machines: what stands between `tpnode node` and the world.

A site is a folder with a log, one process `tpnode node`, and the daemon `ripsaw site` around it. The daemon carries frames to the
other sites, answers for the nodes of its own, and serves applications over a Unix socket (`ripsaw.client`).
"""
