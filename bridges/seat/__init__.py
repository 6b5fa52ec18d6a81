"""The operator's seat of `desk.py`, in parts: the engine, its clock, what is played, the keys, the screen, the remote, the rig."""
