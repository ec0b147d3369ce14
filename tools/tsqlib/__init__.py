"""The modules of `tools/tsq`, a companion of tsctl. `docs/TSQ.md` says what it does."""
