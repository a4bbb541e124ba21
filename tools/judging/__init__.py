"""The parts of tools/judge: command (the options, and what is said), judgement (a whole one), scripts (where they come from, and
cuts), runs (programs that are run, and how they end), verdicts (one script judged), shrink and explain (a failure), coverage, and
report."""
