"""Settings of hypothesis: CASES says how many cases are tried, SEED from which number on."""
import os

import hypothesis

hypothesis.settings.register_profile(
    "here", max_examples=int(os.environ.get("CASES", "200")), deadline=None, database=None,
    derandomize="SEED" not in os.environ,
    suppress_health_check=list(hypothesis.HealthCheck), print_blob=False)
hypothesis.settings.load_profile("here")
