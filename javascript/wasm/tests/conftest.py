"""Has the tests find the modules that they are about, and gives them the time that a slow machine takes."""

import sys
from pathlib import Path

from hypothesis import HealthCheck, settings

sys.path.insert(0, str(Path(__file__).resolve().parent.parent))
settings.register_profile("gate", deadline=None, suppress_health_check=list(HealthCheck))
settings.load_profile("gate")
