"""Counters of the service, as Prometheus reads them."""
from __future__ import annotations

from collections import Counter
from typing import Iterable, List, Tuple

BOUNDS = (0.005, 0.01, 0.025, 0.05, 0.1, 0.25, 0.5, 1.0, 2.5, 5.0, 10.0, 30.0)  # seconds

Sample = Tuple[str, str, str, float]  # name, type, help, value


class Metrics:
    """What has happened since the start."""

    def __init__(self) -> None:
        self.requests: Counter[Tuple[str, int]] = Counter()
        self.buckets: Counter[float] = Counter()
        self.seconds = 0.0
        self.answered = 0
        self.positions = 0
        self.refused_waiting = 0
        self.lost_workers = 0

    def request(self, endpoint: str, status: int, seconds: float) -> None:
        """Counts an answer."""
        self.requests[endpoint, status] += 1
        self.seconds += seconds
        self.answered += 1
        for bound in BOUNDS:
            if seconds <= bound:
                self.buckets[bound] += 1

    def text(self, gauges: Iterable[Sample]) -> str:
        """All counters and the given values in Prometheus' text format."""
        lines: List[str] = ["# HELP fmm_requests_total Answers by endpoint and status.", "# TYPE fmm_requests_total counter"]
        for (endpoint, status), count in sorted(self.requests.items()):
            lines.append(f'fmm_requests_total{{endpoint="{endpoint}",status="{status}"}} {count}')
        lines += ["# HELP fmm_request_seconds Time from the request to its answer.", "# TYPE fmm_request_seconds histogram"]
        lines += [f'fmm_request_seconds_bucket{{le="{bound:g}"}} {self.buckets[bound]}' for bound in BOUNDS]
        lines += [f'fmm_request_seconds_bucket{{le="+Inf"}} {self.answered}', f"fmm_request_seconds_sum {self.seconds:.6f}",
                  f"fmm_request_seconds_count {self.answered}"]
        own: List[Sample] = [
            ("fmm_positions_total", "counter", "Positions of the requests that were answered.", self.positions),
            ("fmm_refused_waiting_total", "counter", "Requests refused because too many were waiting.", self.refused_waiting),
            ("fmm_lost_workers_total", "counter", "Workers that ended or were ended before their answer.", self.lost_workers)]
        for name, kind, about, value in [*own, *gauges]:
            lines += [f"# HELP {name} {about}", f"# TYPE {name} {kind}", f"{name} {value:g}"]
        return "\n".join(lines) + "\n"
