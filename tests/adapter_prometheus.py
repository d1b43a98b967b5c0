"""A real prometheus, asked by its API. For tests/adapters.py."""

import json
import subprocess
import urllib.error
import urllib.parse
import urllib.request
from typing import Any

from adapter_room import TOP, wait_until
from clients import Hall, need

PROMETHEUS = 9090
RULES = f"{TOP}/deploy/prometheus-rules.yml"


def port_is_open(port: int) -> bool:
    """Whether something listens at a port."""
    with open("/proc/net/tcp", encoding="ascii") as table:
        return f":{port:04X} 00000000:0000 0A" in table.read()


def fetch(url: str) -> str:
    """What is to be had at a URL; nothing while it isn't."""
    try:
        with urllib.request.urlopen(url, timeout=20) as answer:
            text: str = answer.read().decode()
            return text
    except OSError:
        return ""


class Prometheus:
    """A prometheus that scrapes some ports, and judges by rules."""

    def __init__(self, folder: str, ports: list[int], rules: str, every: str = "1s") -> None:
        targets = ", ".join(f"'127.0.0.1:{port}'" for port in ports)
        with open(f"{folder}/prometheus.yml", "w", encoding="ascii") as settings:
            settings.write(
                f"global: {{scrape_interval: {every}, scrape_timeout: {every},"
                f" evaluation_interval: {every}}}\n"
                f"rule_files: [{rules}]\n"
                "scrape_configs:\n"
                f"  - {{job_name: hall, static_configs: [{{targets: [{targets}]}}]}}\n"
            )
        self.process = subprocess.Popen(
            [
                "prometheus",
                f"--config.file={folder}/prometheus.yml",
                f"--storage.tsdb.path={folder}/data",
                f"--web.listen-address=127.0.0.1:{PROMETHEUS}",
            ],
            stdout=subprocess.DEVNULL,
            stderr=subprocess.DEVNULL,
        )
        Hall.running.append(self.process)
        wait_until(lambda: "ready" in fetch(self.url("/-/ready")).lower(), "prometheus is ready")

    def url(self, path: str) -> str:
        """A path of it."""
        return f"http://127.0.0.1:{PROMETHEUS}{path}"

    def ask(self, path: str, **words: str) -> Any:
        """What its API answers, or nothing while it doesn't; what it refuses is a fault."""
        url = self.url(f"/api/v1/{path}?{urllib.parse.urlencode(words)}")
        try:
            with urllib.request.urlopen(url, timeout=20) as answer:
                return json.loads(answer.read())["data"]
        except urllib.error.HTTPError as fault:
            need(False, f"prometheus refuses {words}: {fault.read().decode()}")
        except OSError:
            pass
        return None

    def series(self, query: str) -> list[Any]:
        """The series that a query gives."""
        asked = self.ask("query", query=query)
        return list(asked["result"]) if asked else []

    def value(self, query: str) -> float | None:
        """The number that a query gives; nothing where it gives none, or several."""
        found = self.series(query)
        return float(found[0]["value"][1]) if len(found) == 1 else None

    def firing(self) -> set[str]:
        """The alerts that fire."""
        asked = self.ask("alerts")
        alerts = asked["alerts"] if asked else []
        return {one["labels"]["alertname"] for one in alerts if one["state"] == "firing"}

    def end(self) -> None:
        """Ends it."""
        self.process.kill()
        self.process.wait()
