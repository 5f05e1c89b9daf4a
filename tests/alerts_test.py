"""Tests of examples/alerts.yml by Prometheus' own tool: what each rule tells, of figures that are written here."""

import os
import shutil

import pytest

import running

RULES = os.path.join(running.ROOT, "examples", "alerts.yml")

# Two minutes of figures: CALO is well. TRK has a trip, which the units above it show too. Both domains of MUON are
# silent from the start. Nobody has heard DAQ.
FIGURES = """
rule_files: [%s]
evaluation_interval: 5s
tests:
  - interval: 5s
    input_series:
      - {series: 'smi_object_state{object="HV",kind="device",state="ERROR"}', values: '1x24'}
      - {series: 'smi_object_state{object="TRK",kind="domain",state="ERROR"}', values: '1x24'}
      - {series: 'smi_object_state{object="EXPERIMENT",kind="domain",state="ERROR"}', values: '1x24'}
      - {series: 'smi_object_state{object="CALO",kind="domain",state="READY"}', values: '1x24'}
      - {series: 'smi_domain_heard_age_seconds{instance="screen",domain="TRK",station="TRACKER"}', values: '1x24'}
      - {series: 'smi_domain_heard_age_seconds{instance="screen",domain="MUO",station="MUON"}', values: '0+5x24'}
      - {series: 'smi_domain_heard_age_seconds{instance="screen",domain="MUO1",station="MUON"}', values: '1+5x24'}
      - {series: 'smi_screen_domains{instance="screen"}', values: '4x24'}
      - {series: 'smi_domain_busy{domain="TRK",station="TRACKER"}', values: '1x24'}
      - {series: 'smi_screen_frames_total{instance="screen"}', values: '0+25x24'}
    alert_rule_test:
%s
"""

WANTED = """      - eval_time: %s
        alertname: %s
        exp_alerts: [%s]
"""


@pytest.mark.parametrize("when, name, labels, summary", [
    ("30s", "Trip", 'object: HV, kind: device, state: ERROR', "HV is in ERROR"),
    ("30s", "Silent", "instance: screen, station: MUON", "station MUON has been silent for 31 s"),
    ("4s", "Silent", None, None),
    ("110s", "NeverHeard", "instance: screen", "1 domains were never heard since the screen began"),
    ("110s", "Stuck", None, None), ("110s", "ScreenGone", None, None)])
def test_alerts(folder, when, name, labels, summary):
    """One alert for a trip and one for a silent station, whatever else shows it."""
    if not shutil.which("promtool"):
        pytest.skip("there is no promtool (Debian's prometheus)")
    wanted = "{exp_labels: {%s}, exp_annotations: {summary: %s}}" % (labels, summary) if labels else ""
    file = running.write(os.path.join(folder, "figures.yml"), FIGURES % (RULES, WANTED % (when, name, wanted)))
    told = running.run(["promtool", "test", "rules", file], b"")
    assert (told[2], b"FAILED" in told[0] + told[1]) == (0, False), (told[0] + told[1]).decode()
