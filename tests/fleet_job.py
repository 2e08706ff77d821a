#!/usr/bin/env python3
"""Checks examples/fleet/job.yaml: by the types of Kubernetes' own API where Debian's python3-kubernetes is installed, and by its structure.

    python3 tests/fleet_job.py

No cluster runs here. The types come from the OpenAPI description of Kubernetes: each key has to be one of its type, each value of the type that the
key has, and what a type requires has to be there. The structure: an indexed job of as many completions as there are cases, whose container
calls run_case on folders that are mounted, and may write nowhere else. Without a reader of YAML it isn't tried, which is told.
"""

import pathlib
import re
import subprocess
import sys

TOP = pathlib.Path(__file__).resolve().parent.parent
FLEET = TOP / "examples" / "fleet"
# Debian's Python has its packages where another one doesn't look.
sys.path.append("/usr/lib/python3/dist-packages")

PLAIN = {"str": str, "int": int, "bool": bool, "float": (int, float), "object": object, "datetime": str}


def is_of(value, kind):
    """Whether a value is a plain one of that type; a number isn't a truth value."""
    return isinstance(value, PLAIN[kind]) and (kind in ("bool", "object") or not isinstance(value, bool))


def faults_of(models, value, kind, place):
    """What isn't as Kubernetes' type says."""
    listed, mapped = re.fullmatch(r"list\[(.*)\]", kind), re.fullmatch(r"dict\(str, (.*)\)", kind)
    if listed and not isinstance(value, list):
        return [f"{place} is no list"]
    if mapped and not isinstance(value, dict):
        return [f"{place} is no map"]
    if listed:
        return [fault for at, one in enumerate(value) for fault in faults_of(models, one, listed[1], f"{place}[{at}]")]
    if mapped:
        return [fault for key, one in value.items() for fault in faults_of(models, one, mapped[1], f"{place}.{key}")]
    if kind in PLAIN:
        return [] if is_of(value, kind) else [f"{place} is no {kind}"]
    return faults_of_type(models, value, getattr(models, kind), place)


def faults_of_type(models, value, of, place):
    if not isinstance(value, dict):
        return [f"{place} is no {of.__name__}"]
    known = {key: of.openapi_types[name] for name, key in of.attribute_map.items()}
    faults = [f"{place}.{key} is unknown to {of.__name__}" for key in value if key not in known]
    for key in value.keys() & known.keys():
        faults += faults_of(models, value[key], known[key], f"{place}.{key}")
    try:
        of(**{name: value.get(key) for name, key in of.attribute_map.items()})
    except ValueError as fault:
        faults.append(f"{place}: {fault}")
    return faults


def structure(job, cases):
    """What isn't as a job for these cases has to be."""
    spec = job["spec"]
    pod = spec["template"]["spec"]
    [container] = pod["containers"]
    mounted = {mount["mountPath"]: mount["name"] for mount in container["volumeMounts"]}
    names = {volume["name"] for volume in pod["volumes"]}
    asked = {
        "it is a Job of batch/v1": (job["apiVersion"], job["kind"]) == ("batch/v1", "Job"),
        "it is indexed": spec["completionMode"] == "Indexed",
        "it has as many completions as there are cases": spec["completions"] == len(cases),
        "not more run at once": 1 <= spec["parallelism"] <= spec["completions"],
        "a killed pod runs again": pod["restartPolicy"] in ("Never", "OnFailure") and spec["backoffLimit"] > 0,
        "it calls run_case": container["command"][0].endswith("/run_case") and container["command"][1:] == ["/cases", "/results"],
        "its folders are mounted": {"/cases", "/results", "/tmp"} <= mounted.keys() and set(mounted.values()) == names,
        "it asks for the memory that limits it": container["resources"]["requests"]["memory"] == container["resources"]["limits"]["memory"],
    }
    return [f"not so: {name}" for name, holds in asked.items() if not holds]


def main():
    try:
        import yaml
    except ImportError:
        print("fleet_job: no reader of YAML (python3-yaml), not tried")
        return 0
    job = yaml.safe_load((FLEET / "job.yaml").read_text(encoding="utf-8"))
    cases = subprocess.run([sys.executable, FLEET / "run_case", FLEET / "cases"], capture_output=True, text=True, check=True).stdout.split()
    faults, by = [], "its structure"
    try:
        faults += structure(job, cases)
    except (LookupError, TypeError, ValueError) as fault:
        faults.append(f"its structure can't be made out: {fault!r}")
    try:
        from kubernetes.client import models
        faults += faults_of_type(models, job, models.V1Job, "job")
        by = "Kubernetes' types and its structure"
    except ImportError:
        print("fleet_job: no python3-kubernetes, its types not tried")
    for fault in faults:
        print(f"failed: job.yaml: {fault}")
    print(f"fleet_job: job.yaml by {by}, {len(faults)} faults")
    return 1 if faults else 0


if __name__ == "__main__":
    sys.exit(main())
