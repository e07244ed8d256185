"""Reads sources as a command does, with the host and the options that a test gives."""
from fractions import Fraction

import owned_model
from arbiter_host.base.faults import HostFault
from arbiter_host.sources import containers, hostfile, kubernetes, script, slurm, systemd
from arbiter_host.sources.source_options import SourceOptions
from arbiter_host.sources.times import Times


class Planner:
    """What readers ask of the library: whether a host can be planned, as those of tests can, and
    weights and limits, by the model of tests."""

    @staticmethod
    def owned_weight(formula, number):
        return owned_model.WEIGHTS[formula](number)

    @staticmethod
    def owned_limit(formula, number, period=0):
        return owned_model.limit_by(formula, number, period)

    @staticmethod
    def owned_number(formula, request):
        return owned_model.number_for(formula, request)

    @staticmethod
    def greatest_part(kinds, amounts, part, room):
        return owned_model.greatest_part(kinds, amounts, part, room)

    @staticmethod
    def pod_amount(kinds, amounts):
        return owned_model.pod_amount(kinds, amounts)

    @staticmethod
    def planned_host(host):
        if not 1 <= host.processors <= 64:
            raise HostFault(f"{host.processors} CPUs: not 1 to 64")
        return host


def options_of(host=None, seconds=Fraction(1), **words):
    """What is asked of a source on a host, where one is given."""
    times = Times(seconds)
    if host is None:
        return SourceOptions(times=times, **words)
    return SourceOptions(host.processors, host.period_us, host.slice_us, times=times, **words)


def pods(files, host, library, **words):
    return kubernetes.read(files, library or Planner(), options_of(host, **words))


def docker(files, host, library, **words):
    return containers.read(files, library or Planner(), options_of(host, **words))


def units(files, host, want="", seconds=Fraction(1), **words):
    return systemd.read(files, Planner(), options_of(host, seconds, want=want, **words))


def jobs(files, host=None, node="", want=""):
    return slurm.read(files, Planner(), options_of(host, node=node, want=want))


def lines(data, name, engine, host=None):
    """The model of a script."""
    return script.model_of(data, name, engine.library, host)


def host_file(data, name="F", kind="toml"):
    return hostfile.model_of(data, name, kind == "toml", Planner(), options_of())
