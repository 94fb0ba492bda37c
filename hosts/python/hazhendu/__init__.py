"""Heat soak by phi-functions: the proved library hazhendu on numpy arrays and scipy.sparse matrices.

For C dT/dt = -A T + q with T = T0 at time 0, A in W/K, C in J/K and q in W, T at time tau is

    soak(A, tau, [T0, q / C], mass=C).field

in general the sum over k of tau^k phi_k(tau G) w_k, where G = -A, or -A with each row divided by its mass. Every call is proved equal, bit
for bit, to a definition; a job that the library does not take raises Refused, with the refusal's number, its double and what to change.

Paused is a Krylov soak by substeps, a generator of the moments between them, Unit serves up to 16 of these in rotation; stages runs a
schedule of soaks over one matrix, ambient a logger's records of an ambient level.

A call holds no lock and runs to its end: other threads go on, and Ctrl-C is heard after it. The thread's floating-point environment is set
for the call and put back.
"""

from ._ambient import Logged, ambient
from ._calls import (
    Largest,
    Plan,
    Report,
    Soaked,
    check,
    join,
    phi_action,
    phi_action_batched,
    phi_combination,
    phi_combination_krylov,
    plan,
    soak,
    transpose,
)
from ._heating import HeatingWarning, NotFiniteWarning, heating_rows
from ._library import Refused
from ._paused import Moment, Paused
from ._rotation import Turned, Unit
from ._stages import Stage, Staged, stages

__all__ = [
    "HeatingWarning",
    "Largest",
    "Logged",
    "Moment",
    "NotFiniteWarning",
    "Paused",
    "Plan",
    "Refused",
    "Report",
    "Soaked",
    "Stage",
    "Staged",
    "Turned",
    "Unit",
    "ambient",
    "check",
    "heating_rows",
    "join",
    "phi_action",
    "phi_action_batched",
    "phi_combination",
    "phi_combination_krylov",
    "plan",
    "soak",
    "stages",
    "transpose",
]
