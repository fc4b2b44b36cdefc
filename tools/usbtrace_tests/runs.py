"""Two handles at one device, which is unplugged amid their transfers. `check_parts` has the plain program run the same steps, of the worked
rows `unplug_amid_transfers` and `unplug_amid_transfers_alone_2`."""
from usbtrace_tests.trial import DEVICE, End, Trial, test

# Two handles with transfers at one device, which is unplugged; endpoint 81 answers one packet.
UNPLUGGED = DEVICE + b"""script 0 81 d:0102030405060708
open 1 0
open 2 0
claim 1 0
claim 2 1
submit 1 81 bulk 8
submit 1 81 bulk 8
submit 2 83 int 8
serve 0 81
unplug 0
unplug 0
submit 1 81 bulk 8
deliver
serve 0 81
serve 0 83
deliver
deliver
take
take
take"""
# What is printed of it.
LINES = b"""h1 done
h2 done
h1 done
h2 done
h1 number 0
h1 number 1
h2 number 0
h1 ended 0 code 1
- done
- refused 2
h1 refused 2
h1 finished 0
h1 ended 1 code 4
h2 ended 0 code 4
h1 finished 1
h2 finished 0
h1 called 0 ep 81 round 0 COMPLETED 8 data 0102030405060708
h1 called 1 ep 81 round 0 NO_DEVICE 0 data -
h2 called 0 ep 83 round 0 NO_DEVICE 0 data -
"""
# What is printed of handle 2, alone and amid the others: its own lines, and those of the unplugged device.
ITS_OWN = b"""h2 done
h2 done
h2 number 0
- done
- refused 2
h2 ended 0 code 4
h2 finished 0
h2 called 0 ep 83 round 0 NO_DEVICE 0 data -
"""


@test
def a_run_prints_every_entry(trial: Trial) -> None:
    trial.expect("run", UNPLUGGED, End(0, LINES, b""))


@test
def a_handle_sees_alone_what_it_sees_amid_others(trial: Trial) -> None:
    trial.expect("alone 2", UNPLUGGED, End(0, ITS_OWN, b""))
    ran = trial.run("run", UNPLUGGED)
    shared = b"".join(line for line in ran.out.splitlines(keepends=True) if line.startswith((b"h2 ", b"- ")))
    trial.judge(ran._replace(out=shared), End(0, ITS_OWN, b""))
