"""The printed lines, each form once. The numbers are those of docs/FORMATS.md, the steps by which they come from docs/MODEL.md. That a line
has its entry's own numbers, whatever they are, is proved (`entry_text` of `usb_model`)."""
from usbtrace_tests.trial import DEVICE, End, Trial, test


def prints_beside(trial: Trial, script: bytes, told: bytes) -> None:
    """A run over the device with a script, and over steps, prints what stands behind the arrow of each step."""
    steps, lines = zip(*(line.split(b" -> ") for line in told.splitlines()))
    text = DEVICE + script + b"".join(step.strip() + b"\n" for step in steps)
    trial.expect("run", text, End(0, b"".join(line + b"\n" for line in lines), b""))


@test
def entries_print_their_lines(trial: Trial) -> None:
    prints_beside(trial, b"script 0 81 d:0102030405060708 d:01 n\n", b"""\
open 1 0 -> h1 done
open 63 0 -> h63 done
claim 1 0 -> h1 done
claim 63 0 -> h63 refused 5
submit 1 81 bulk 16 -> h1 number 0
submit 1 81 bulk 8 -> h1 number 1
deliver -> - idle
serve 0 81 -> h1 moved 0 8
serve 0 81 -> h1 ended 0 code 13
serve 0 81 -> h1 nak 1
deliver -> h1 finished 0""")


@test
def a_pause_prints_its_number(trial: Trial) -> None:
    before = b"".join(b"""\
submit 1 81 bulk 8 -> h1 number %(n)d
serve 0 81 -> h1 ended %(n)d code 13
deliver -> h1 finished %(n)d
take -> h1 called %(n)d ep 81 round 0 COMPLETED 1 data 01
return 1 %(n)d -> h1 done
""" % {b"n": number} for number in range(15))
    prints_beside(trial, b"script 0 81" + b" d:01" * 15 + b" d:0102030405060708\n", b"""\
open 1 0 -> h1 done
claim 1 0 -> h1 done
""" + before + b"""\
submit 1 81 bulk 16 -> h1 number 15
serve 0 81 -> h1 moved 15 8
cancel 1 15 -> h1 done
command -> h1 ran stop 81 ok
deliver -> h1 paused 15
deliver -> h1 settled stop 81 ok""")


@test
def errands_print_their_lines(trial: Trial) -> None:
    prints_beside(trial, b"script 0 81 d:0102030405060708\nscript 0 02 b\n", b"""\
open 1 0 -> h1 done
claim 1 0 -> h1 done
submit 1 81 bulk 16 -> h1 number 0
submit 1 02 bulk x:00 -> h1 number 1
serve 0 81 -> h1 moved 0 8
cancel 1 0 -> h1 done
cancel 1 1 -> h1 done
serve 0 02 -> h1 ended 1 code 4
command -> h1 ran stop 81 ok
command -> h1 ran stop 02 fail
deliver -> h1 finished 1
deliver -> h1 paused 0
deliver -> h1 settled stop 81 ok
deliver -> h1 settled stop 02 fail
command -> h1 ran move 81 ok
command -> h1 ran reset 02 ok
deliver -> h1 settled move 81 ok
deliver -> h1 settled reset 02 ok""")


@test
def calls_print_their_bytes(trial: Trial) -> None:
    again = b"".join(b"""\
serve 0 81 -> h2 ended %(n)d code 13
deliver -> h2 finished %(n)d
take -> h2 called %(n)d ep 81 round %(n)d COMPLETED 1 data 0%(n)d
return 2 %(n)d -> h2 number %(next)d
""" % {b"n": number, b"next": number + 1} for number in range(2))
    begun = b"""\
open 2 0 -> h2 done
claim 2 0 -> h2 done
submit 2 81 bulk 8 then=again:COMPLETED:2 -> h2 number 0
""" + again
    prints_beside(trial, b"script 0 81 d:00 d:01 d:0102ab\n", begun + b"""\
serve 0 81 -> h2 ended 2 code 13
deliver -> h2 finished 2
take -> h2 called 2 ep 81 round 2 COMPLETED 3 data 0102ab""")
    prints_beside(trial, b"script 0 81 d:00 d:01\n", begun + b"""\
unplug 0 -> - done
serve 0 81 -> h2 ended 2 code 4
deliver -> h2 finished 2
take -> h2 called 2 ep 81 round 2 NO_DEVICE 0 data -""")
