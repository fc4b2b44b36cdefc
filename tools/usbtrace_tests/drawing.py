"""Pictures of runs."""
from usbtrace_tests.trial import DEVICE, End, Trial, test

# A read that is cancelled after its first packet.
CANCELLED = DEVICE + b"""script 0 81 d:0102030405060708
open 1 0
claim 1 0
submit 1 81 bulk 24
serve 0 81
cancel 1 0
command
deliver
deliver
take
return 1 0
"""


@test
def a_run_is_drawn_whole_or_not_at_all(trial: Trial) -> None:
    trial.shows("draw", CANCELLED, [b"<svg ", b">stop 81<", b">8 B<", b"\n</svg>\n"], step=100)
    trial.expect("draw", b"open 1 0\nno line\n", End(1, b"", b"usbtrace: line 2 refused\n"), step=100)


@test
def some_steps_are_drawn_with_their_lines_numbers(trial: Trial) -> None:
    parts = [b">7</text>", b">8</text>", b">cancel</text>", b">command</text>", b"\n</svg>\n"]
    others = [b">6</text>", b">9</text>", b">serve</text>", b">deliver</text>"]
    trial.shows("draw --from 7 --to 8", CANCELLED, parts, step=100, lacks=others)


@test
def a_page_has_the_picture_and_the_steps(trial: Trial) -> None:
    parts = [b"<!DOCTYPE html>", b"<svg ", b"h1 ran stop 81 ok", b"submit 1 81 bulk 24", b"</html>\n"]
    trial.shows("draw --html", CANCELLED, parts, step=100)


@test
def at_most_2000_steps_are_drawn(trial: Trial) -> None:
    text = b"take\n" * 2_001
    too_wide = b"usbtrace: 2001 steps are too many for a picture, which has 2000: choose some by --from and --to\n"
    trial.expect("draw", text, End(1, b"", too_wide), step=10_007)
    for words in ("draw --from 2", "draw --to 2000"):
        trial.shows(words, text, [b"<svg ", b"\n</svg>\n"], step=10_007)
