"""Tests of tools/choose --from: captures that are made here, with known delays and losses."""
import pathlib
import random
import subprocess
import tempfile
from fractions import Fraction

from choosing import HIDDEN, NUMBERS, WINDOW_MOST, least_time, least_window, show_time
from made_captures import FORMS, frame, pcap, pcapng

ROOT = pathlib.Path(__file__).resolve().parent.parent
START = 1_700_000_000 * 10**9
US, MS = 10**3, 10**6


def run(words, room=ROOT):
    return subprocess.run([ROOT / "tools/choose", *words.split()], capture_output=True, check=False, cwd=room)


def choose(words):
    """What tools/choose prints for these words, and its status."""
    ran = run(words)
    return ran.stdout.decode(), ran.returncode


def stream(delays, spacing=MS, first=65400, begin=START, **more):
    """Packets of both networks. A delay of a network and an index is in nanoseconds, or None: then that copy is lost."""
    networks = [[], []]
    for index in range(len(delays[0])):
        for network in range(2):
            if delays[network][index] is not None:
                time = begin + index * spacing + delays[network][index]
                networks[network].append((time, frame((first + index) % NUMBERS, **more)))
    return [sorted(packets) for packets in networks]


def known(count=400):
    """Delays from 1 to 1.3 ms on network 0 and from 1.5 to 3.5 ms on network 1, through the wrap. J is 2.5 ms. Each network loses
    now and then; indices 100 and 101 are lost on both. Twins are 2.4 ms apart at most: network 1 loses those that would be more."""
    delays = [[MS + index % 4 * 100 * US for index in range(count)], [1500 * US + index % 5 * 500 * US for index in range(count)]]
    for index in range(0, count, 7):
        delays[0][index] = None
    for index in range(3, count, 11):
        if delays[0][index] is not None:
            delays[1][index] = None
    for index in range(4, count, 20):
        delays[1 if delays[0][index] else 0][index] = None
    for index in (100, 101):
        delays[0][index] = delays[1][index] = None
    return delays


def with_both(*runs):
    """Runs one behind the other, by network."""
    return [sum((networks[network] for networks in runs), []) for network in range(2)]


class Bench:
    """A folder for captures, and what was found wrong."""

    def __init__(self, room):
        self.room = pathlib.Path(room)
        self.faults = []
        self.cases = 0

    def case(self, networks, words, status, *wanted, without=()):
        """Captures as bytes; what must be printed, and what must not."""
        self.cases += 1
        for name, data in zip(("network0", "network1"), networks):
            (self.room / name).write_bytes(data)
        ran = run(f"--from network0 network1 {words}", self.room)
        printed = ran.stdout.decode() + ran.stderr.decode()
        if ran.returncode != status or any(w not in printed for w in wanted) or any(w in printed for w in without):
            self.faults.append(f"--from {words}: wanted {status} {wanted}, not {without}; got {ran.returncode}\n{printed}")


def forms(bench):
    """Each form that is read gives the same figures."""
    runs = stream(known())
    frames = len(runs[0]) + len(runs[1])
    figures = ("m at least 2: 2 indices have no copy, of 400 from first to last\n", "J at least 2.4 ms: the largest distance of twins, from ",
               f"J 2.5 ms: the spread of arrival less index times T, from {frames} frames, ")
    for form in FORMS.values():
        # 2.5 ms and nothing more, then 50 % and 1 ms more: 4.75 ms; m is 2, then 3.
        bench.case([form(packets) for packets in runs], "T=1ms tau=1ms --margin 0 wait=0", 0, *figures,
                   "\nJ 2.5 ms, T 1 ms, m 2, tau 1 ms\nL 8: ", "\n  6 with open=before", "\nR 5 (", "\n  4 with ticks=exact", without=("hint", "warning"))
        bench.case([form(packets) for packets in runs], "T=1ms tau=1ms", 0, *figures, "\nJ 4.75 ms, T 1 ms, m 3, tau 1 ms\nL 13: ", "\nR 7 (")
    # The words may stand before and behind, and m and wait may be given.
    bench.case([pcap(packets) for packets in runs], "m=4 --margin 100 wait=500us T=1ms tau=10ms", 0, "\nJ 5.5 ms, T 1 ms, m 4, tau 10 ms\n")
    bench.case([pcap(packets) for packets in runs], "m=1 T=1ms tau=10ms", 2, "choose: m=1, and the captures lack 2 in a row;")
    # Frames that were cut behind the tag, as with tcpdump -s.
    cut = [pcap([(time, data[:20], 1000) for time, data in packets]) for packets in runs]
    bench.case(cut, "T=1ms tau=1ms --margin 0 wait=0", 0, *figures)


def not_known(bench):
    """Without T there is no L, and J is at least the largest distance of twins."""
    runs = [pcap(packets) for packets in stream(known())]
    for words, more in (("", ()), ("tau=1ms", ("R at least 5: ",)), ("tau=1ms ticks=exact", ("R at least 4: ",))):
        bench.case(runs, words, 1, "m at least 2", "J at least 2.4 ms", "\nL at least ", *more, "\nnone: T is not known", without=("\nL 8", "\nJ 2.5"))
    # The distance is that from the highest, not from the last: 14 is 2 from 12 and 3 from 11.
    first, second = [(START + at * MS, frame(n)) for at, n in ((0, 10), (2, 12), (4, 14))], [(START + at * MS, frame(n)) for at, n in ((1, 10), (3, 11))]
    bench.case([pcap(first), pcap(second)], "", 1, "\nL at least 3: no arrival was more than 2 from the highest index before it\n")
    # T is off by half a microsecond: 4 ms over 8000 frames.
    delays = known(8000)
    bench.case([pcap(packets, "<", True) for packets in stream(delays, MS + 500)], "T=1ms tau=1ms", 0,
               "hint: arrival less index times T drifts; with T=1.0005ms J would be 2.5 ms")
    bench.case([pcap(packets) for packets in stream(delays)], "T=1ms tau=1ms", 0, "\nJ 2.5 ms: ", without=("hint",))


def several(bench):
    """Captures of more than one stream, and of none."""
    runs = with_both(stream(known()), stream(known(150), vlan=100), stream(known(160), dest="01005e000007", vlan=100 | 0xE000))
    other = b"\xff" * 12 + b"\x08\x06" + bytes(46)
    # Frames that are cut short, too short and too long are no arrivals, nor those with a group source.
    no_arrivals = [(START, other), (START, frame(1)[:17], 100), (START, frame(1)[:19]), (START, frame(1) + bytes(1981)),
                   (START, frame(1, source="010000000002")), (START, frame(1, dest="020000000009", source="ff0000000002"))]
    both = [pcapng(sorted(packets + no_arrivals)) for packets in runs]
    bench.case(both, "T=1ms tau=1ms", 2, "choose: refused: more than one stream, --key chooses one of 01:00:5e:00:00:07,100 (",
               "; 02:00:00:00:00:01,0 (", "; 02:00:00:00:00:01,100 (", without=("02:00:00:00:00:09",))
    bench.case(both, "T=1ms tau=1ms --key 020000000001,0 --margin 0 wait=0", 0, "stream 02:00:00:00:00:01,0: ", " of 400 from", "\nL 8: ")
    bench.case(both, "--key 01:00:5e:00:00:07,100 T=1ms tau=1ms", 0, "stream 01:00:5e:00:00:07,100: ", " of 160 from")
    bench.case(both, "--key 01:00:5e:00:00:07,0", 2, "choose: refused: no frame of 01:00:5e:00:00:07,0; there are 01:00:5e:00:00:07,100 (")
    bench.case([pcap([(START, other)]), pcap([])], "", 2, "choose: refused: no frame with a redundancy tag and an individual source in either capture")


def reflected(bench):
    """A tap reflects each frame of network 0 onto network 1, 40 ms late and with a group source. Nothing of it is measured."""
    runs = stream(known())
    echo = [(time + 40 * MS, data[:6] + b"\x03" + data[7:]) for time, data in runs[0]]
    both = [pcap(runs[0]), pcap(sorted(runs[1] + echo))]
    bench.case(both, "T=1ms tau=1ms --margin 0 wait=0", 0, "J at least 2.4 ms: ", "\nJ 2.5 ms: ", f" from {len(runs[0]) + len(runs[1])} frames, ",
               "\nL 8: ", "\nR 5 (",
               f"warning: 0 frames on network 0 and {len(echo)} on network 1 have a group source, which a receiver refuses with 14: they are left out")
    bench.case([both[0], pcap(echo)], "", 2, f"is in both captures: 0 frames on network 0 and {len(echo)} on network 1 have a group source")
    alone = [pcap([(time, frame(1, source="030000000002")) for time in (START, START + MS)])] * 2
    bench.case(alone, "", 2, "choose: refused: no frame with a redundancy tag and an individual source in either capture")


def jumps(bench):
    """A sender that restarts, far and near; an outage; a stray frame; a clock that was set."""
    count, much = 200, 200 * MS
    whole = [[MS] * count, [2 * MS] * count]
    first, second = stream(whole, first=5000), stream(whole, first=0, begin=START + much + 300 * MS)
    bench.case([pcap(p) for p in with_both(first, second)], "T=1ms tau=1ms --margin 0 wait=0", 0,
               "warning: 1 jumps of 1024 or more, the first to number 0: ", "m at least 0: 0 indices have no copy, of 400 ", "\nJ 1 ms: ")
    # The new count begins while copies of the old are on their way.
    soon = stream(whole, first=0, begin=START + much)
    bench.case([pcap(sorted(p)) for p in with_both(first, soon)], "T=1ms tau=1ms", 0, "warning: 1 jumps", "\nJ 1 ms: ", without=("\nJ at least 2",))
    near = stream(whole, first=5100, begin=START + much + 300 * MS)
    bench.case([pcap(p) for p in with_both(first, near)], "T=1ms tau=1ms", 1, "warning: 200 frames have the index of one before on the same network: ")
    stray = [sorted(first[0] + [(START + 50 * MS, frame(40000)), (START + 60 * MS, frame(20000))]), first[1]]
    bench.case([pcap(p) for p in stray], "T=1ms tau=1ms", 0, "warning: 2 jumps", "\nJ 1 ms: ", "from 402 frames")
    # One network 300 frames behind the other: no window is so large, but J is found.
    slow = stream([[MS] * 900, [301 * MS] * 900])
    bench.case([pcap(p) for p in slow], "T=1ms tau=1ms --margin 0 wait=0", 1, "\nJ 300 ms: ", "\nnone: L would be 602, more than 512", without=("warning",))
    set_back = [(time - (10 * MS if place > 100 else 0), data) for place, (time, data) in enumerate(first[0])]
    bench.case([pcap(set_back), pcap(first[1])], "T=1ms tau=1ms", 0, "warning: 1 time stamps are earlier than the one before")


def refusals(bench):
    good = pcap([(START, frame(1))])
    later = pcap([(START + 10**12, frame(30000))])
    bench.case([good, later], "", 2, "choose: refused: no index of 02:00:00:00:00:01,0 is in both captures: ")
    bench.case([good, pcap([])], "T=1ms tau=1ms", 2, "is in both captures")
    doubled = pcap([(START, frame(1)), (START + MS, frame(1))])
    bench.case([doubled, later], "T=1ms tau=1ms", 2, "is in both captures")
    bench.case([b"no capture at all", good], "", 2, "choose: refused: network0: neither pcap nor pcapng")
    bench.case([good, good[:-1]], "", 2, "choose: refused: network1: the file ends within packet 1")
    bench.case([good, pcap([], link=113)], "", 2, "choose: refused: network1: link type 113 is not Ethernet")
    for words, why in (("J=1ms", "no J, net0 or net1"), ("T=1ms", "tau is missing"), ("m=3", "there is none without T"), ("--margin -1", "margin '-1' is no number of percent"),
                       ("--margin x", "margin 'x' is no"), ("--key 01,0", "'01,0' is not DEST,VLAN"), ("--key 020000000001", "is not DEST,VLAN"),
                       ("T=0 tau=1ms", "T is more than 0"), ("open=never", "open=before or no word open"), ("S=1", "'S=1' is not understood")):
        bench.case([good, good], words, 2, f"{why}")
    for words in ("T=1ms m=0 tau=1ms J=0 --margin 10", "T=1ms m=0 tau=1ms J=0 --key 020000000001,0", "--from one T=1ms", "--from none none"):
        if run(words, bench.room).returncode != 2:
            bench.faults.append(f"{words}: not refused")


def at_random(bench, rng):
    """What is put in comes out: J, m, and the L and R for them."""
    spacing = rng.choice((37, 125, 1000, 4321)) * US
    count, first = rng.randint(40, 300), rng.randrange(NUMBERS)
    ends = [sorted((rng.randrange(6 * spacing), rng.randrange(6 * spacing))) for _ in range(2)]
    delays = [[rng.choice((low, high, rng.randint(low, high))) if rng.random() < .7 else None for _ in range(count)] for low, high in ends]
    # The ends are there, and the first and the last index.
    for network in range(2):
        for index in (0, count - 1):
            delays[network][index] = ends[network][rng.randrange(2)]
    flat = [d for of_network in delays for d in of_network if d is not None]
    spread = max(flat) - min(flat)
    twins = max(abs(a - b) for a, b in zip(*delays) if None not in (a, b))
    lost = "".join("x" if a is None and b is None else "." for a, b in zip(*delays))
    losses = max(len(hole) for hole in lost.split("."))
    window, time = least_window(spread, spacing, losses, True), least_time(spread, MS, HIDDEN)
    form = rng.choice([lambda p: pcap(p, "<", True), lambda p: pcapng(p, ">", 9)])
    bench.case([form(packets) for packets in stream(delays, spacing, first)], f"T={spacing}ns tau=1ms --margin 0 wait=0", 0 if window <= WINDOW_MOST else 1,
               f"m at least {losses}: {lost.count('x')} indices", f"J at least {show_time(Fraction(twins))}: ", f"\nJ {show_time(Fraction(spread))}: ",
               *([f"\nL {window}: ", f"\nR {time} ("] if window <= WINDOW_MOST else [f"none: L would be {window}, "]), without=("warning",))


def measured_faults():
    with tempfile.TemporaryDirectory() as room:
        bench = Bench(room)
        for test in (forms, not_known, several, reflected, jumps, refusals):
            test(bench)
        rng = random.Random(8021)
        for _ in range(20):
            at_random(bench, rng)
    print(f"{bench.cases} pairs of captures measured")
    return bench.faults
