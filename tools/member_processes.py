#!/usr/bin/env python3
"""Runs the built program as members of a group, each a process of its own, and says what comes out.

  tools/member_processes.py PROGRAM [PORT [WAIT]]

PROGRAM is the program as `rt run` builds it, crates/dissent/out/dissent. The rounds use the ports from PORT on, which is 47101
where it is left out, on this machine, and members wait for WAIT seconds, 10 where it is left out. Each line is one round:
what was done, and whether the members ended as they ought to. The status is 0 where all did.

- started in each of the six orders: all three print the same slots, which have their messages;
- a member that is killed behind its second post: the two others end open, and miss it;
- a stranger beside the three who sends frames of every wrong kind: the round is done;
- such a peer in the place of the third member: the two others end open at stage 0, and miss it;
- a member that runs twice with copies of its key file: both others convict it, and `judge` accepts each transcript in a folder
  that has the roster and the transcript alone;
- the same in a group of four whose fourth member says nothing, and judges no less;
- the same where the transcript of one cannot be written: it ends with 6 and prints nothing, and the other convicts;
- the output of one cannot be written: it ends with 6, and the others are done;
- the own address of one is taken: `link fault`, its key file is as it was, and then the round is done;
- the same words again behind a round: `old round`, the key files are as they were;
- one member alone whose words or files are wrong, each with its status, the key file as it was; and a key that is exhausted;
- as many empty frames as a member takes, on all connections that it accepts, in a group of eight: it ends open;
- the same on the connections that the others leave, in a group of three: the round is done;
- one member alone in little memory: `out of memory`, or open as with much, and never an end by a signal;
- a member in little memory beside both others: open, `out of memory` or done, and never an end by a signal.

Memory is limited by RLIMIT_DATA, which leaves the stack alone: where a limit keeps the stack from growing, as RLIMIT_AS may, the
system ends a program by a signal.
"""

import itertools
import os
import resource
import shutil
import socket
import sys
import tempfile
import threading
import time

sys.dont_write_bytecode = True

from round_group import Group, all_ended, are_done, ended
from round_peers import FRAMES, HOST, Flood, Relay, WrongPeer

RELAYED = 20
LONGEST = 65536
KILOBYTES_ALONE = (160, 224, 288, 352, 1024)
MEGABYTES_BESIDE = (1, 16, 26, 64)
ALONE = (2, "open stage 0 missing 2,3\n")
OUT_OF_MEMORY = (16, "out of memory\n")
BLAMED = (3, "blamed 3 Equivocation\n")
ACCEPTED = (0, "accepted member 3 claim Equivocation\n")


def in_order(group, order):
    started = {}
    for number in order:
        started[number] = group.start(number)
        time.sleep(0.3)
    ends = [ended(started[number]) for number in (1, 2, 3)]
    return are_done(ends), ends


def with_a_killed_member(group):
    """Member 3 is killed as soon as both others have two posts of it, its keys and what it submits."""
    killed = []
    both = threading.Barrier(2, action=lambda: killed[0].kill())
    addresses = [(HOST, group.port + 3), (HOST, group.port + 4), group.address(3)]
    for number in (1, 2):
        Relay(addresses[number - 1], group.address(number), 2, both.wait)
    others = [group.start(1), group.start(2)]
    killed.append(group.start(3, addresses))
    ends = all_ended(others)
    return ends == [(2, "open stage 4 missing 3\n")] * 2, ends


def beside_a_stranger(group):
    peer = WrongPeer(group, (1, 2, 3))
    started = [group.start(number) for number in (1, 2)]
    time.sleep(3)
    started.append(group.start(3))
    ends = all_ended(started)
    peer.leave()
    return are_done(ends) and peer.sent > 0, ends


def with_a_wrong_peer(group):
    peer = WrongPeer(group, (1, 2), own=3)
    ends = all_ended([group.start(1), group.start(2)])
    peer.leave()
    return ends == [(2, "open stage 0 missing 3\n")] * 2 and peer.sent > 0, ends


def start_twins(group):
    """Member 3 runs twice with copies of its key file. The second process listens where nobody looks for it. Its keys are with
    members 1 and 2 before the first process is heard, so that no round is over before both were."""
    shutil.copy(group.path("key3"), group.path("copy"))
    places = [group.address(group.size + i) for i in range(1, 6)]
    said = threading.Barrier(4)
    for number in (1, 2):
        Relay(places[number - 1], group.address(number), RELAYED, first=said.wait)
        Relay(places[number + 1], group.address(number), 1, then=said.wait)
    others = group.addresses()[3:]
    first = group.start(3, places[:2] + [group.address(3)] + others)
    return [first, group.start_with(3, {"--key": "copy", "--transcript": "transcript"}, places[2:5] + others)]


def with_twins(group, instead):
    """How members 1 and 2 end, the second with these words in the place of its own, where member 3 runs twice. A fourth is reached
    and says nothing."""
    silent = [socket.create_server(address) for address in group.addresses()[3:]]
    others = [group.start(1), group.start_with(2, instead)]
    twins = start_twins(group)
    ends = all_ended(others)
    for process in twins:
        process.kill()
    all_ended(twins)
    for listener in silent:
        listener.close()
    return ends


def with_a_copied_key(group):
    ends = with_twins(group, {})
    verdicts = [group.judged_apart("transcript%d" % i) for i in (1, 2)]
    return ends == [BLAMED] * 2 and verdicts == [ACCEPTED] * 2, ends + verdicts


def with_no_place_for_the_transcript(group):
    ends = with_twins(group, {"--transcript": "nowhere/evidence"})
    verdict = group.judged_apart("transcript1")
    return ends == [BLAMED, (6, "")] and verdict == ACCEPTED, ends + [verdict]


def with_no_place_for_the_output(group):
    with open("/dev/full", "wb") as full:
        started = [group.start(1, stdout=full), group.start(2), group.start(3)]
        ends = all_ended(started)
    return ends[0] == (6, "") and are_done(ends[1:]), ends


def with_a_taken_port(group):
    key = group.read("key1")
    with socket.create_server(group.address(1)):
        refused = ended(group.start(1))
    kept = group.read("key1") == key
    ends = all_ended([group.start(i) for i in (1, 2, 3)])
    return refused == (7, "link fault\n") and kept and are_done(ends), [refused] + ends


def with_the_same_words_again(group):
    first = all_ended([group.start(i) for i in (1, 2, 3)])
    keys = [group.read("key%d" % i) for i in (1, 2, 3)]
    ends = all_ended([group.start(i) for i in (1, 2, 3)])
    kept = keys == [group.read("key%d" % i) for i in (1, 2, 3)]
    return are_done(first) and ends == [(10, "old round kept 1\n")] * 3 and kept, ends


def wrong_words(group):
    """Words in the place of member 1's own, and the status and the line that they give."""
    group.write("long", bytes(65537))
    group.run("keygen", "--key", "strange", "--height", "5", "--width", "4")
    yield {"--round": "0"}, 1, "usage"
    yield {"--message": "nowhere"}, 5, "read fault"
    yield {"--roster": "nowhere"}, 5, "read fault"
    yield {"--key": "nowhere"}, 8, "disk fault"
    yield {"--roster": "message1"}, 11, "bad roster at 0 rule 1"
    yield {"--key": "message1"}, 12, "bad key file at 0"
    yield {"--message": "long"}, 13, "too long limit 65536"
    yield {"--roster": "long"}, 13, "too long limit 4096"
    yield {"--key": "strange"}, 17, "not a member"


def line_of(end):
    """Status and first line: behind `usage` come the forms of all commands."""
    return end[0], end[1].split("\n")[0]


def with_wrong_words(group):
    key, ends, well = group.read("key1"), [], True
    for instead, status, line in wrong_words(group):
        ends.append(line_of(ended(group.start_with(1, instead))))
        well = well and ends[-1] == (status, line) and group.read("key1") == key
    ends.append(line_of(ended(group.start(1, group.addresses()[:2]))))
    return well and ends[-1] == (1, "usage") and group.read("key1") == key, [(0, "; ".join("%d %s" % end for end in ends))]


def with_an_exhausted_key(group):
    """A round takes twelve of 32 leaves, also where nobody else comes."""
    ends = [ended(group.start_with(1, {"--round": str(number), "--wait": "1"})) for number in (1, 2, 3)]
    return ends == [ALONE, ALONE, (9, "exhausted next 24 height 5\n")], ends[::-1]


def in_a_flood(group):
    """All connections that a member of eight accepts are the flood's."""
    member = group.start(1)
    flood = Flood(group.address(1), 4 * group.size)
    flood.begin()
    ends = [ended(member)]
    flood.end()
    return ends == [(2, "open stage 0 missing 2,3,4,5,6,7,8\n")] and flood.sent >= 4 * group.size * FRAMES, ends


def beside_a_flood(group):
    """The two other members are connected before the ten other connections."""
    started = [group.start(1), group.start(2)]
    time.sleep(1)
    flood = Flood(group.address(1), 4 * group.size - 2)
    flood.begin()
    started.append(group.start(3))
    ends = all_ended(started)
    flood.end()
    return are_done(ends) and flood.sent > 0, ends


def start_fresh(group, number, instead, **process):
    """A member with a copy of its key file, so that the key file is never used."""
    copy = "fresh%d" % number
    shutil.copy(group.path("key%d" % number), group.path(copy))
    return group.start_with(number, {"--key": copy, **instead}, **process)


def limited(bytes):
    return lambda: resource.setrlimit(resource.RLIMIT_DATA, (bytes, bytes))


def alone_in_little_memory(group):
    """The line `out of memory` may want memory too."""
    group.write("longest", bytes(LONGEST))
    words, ends = {"--message": "longest", "--wait": "1"}, []
    for kilobytes in KILOBYTES_ALONE:
        ends.append(ended(start_fresh(group, 1, words, preexec_fn=limited(kilobytes << 10))))
    well = all(end in (ALONE, OUT_OF_MEMORY, (16, "")) for end in ends)
    return well and OUT_OF_MEMORY in ends and ends[-1] == ALONE, ends[::-1]


def in_little_memory_beside_others(group):
    """Most of the memory are the stacks of the threads that read."""
    well = True
    for megabytes in MEGABYTES_BESIDE:
        started = [start_fresh(group, 1, {"--wait": "2"}, preexec_fn=limited(megabytes << 20))]
        started += [start_fresh(group, number, {"--wait": "2"}) for number in (2, 3)]
        ends = all_ended(started)
        well = well and ends[0][0] in (0, 2, 16) and (ends[1][0], ends[2][0]) in ((0, 0), (2, 2))
    return well and are_done(ends), ends


def rounds():
    for order in itertools.permutations((1, 2, 3)):
        yield "started in the order %d %d %d" % order, 3, lambda group, order=order: in_order(group, order)
    yield "member 3 killed behind its second post", 3, with_a_killed_member
    yield "a stranger with wrong frames beside all three", 3, beside_a_stranger
    yield "a peer with wrong frames in the place of member 3", 3, with_a_wrong_peer
    yield "member 3 twice with copies of its key file", 3, with_a_copied_key
    yield "the same in a group of four, one of them silent", 4, with_a_copied_key
    yield "the same, and one transcript that cannot be written", 3, with_no_place_for_the_transcript
    yield "an output that cannot be written", 3, with_no_place_for_the_output
    yield "an own address that is taken, and then not", 3, with_a_taken_port
    yield "the same words again", 3, with_the_same_words_again
    yield "wrong words and files of one member", 3, with_wrong_words
    yield "a key for two rounds", 3, with_an_exhausted_key
    yield "a flood of empty frames on all connections of a member of eight", 8, in_a_flood
    yield "a flood beside all three", 3, beside_a_flood
    yield "one member alone in little memory", 3, alone_in_little_memory
    yield "a member in little memory beside both others", 3, in_little_memory_beside_others


def main(words):
    program = os.path.abspath(words[0])
    port = int(words[1]) if len(words) > 1 else 47101
    wait = int(words[2]) if len(words) > 2 else 10
    good = True
    for number, (what, size, do) in enumerate(rounds()):
        with tempfile.TemporaryDirectory() as folder:
            well, ends = do(Group(program, port + 10 * number, wait, folder, size))
        good = good and well
        first = ends[0][1].strip().replace("\n", "; ")
        print("%s: %s: %s" % (what, "as it ought to" if well else "NOT as it ought to", first if well else ends), flush=True)
    return 0 if good else 1


if __name__ == "__main__":
    sys.exit(main(sys.argv[1:]))
