"""The notices of `import`, by their names; what stands in them is of the answers of lib/answers.py."""
INTO = " into files *.json of the folder "
MISSING_STATES = (
    "notice MissingStates at hub-on-zone %d: the answers have a later page of the client's consensus states, and not this one; delete the files "
    "consensus_states-*.json of higher numbers in the folder hub-on-zone, and fetch the pages from this one on\n"
)
NO_NEXT_SETS = "notice MissingNextSet at hub-on-zone: no update starts from stored consensus states without their next validators"
MISSING_NEXT_SET = NO_NEXT_SETS + f"; no answer has those of %d consensus states: fetch all pages of /validators?height=%d&per_page=100, for the highest of them,{INTO}hub-4\n"
LEFT_NEXT_SETS = NO_NEXT_SETS + "; those of %d consensus states are of sets of hub-4 that are left out\n"
MISSING_LATEST = (
    "notice MissingLatest at hub-on-zone %d: the client's latest height is not among its stored consensus states, so that its answers are of two moments or of two "
    "nodes, or pages of consensus states are missing; fetch client_states and all pages of consensus_states of the client again, from one node,"
    f"{INTO}hub-on-zone\n"
)
NOT_CANONICAL = (
    "notice NotCanonical at hub-4 %d: %d commits, this the highest, are not canonical yet, since the node had no next block; the chain may store more "
    "votes of them, so that an update costs more; fetch /commit?height=%d again, in place of that answer\n"
)
TOO_MANY_RECORDS = "notice TooManyRecords at %s: %d of its stored consensus states, the lowest, are left out; a light store holds 4,096 consensus states\n"
TOO_MANY_HEADERS = "notice TooManyHeaders at hub-4: %d of its headers, the lowest, are left out; a light store holds 4,096 consensus states\n"
TOO_MANY_SETS = "notice TooManySets at hub-4: %d of its validator sets, the lowest, are left out, with %d headers of them; a light store holds 1,024 sets\n"
UNSEEN_GOAL = (
    "notice UnseenGoal at hub-on-zone %d: hub-4 has no header %s height, so that no update reaches it; fetch /commit?height=%d and all pages of "
    f"/validators?height=%d&per_page=100{INTO}hub-4\n"
)
NOTHING_TRUSTED = (
    "notice NothingTrusted at hub-on-zone: %s, so that no update starts from any; see whether the window is right, or fetch the client's "
    f"consensus states again{INTO}hub-on-zone\n"
)
FUTURE_HEADERS = (
    "notice FutureHeaders at hub-on-zone %d: headers of hub-4 from this height on, %d of them, are ahead of the window's first moment by the "
    "client's clock drift or more, so that no update takes them; let the window begin later\n"
)
MISSING_SEARCHES = (
    "notice MissingSearches at transfers: no answer of /tx_search tells of %s, nor is there an empty answer to each such search; nothing is planned for "
    f"packets that aren't seen as sent, and those that aren't seen as received or cleared are planned again; fetch all pages of /tx_search{INTO}transfers\n"
)
SEVERAL_COUNTERPARTIES = (
    "notice SeveralCounterparties at transfers: packets were sent from its source to several destinations: those to transfer/%s are taken, those to others, "
    "as transfer/%s, are passed over; write counterparty_port and counterparty_channel, beside port and channel, into the setup's path, so that they decide\n"
)
NOTHING_FRESH = (
    "notice NothingFresh at hub-on-zone: its consensus states are due for a refresh by the window's end, and no header of hub-4 is young enough for it, so that "
    f"none is planned; fetch /commit and /validators of later heights{INTO}hub-4\n"
)
TOO_MANY_PACKETS = (
    "notice TooManyPackets at transfers: %d of its packets, from %d on, are left out, since a path holds 4,096; if all packets before %d are "
    "finished, give the path first = %d in the setup\n"
)
OTHER_CHANNEL = "notice OtherChannel at transfers: the answers tell of packets of transfer/channel-0, none of transfer/channel-9; see the path's port and channel\n"
MISSING_SETS = (
    "notice MissingSets at %s %d: %d headers, this the highest, are left out, since no answers have all validators of their sets; fetch all pages of "
    "/validators?height=%d&per_page=100 into files *.json of the folder %s\n"
)
UNSIGNED_HEADERS = (
    "notice UnsignedHeaders at %s %d: %d headers, this the highest, are left out, since the votes that count for them are not more than two thirds of their "
    "validators' power; fetch /commit?height=%d again, from another node if it stays; with --verified run tools/verify_commits first\n"
)
UNVERIFIED_COMMITS = (
    "notice UnverifiedCommits at %s: its folder has no verdicts.json, so that signatures count as the node gave them; run tools/verify_commits, and import with "
    "--verified\n"
)
MISSING_HEADERS = (
    "notice MissingHeaders at hub-4: no header of it is written, so that there is nothing to update to; fetch /commit and /validators of some heights"
    f"{INTO}hub-4\n"
)
LACKS = {"MissingSend": ("no answer has the packet's send_packet", "/tx_search with it (where the node keeps it no more, set the path's `first` above the packet)"),
         "MissingReceive": ("no answer has the packet's recv_packet", "/tx_search with it"),
         "MissingReceipt": ("no answer tells whether the packet was received", "unreceived_packets of the destination, with this packet among them,")}


def lacking(name, sequence, file):
    """The line of a packet that is left out; a file of the path's folder tells of it."""
    words, remedy = LACKS[name]
    return (f"notice {name} at transfers {sequence}: {{folder}}/transfers/{file}.json: {words}, so that it is left out, on an ordered path with those behind it; "
            f"fetch {remedy}{INTO}transfers\n")


MORE_PACKETS = "notice MorePackets at transfers %d: %d more packets, this the first, are left out alike\n"
NOT_VERIFIED = (
    "notice NotVerified at %s: verdicts.json has no verdict on the commits of %d headers, so that their signatures were not verified; "
    "run tools/verify_commits again\n"
)
PASSED_OVER = "notice PassedOver at %s: answers that aren't needed: %s\n"
