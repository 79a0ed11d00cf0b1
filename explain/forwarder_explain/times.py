"""All times, in microseconds: each is said once."""

MILLISECOND = 1000
SECOND = 1_000_000
MINUTE = 60 * SECOND
DAY = 86_400 * SECOND
LATEST = 253_402_300_800 * SECOND  # the beginning of the year 10000

# Of a capture.
SAME_PACKET = 5 * MILLISECOND  # between two sights of a packet on interfaces of any kind
SAME_FRAME = MILLISECOND  # between two sights of a packet on one interface, as on a bridge
OUT_OF_ORDER = 100 * MILLISECOND  # by which packets of a file are out of order
LEAP = 500 * MILLISECOND  # a packet earlier than its predecessor by more shows a clock set back
IDLE = MINUTE  # after which a connection is over; the service keeps none for so long
LATE_REPLY = 10 * SECOND  # past the time of a query, in which a reply is still recognised
STREAM_LATE = SECOND  # in which a gap in a stream may still be filled
CUT_WAITS = 2 * SECOND  # between a truncated reply and the connection for it

# Of the service: it counts milliseconds, and a lifetime counts seconds.
DOUBT = SECOND  # of a lifetime
TICK = 5 * MILLISECOND  # between a moment of the service and the moment of its packet
ORDER = 50 * MILLISECOND  # in which packets may be read in another order than captured
AT_ONCE = 50 * MILLISECOND  # in which a machine refuses a question, or all connections end
SAME_MOMENT = MILLISECOND  # in which equal questions get equal answers
LEAST_STEP = 900 * MILLISECOND  # the smallest step of the clock that lifetimes or a reply show
LONGEST_STEP = 30 * DAY

# Of settling: how long a question waits for later packets.
UNANSWERED = 2 * SECOND  # past the deadline, before a question has no answer
REMEMBERED = 40 * SECOND  # after a replacement, for questions from before
EXPIRED = 3700 * SECOND  # after which an expired set is forgotten: the clock may have been set by an hour
HELD = 3600 * SECOND  # in which later packets may show that the clock was set
FILE_OVERLAP = MINUTE  # in which a file has answers to questions of the file before
BACK = 10 * MINUTE  # of a followed capture, read before its first line
FORGET = 2 * SECOND  # between two rounds of forgetting

# Of this program's own waiting, by the clock of this machine.
LOOK = SECOND // 10  # between two looks for more packets
PAUSE = 3 * SECOND // 10  # between two measurements of the delay
BEHIND = 5 * SECOND  # the least delay that is reported
UNHEARD = 30 * SECOND  # without a question, before a remark
