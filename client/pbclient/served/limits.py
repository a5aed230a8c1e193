"""The numbers by which the server decides. Times are in seconds."""

# Sessions that a run of the program serves at once.
LANES = 64
# The longest body of a frame.
BODY = 16_778_240
# The program takes fewer bytes than this of a lane, and some are for bringing it to rest. A lane that took half is lent no more.
LANE_BYTES, LANE_FULL = (1 << 40) - 64, 1 << 39
# After an answer NoMemory the lane may have ended, and its pipes do not tell. A command that is no job is answered in this time.
ALIVE = 60
# So many connections may wait for a lane.
QUEUE = 256
# So many lanes of a run one user may use up, by frames that hold no command.
USED_UP = 3
# A client has this time for its first lines.
HELLO = 10
# The program keeps the order of a run in memory, 32 bytes a command, and saves its book of touches at the run's end. So a run of so many
# commands, or so old, is ended and the store opened anew.
RUN_COMMANDS, RUN_AGE = 2_500_000, 86_400
# New clients wait so long for the sessions of a run that is to end. If some go on then, it is tried again in so long.
RENEWAL, NEXT_RENEWAL = 120, 21_600
# Sessions of a run whose disk failed are ended after this time, and a client that does not take its last replies is left after this one.
HALTED, LAST_REPLIES = 60, 10
# A client may tell so many bytes of damaged chunks, 65 each.
DAMAGED = 65 << 16
# After an opening that failed, and for what a client sends after its end.
RETRY, PARTING = 5, 5
# How often what has no event of its own is looked at.
TICK = 1
