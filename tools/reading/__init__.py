"""The whole behaviour of the forwarder in plain Python: a reading to be read before anything else.

Nothing here is proved, quick or bounded in memory. Each function states its rule, with the RFC and
section if the rule has one. A rule without an RFC is the forwarder's own. In the order of reading:

    messages       names, messages, record data: how they are read and written
    configuration  what a configuration says, and which fault of it is reported first
    replies        whether a reply counts, and which record sets and denials it carries
    cache          which of those are kept, for how long, and how a question is looked up
    answers        what a client is sent
    step           what each event does: a question, a reply, a failure, the time, a restart
    script         scripts of such events, and what they print
"""
