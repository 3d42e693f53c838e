"""What the gate asks of each build of the program beside the stored sessions: python3 -m checks.server.program PROGRAM

These checks of serve.py take the place of tests, which would be proved: the command line and how the program ends, streams that fail, the
limits at their full size, and a server with clients and workers on threads. checks/gate/gate.py runs them. The gate leaves out the other
checks, which need more of a machine or take longer.
"""

from checks.server import chapters, connections, editors, entries, late, limits, serve, standing, statuses, streams, tools

CHECKS = (
    statuses.bad_words,
    statuses.helps,
    statuses.one_session,
    statuses.taken_paths,
    statuses.second_server,
    statuses.servers_at_once,
    statuses.after_a_kill,
    statuses.stopped,
    statuses.stopped_now,
    statuses.silent_clients,
    statuses.told_start_and_end,
    statuses.foreign_locks,
    statuses.owner_alone,
    statuses.owner_enters,
    statuses.accepted_later,
    statuses.untold_end,
    *limits.CHECKS,
    editors.in_one_write,
    editors.reply_by_reply_on_pipes,
    editors.two_editors,
    editors.racing_puts,
    editors.workers_at_once,
    editors.workers_behind_one_change,
    editors.none_is_left_behind,
    editors.one_worker_alone,
    editors.all_wake,
    editors.none_missed,
    editors.asleep,
    editors.others_sleep,
    editors.settled_length,
    editors.alone_settled,
    *entries.CHECKS,
    *chapters.CHECKS,
    *standing.CHECKS,
    *late.CHECKS,
    connections.cut_while_sending,
    connections.cut_while_reading,
    *streams.CHECKS,
    *tools.CHECKS,
)

if __name__ == "__main__":
    serve.main(CHECKS)
