"""A run of the program, whose lanes serve one client after another."""
import os, shutil, subprocess, time

from .lanes import Lane, LaneEnded


class NotOpened(Exception):
    """The program ended before it took sessions, with this status; one below 0 tells the signal."""

    def __init__(self, status):
        self.status = status
        super().__init__(status)


class Run:
    """The program, started on ROOT, with its lanes. Each write end is this process's alone: when it dies, all sessions end."""

    def __init__(self, words, count, work):
        """`words` are the program and its words but for the sessions, `work` a folder for the sessions' names that is not there."""
        self.work, self.lanes, self.program = work, [], None
        self.is_halted, self.began = False, time.monotonic()
        # How many lanes each user used up.
        self.used_up_by = {}
        os.mkdir(work, 0o700)
        try:
            for number in range(count):
                self.lanes.append(Lane(number, os.path.join(work, str(number))))
            # In a session of its own, so that a terminal's interrupt does not reach it. SIGPIPE stays ignored, as Python has it: when the
            # server dies, a reply that nobody reads ends its lane and not the program.
            self.program = subprocess.Popen(
                [*words, *(it.pipes.names[0] for it in self.lanes)],
                stdin=subprocess.DEVNULL, stdout=subprocess.DEVNULL, start_new_session=True, restore_signals=False,
                pass_fds=[end for it in self.lanes for end in it.pipes.given],
            )
            self.open()
        except BaseException:
            self.abandon()
            raise

    def open(self):
        """Waits until the program has opened ROOT, and each of its sessions."""
        for lane in self.lanes:
            lane.pipes.hand_over()
        try:
            for lane in self.lanes:
                lane.rest()
        except LaneEnded:
            raise NotOpened(self.program.wait()) from None
        shutil.rmtree(self.work, ignore_errors=True)

    def is_alive(self):
        return self.program.poll() is None

    def end(self):
        """Ends all sessions; the program then saves its book and ends."""
        for lane in self.lanes:
            lane.close()

    def kill(self):
        self.program.kill()
        self.program.wait()

    def abandon(self):
        """Ends a program that has taken no session."""
        if self.program:
            self.kill()
        self.clear()

    def clear(self):
        """Closes the pipes of a program that has ended, and takes their names away."""
        for lane in self.lanes:
            lane.close()
            lane.pipes.hand_over()
            os.close(lane.replies)
        shutil.rmtree(self.work, ignore_errors=True)
