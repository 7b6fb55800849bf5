"""A run of the program on a source and an input in a folder of its own, and the forms that its answers may have."""
import os
import re
import resource
import signal
import subprocess
import tempfile
import time

# What each status comes with. Want of memory writes nothing.
FORMS = {
    0: r"(?s).*",
    1: r"fault F[1-8] at [0-9]+:[0-9]+\n",
    2: r"refused (?:source size|(?:L[1-5]|P[12]|C[1-9]|C10) at [0-9]+:[0-9]+)\n",
    3: r"refused (?:input size|I2|I[13-6] at line [0-9]+|I6)\n",
    4: r"fault F(?:9|10) at [0-9]+:[0-9]+\n",
    5: r"read fault (?:source|input)\n",
    7: r"usage: .*\n",
    8: r"",
}


class Answer:
    """The status and the text of a run, and how many seconds it took."""

    def __init__(self, status, text, seconds):
        self.status, self.text, self.seconds = status, text, seconds

    def has_a_form(self):
        """Whether the text is one that the status may come with, as it has to be on devices that do not fail."""
        return self.status in FORMS and bool(re.fullmatch(FORMS[self.status], self.text))

    def shown(self):
        return f"status {self.status}, {self.text[:70]!r}"


def run(program, source, given=None, words=(), seconds=120, processor=resource.RLIM_INFINITY):
    """Runs the program on the bytes of a source and of an input. A run that does not end in so many seconds, or so many of a processor, has no status."""
    with tempfile.TemporaryDirectory() as place:
        all_words = [program, "p.sac", *words]
        texts = {"p.sac": source} if given is None else {"p.sac": source, "p.in": given}
        for name, text in texts.items():
            with open(os.path.join(place, name), "wb") as file:
                file.write(text)
        if given is not None:
            all_words += ["--input", "p.in"]
        start = time.monotonic()
        try:
            how = {"preexec_fn": lambda: resource.setrlimit(resource.RLIMIT_CPU, (processor, processor))} if processor != resource.RLIM_INFINITY else {}
            ended = subprocess.run(all_words, cwd=place, stdin=subprocess.DEVNULL, capture_output=True, timeout=seconds, **how)
            status, text = ended.returncode, ended.stdout.decode("latin-1")
            if how and status in (-signal.SIGXCPU, -signal.SIGKILL):
                status = None
        except subprocess.TimeoutExpired:
            status, text = None, ""
        return Answer(status, text, time.monotonic() - start)
