"""Requests that are answered one after the other by `meaning.py`, for bench/replay and bench/record."""

from meaning import List, Objects, Program, Run, is_within_limits, objects_of, records


class Recorder:
    """Answers requests one after the other, by `meaning.py`."""

    def __init__(self, program, state, alike):
        self.program = Program(program)
        empty = Objects(self.program.stores, self.program.tables)
        self.objects = objects_of(state, self.program, empty, List, is_within_limits)
        self.alike, self.known = alike, {}

    def run(self, request):
        """The response, and how many operations and steps it took; known where all requests for a path are alike."""
        path, parameters = request
        if path in self.known:
            return self.known[path]
        pairs = [(name.encode(), value.encode()) for name, value in parameters.items()]
        run = Run(self.program, b"GET", path.encode(), pairs, b"")
        while run.operation:
            run.answer(self.objects.apply(run.operation, None))
        answered = run.response, run.issued, run.steps
        if self.alike:
            self.known[path] = answered
        return answered

    def record(self, number, request):
        """The records of a request in the trace and in the schedule, its moments and its steps."""
        response, issued, steps = self.run(request)
        path, parameters = request
        pairs = [(name.encode(), value.encode()) for name, value in parameters.items()]
        asked = [("request", number, b"GET", path.encode(), pairs, b""), ("response", number, *response)]
        moments = [("arrive", number), *[("act", number, None)] * issued, ("depart", number)]
        return records.write("trace", asked)[8:], records.write("schedule", moments)[8:], len(moments), steps


def recorded(program, state, requests, alike):
    """The records of each request."""
    recorder = Recorder(program, state, alike)
    return [recorder.record(number, request) for number, request in enumerate(requests)]
